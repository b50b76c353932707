/* Answers requests about a sheet line, a line each, from standard input on standard output, by the test entry of the crate probe:

     line BEFORE CHANGES LOW OFFSET ROOM TEXT     NUMBER LENGTH FRAME

   BEFORE says what stands before the line: 0 nothing, 1 a Z and CHANGES of T, 2 other lines. LOW is the least instant of a next transition
   and OFFSET the offset before it, both moved up by 1,440. ROOM is the length of the buffer, at most 4,096. TEXT is the line without LF, all
   that is left of the request, written as shown.h says. FRAME is the buffer's front, so many bytes as the answer says, written likewise; `-`
   for none. A frame for which the buffer has no room is not written: `0 0 -`.

   Each call is made twice, with line and buffer at either side of a page that may not be touched (lent.h); a call that goes astray, or
   writes the line, ends the driver with status 3. A word more is said in the answer where the two calls differ, or a byte of a buffer
   changed that may not. A line of another form is answered by `bad request`, and the exit status is then 1; 2 means that reading,
   writing or memory failed. */
#define LENT_DRIVER "line_driver"
#include "lent.h"

#include <errno.h>
#include <inttypes.h>

#include "shown.h"

enum { CALLS = 2, NUMBERS = 5, MOST_ROOM = 4096 };

typedef struct { uint64_t number, length; } probe_line_answer;

probe_line_answer probe_line(const uint8_t *line, size_t line_length, uint64_t before, uint64_t changes, uint64_t low, uint64_t offset,
                             uint8_t *frame, size_t frame_length);

/* The bytes in which a call's buffer lies, whole pages between two that may not be touched, and what they hold before each call. */
typedef struct { uint8_t *bytes; uint8_t before[MOST_ROOM]; } place;

/* What a call answered: the frame is the bytes of its buffer from there on. */
typedef struct { probe_line_answer answer; const uint8_t *frame; int fits; } found;

static place places[CALLS];

static void make_places(void) {
    for (int call = 0; call < CALLS; call++) {
        places[call].bytes = lend_room(MOST_ROOM, LENT_BEFORE).bytes;
        for (size_t i = 0; i < MOST_ROOM; i++) {
            places[call].before[i] = (uint8_t)(0x5A + 0x9D * call + 7 * i);
        }
        memcpy(places[call].bytes, places[call].before, MOST_ROOM);
    }
}

/* The buffer lies at the front of its place for one call and at its end for the other. */
static found ask(int call, const void *line, size_t length, const uint64_t *numbers) {
    size_t room = (size_t)numbers[4];
    uint8_t *frame = places[call].bytes + (call == 0 ? 0 : MOST_ROOM - room);
    found f = {{0, 0}, frame, 0};
    f.answer = probe_line(line, length, numbers[0], numbers[1], numbers[2], numbers[3], frame, room);
    f.fits = f.answer.length <= room;
    return f;
}

static int same(found f, found g) {
    return f.answer.number == g.answer.number && f.answer.length == g.answer.length && f.fits && g.fits
           && memcmp(f.frame, g.frame, (size_t)f.answer.length) == 0;
}

static void show(found f) {
    printf("%" PRIu64 " %" PRIu64 " ", f.answer.number, f.answer.length);
    if (f.fits) {
        show_bytes(f.frame, (size_t)f.answer.length);
    } else {
        fputs("longer than the buffer", stdout);
    }
}

/* Says where a byte outside the frame is another than before the call, and makes the place as it was. */
static void check_place(int call, found f) {
    place *p = &places[call];
    size_t at = (size_t)(f.frame - p->bytes);
    size_t end = at + (f.fits ? (size_t)f.answer.length : 0);
    int kept = memcmp(p->bytes, p->before, at) == 0 && memcmp(p->bytes + end, p->before + end, MOST_ROOM - end) == 0;
    for (size_t i = 0; !kept && i < MOST_ROOM; i++) {
        if ((i < at || end <= i) && p->bytes[i] != p->before[i]) {
            printf("; byte %td of the buffer changed", (ptrdiff_t)i - (ptrdiff_t)at);
            break;
        }
    }
    memcpy(p->bytes + at, p->before + at, end - at);
    if (!kept) {
        memcpy(p->bytes, p->before, MOST_ROOM);
    }
}

static void answer_line(const void *line, size_t length, const uint64_t *numbers) {
    lent lines[CALLS] = {lend(line, length, LENT_BEFORE), lend(line, length, LENT_AFTER)};
    found founds[CALLS];
    for (int call = 0; call < CALLS; call++) {
        founds[call] = ask(call, lines[call].bytes, length, numbers);
        give_back(lines[call]);
    }
    show(founds[0]);
    if (!same(founds[0], founds[1])) {
        fputs("; elsewhere ", stdout);
        show(founds[1]);
    }
    for (int call = 0; call < CALLS; call++) {
        check_place(call, founds[call]);
    }
}

/* Answers one request, without its LF: 1, or 0 for a bad one. */
static int answer(char *request, size_t length) {
    static const char name[] = "line ";
    uint64_t numbers[NUMBERS];
    if (strncmp(request, name, sizeof name - 1) != 0) {
        return 0;
    }
    char *at = request + sizeof name - 1;
    for (int i = 0; i < NUMBERS; i++) {
        char *end;
        errno = 0;
        numbers[i] = strtoumax(at, &end, 10);
        if (errno != 0 || *at < '0' || '9' < *at || *end != ' ') {
            return 0;
        }
        at = end + 1;
    }
    ptrdiff_t bytes = shown_bytes(at, length - (size_t)(at - request));
    if (bytes < 0 || MOST_ROOM < numbers[4]) {
        return 0;
    }
    answer_line(at, (size_t)bytes, numbers);
    return 1;
}

int main(void) {
    char *request = NULL;
    size_t room = 0;
    ssize_t length;
    int status = 0;
    lent_start();
    make_places();
    while ((length = getline(&request, &room, stdin)) > 0) {
        length -= request[length - 1] == '\n';
        request[length] = 0;
        if (!answer(request, (size_t)length)) {
            fputs("bad request", stdout);
            status = 1;
        }
        putchar('\n');
    }
    free(request);
    lent_need(!ferror(stdin) && fflush(stdout) == 0 && !ferror(stdout));
    return status;
}
