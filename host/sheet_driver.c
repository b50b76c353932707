/* Answers requests about whole sheets, a line each, from standard input on standard output: the way in for the reference's comparison.

     sheet ROOM TEXT                          NUMBER LINE LENGTH BAD_AT BAD_LENGTH PLAN
     sheet_check TEXT                         NUMBER LINE
     sheet_next COUNT INSTANT,.. TEXT         NUMBER LINE INSTANT,.. : COUNT answers from each instant, each asked from the one before, or
                                              up to a refusal
     sheet_previous COUNT INSTANT,.. TEXT     likewise

   ROOM is the length of the buffer, at most 16,384. TEXT is the sheet, all that is left of the request, written as shown.h says. PLAN is
   the buffer's front, so many bytes as the answer says, written likewise; `-` for none. The other requests ask the plan that the sheet
   becomes in the longest buffer; it is compiled once for those that follow each other. Where there is none: `no plan: NUMBER LINE`.

   Each call is made twice, with sheet and buffer, or the plan, at either side of a page that may not be touched (lent.h), and with NULL in
   one of the two for what has no bytes; a call that goes astray, or writes the sheet or the plan, ends the driver with status 3, and so do
   two searches that differ. A word more is said in the answer where the two ways to compile differ, or where a byte of a buffer or beside
   it changed that may not. A line of another form is answered by `bad request`, and the exit status is then 1; 2 means that reading,
   writing or memory failed. */
#define LENT_DRIVER "sheet_driver"
#include "lent.h"

#include <errno.h>
#include <inttypes.h>

#include "evandrusk.h"
#include "shown.h"

enum { CALLS = 2, MOST_ROOM = 16384 };

typedef evk_found search(const uint8_t *plan, size_t plan_length, int64_t asked);

/* What a call answered: the plan is the bytes of its buffer from there on. */
typedef struct { evk_compiled answer; uint8_t *plan; int fits; } found;

/* The bytes in which a call's buffer lies, whole pages between two that may not be touched; and what is put there before it, so that the
   buffer has those from MOST_ROOM on. None of these is the same for both calls. */
static uint8_t *places[CALLS], before[CALLS][2 * MOST_ROOM];

/* The text that was asked last, and the plan of it to be read; none where it was refused. */
static struct { char *text; size_t length; found made; lent plans[CALLS]; } last;

static void make_places(void) {
    for (int call = 0; call < CALLS; call++) {
        places[call] = lend_room(MOST_ROOM, LENT_BEFORE).bytes;
        for (size_t i = 0; i < sizeof before[call]; i++) {
            uint8_t byte = (uint8_t)(0x5A + 7 * i + i / 256);
            before[call][i] = call == 0 ? byte : (uint8_t)~byte;
        }
    }
}

static const uint8_t *before_of(int call, found f) {
    return before[call] + MOST_ROOM - (f.plan - places[call]);
}

/* The buffer lies at the front of its place for one call and at its end for the other. */
static found compile(int call, const void *sheet, size_t length, size_t room) {
    lent lines = lend(sheet, length, call == 0 ? LENT_AFTER : LENT_BEFORE);
    found f = {{0, 0, 0, 0, 0}, places[call] + (call == 0 ? 0 : MOST_ROOM - room), 0};
    memcpy(places[call], before_of(call, f), MOST_ROOM);
    f.answer = evk_compile(lines.bytes, length, call == 0 && room == 0 ? NULL : f.plan, room);
    f.fits = f.answer.length <= room;
    give_back(lines);
    return f;
}

static int same(found f, found g) {
    return memcmp(&f.answer, &g.answer, sizeof f.answer) == 0 && f.fits && g.fits
           && memcmp(f.plan, g.plan, (size_t)f.answer.length) == 0;
}

static void show(found f) {
    printf("%" PRIu64 " %" PRIu64 " %" PRIu64 " ", f.answer.number, f.answer.line, f.answer.length);
    printf("%" PRIu64 " %" PRIu64 " ", f.answer.bad_at, f.answer.bad_length);
    if (f.fits) {
        show_bytes(f.plan, (size_t)f.answer.length);
    } else {
        fputs("longer than the buffer", stdout);
    }
}

/* Says where a byte outside the plan is another than before the call. */
static void check_place(int call, found f) {
    const uint8_t *held = before_of(call, f);
    size_t at = (size_t)(f.plan - places[call]);
    size_t end = at + (f.fits ? (size_t)f.answer.length : 0);
    if (memcmp(places[call], held, at) == 0 && memcmp(places[call] + end, held + end, MOST_ROOM - end) == 0) {
        return;
    }
    for (size_t i = 0; i < MOST_ROOM; i++) {
        if ((i < at || end <= i) && places[call][i] != held[i]) {
            printf("; byte %td of the buffer changed", (ptrdiff_t)i - (ptrdiff_t)at);
            return;
        }
    }
}

/* Reads a number and the byte after it, a space or a comma: 1, or 0 where none stands. */
static int read_number(char **at, int64_t *number, char *after) {
    char *end;
    errno = 0;
    intmax_t value = strtoimax(*at, &end, 10);
    if (errno != 0 || end == *at || value < INT64_MIN || INT64_MAX < value || (*end != ' ' && *end != ',')) {
        return 0;
    }
    *number = value;
    *after = *end;
    *at = end + 1;
    return 1;
}

static int answer_sheet(char *at, char *end) {
    int64_t room;
    char after;
    if (!read_number(&at, &room, &after) || after != ' ' || room < 0 || MOST_ROOM < room) {
        return 0;
    }
    ptrdiff_t length = shown_bytes(at, (size_t)(end - at));
    if (length < 0) {
        return 0;
    }
    found founds[CALLS];
    for (int call = 0; call < CALLS; call++) {
        founds[call] = compile(call, at, (size_t)length, (size_t)room);
    }
    show(founds[0]);
    if (!same(founds[0], founds[1])) {
        fputs("; elsewhere ", stdout);
        show(founds[1]);
    }
    for (int call = 0; call < CALLS; call++) {
        check_place(call, founds[call]);
    }
    return 1;
}

static int has_plan(void) {
    return last.made.answer.number == EVK_TAKEN && last.made.fits;
}

static void forget(void) {
    for (int call = 0; has_plan() && call < CALLS; call++) {
        give_back(last.plans[call]);
    }
    free(last.text);
    last.text = NULL;
    last.made.fits = 0;
}

/* Makes the text's plan the last one: 1, or 0 where it is no text. */
static int remember(char *text, char *end) {
    size_t written = (size_t)(end - text);
    if (last.text != NULL && last.length == written && memcmp(last.text, text, written) == 0) {
        return 1;
    }
    forget();
    last.text = malloc(written + 1);
    lent_need(last.text != NULL);
    memcpy(last.text, text, written);
    last.length = written;
    ptrdiff_t length = shown_bytes(text, written);
    if (length < 0) {
        forget();
        return 0;
    }
    last.made = compile(0, text, (size_t)length, MOST_ROOM);
    for (int call = 0; has_plan() && call < CALLS; call++) {
        last.plans[call] = lend(last.made.plan, (size_t)last.made.answer.length, call == 0 ? LENT_AFTER : LENT_BEFORE);
    }
    return 1;
}

static void say_no_plan(void) {
    printf("no plan: %" PRIu64 " %" PRIu64, last.made.answer.number, last.made.answer.line);
}

/* Ends the driver where two calls with the same numbers answer otherwise. */
static void need_same(int same) {
    if (!same) {
        fputs("sheet_driver: the answer depends on where the plan lies\n", stderr);
        exit(3);
    }
}

static int answer_check(char *at, char *end) {
    if (!remember(at, end)) {
        return 0;
    }
    if (!has_plan()) {
        say_no_plan();
        return 1;
    }
    evk_checked r = evk_check(last.plans[0].bytes, (size_t)last.made.answer.length);
    evk_checked s = evk_check(last.plans[1].bytes, (size_t)last.made.answer.length);
    need_same(r.number == s.number && r.line == s.line);
    printf("%" PRIu64 " %" PRIu64, r.number, r.line);
    return 1;
}

static evk_found find(search *one, int64_t asked) {
    evk_found r = one(last.plans[0].bytes, (size_t)last.made.answer.length, asked);
    evk_found s = one(last.plans[1].bytes, (size_t)last.made.answer.length, asked);
    need_same(r.number == s.number && r.line == s.line && r.instant == s.instant);
    return r;
}

static void in_turn(search *one, int64_t asked, int64_t count) {
    evk_found r = {EVK_TAKEN, 0, asked};
    for (int64_t k = 0; k < count && r.number == EVK_TAKEN; k++) {
        r = find(one, r.instant);
        printf("%s%" PRIu64 " %" PRIu64 " %" PRId64, k == 0 ? "" : ",", r.number, r.line, r.instant);
    }
}

/* Whether instants with commas between stand there, up to the text. */
static int are_instants(char *at, const char *text) {
    int64_t asked;
    char after = ',';
    while (after == ',') {
        if (!read_number(&at, &asked, &after)) {
            return 0;
        }
    }
    return at == text;
}

static int searches(search *one, char *at, char *end) {
    int64_t count, asked;
    char after;
    if (!read_number(&at, &count, &after) || after != ' ' || count < 1) {
        return 0;
    }
    char *text = memchr(at, ' ', (size_t)(end - at));
    if (text == NULL || !are_instants(at, text + 1) || !remember(text + 1, end)) {
        return 0;
    }
    if (!has_plan()) {
        say_no_plan();
        return 1;
    }
    const char *between = "";
    for (after = ','; after == ',' && read_number(&at, &asked, &after); between = ",") {
        fputs(between, stdout);
        in_turn(one, asked, count);
    }
    return 1;
}

static int answer_next(char *at, char *end) {
    return searches(evk_next, at, end);
}

static int answer_previous(char *at, char *end) {
    return searches(evk_previous, at, end);
}

static const struct request {
    const char *name;
    int (*answer)(char *at, char *end);
} requests[] = {
    {"sheet ", answer_sheet},
    {"sheet_check ", answer_check},
    {"sheet_next ", answer_next},
    {"sheet_previous ", answer_previous},
};

/* Answers one request, without its LF: 1, or 0 for a bad one. */
static int answer(char *request, size_t length) {
    for (size_t i = 0; i < sizeof requests / sizeof requests[0]; i++) {
        size_t name = strlen(requests[i].name);
        if (strncmp(request, requests[i].name, name) == 0) {
            return requests[i].answer(request + name, request + length);
        }
    }
    return 0;
}

int main(void) {
    char *request = NULL;
    size_t room = 0;
    ssize_t length;
    int status = 0;
    lent_start();
    make_places();
    while ((length = getline(&request, &room, stdin)) > 0) {
        length -= request[length - 1] == '\n';
        request[length] = 0;
        if (!answer(request, (size_t)length)) {
            fputs("bad request", stdout);
            status = 1;
        }
        putchar('\n');
    }
    free(request);
    forget();
    lent_need(!ferror(stdin) && fflush(stdout) == 0 && !ferror(stdout));
    return status;
}
