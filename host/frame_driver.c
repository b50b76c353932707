/* Answers requests about frames, a line each, from standard input on standard output, by the test entries of the crate probe:

     rising FROM COUNT LINE ..     the first COUNT held local minutes from FROM on, rising
     falling FROM COUNT LINE ..    the first COUNT held local minutes from FROM down, falling
     nth COUNT LINE                the local day of the COUNT-th occurrence of a rule, `-` where there are fewer

   LINE is a plan's line of kind 03 to 06, in hex. The frames are lent between pages that may not be touched (lent.h): where a call goes
   astray the exit status is 3. */
#define LENT_DRIVER "frame_driver"
#include "lent.h"

#include <inttypes.h>
#include <stdio.h>
#include <stdlib.h>
#include <string.h>

enum { FRAMES = 64, NUMBERS = 18, LINE_ROOM = 65536, MINUTES = 52596000, DAYS = 36525 };

typedef uint64_t frame[NUMBERS];

uint64_t probe_list_least(const frame *frames, size_t count, uint64_t low, uint64_t high);
uint64_t probe_list_last(const frame *frames, size_t count, uint64_t low, uint64_t high);
uint64_t probe_nth_day(const uint64_t *numbers, uint64_t count, uint64_t low);

/* How many hex digits each number of a frame has, by kind; 0 ends them. */
static const int digits[7][NUMBERS] = {
    {0}, {0}, {0}, {16, 8, 8, 4, 2, 2}, {2, 4, 8, 8, 2, 8, 8, 10, 10, 8, 8, 4}, {8}, {8},
};

static int read_digits(const char **at, int count, uint64_t *number) {
    char text[17];
    if (strlen(*at) < (size_t)count) {
        return 0;
    }
    memcpy(text, *at, (size_t)count);
    text[count] = 0;
    char *end;
    *number = strtoull(text, &end, 16);
    *at += count;
    return *end == 0;
}

static int read_frame(const char *line, uint64_t *numbers) {
    memset(numbers, 0, sizeof(frame));
    if (!read_digits(&line, 2, &numbers[0]) || numbers[0] < 3 || 6 < numbers[0]) {
        return 0;
    }
    const int *widths = digits[numbers[0]];
    for (int i = 0; i < NUMBERS - 1 && widths[i] != 0; i++) {
        if (!read_digits(&line, widths[i], &numbers[i + 1])) {
            return 0;
        }
    }
    return *line == 0;
}

static void rising(const frame *frames, size_t count, uint64_t from, uint64_t asked) {
    uint64_t low = from;
    for (uint64_t k = 0; k < asked; k++) {
        uint64_t m = probe_list_least(frames, count, low, MINUTES);
        if (m >= MINUTES) {
            return;
        }
        printf("%s%" PRIu64, k == 0 ? "" : " ", m);
        low = m + 1;
    }
}

static void falling(const frame *frames, size_t count, uint64_t from, uint64_t asked) {
    uint64_t high = from + 1;
    for (uint64_t k = 0; k < asked; k++) {
        uint64_t past = probe_list_last(frames, count, 0, high);
        if (past == 0) {
            return;
        }
        printf("%s%" PRIu64, k == 0 ? "" : " ", past - 1);
        high = past - 1;
    }
}

static size_t read_frames(frame *frames) {
    size_t count = 0;
    for (char *word = strtok(NULL, " \n"); word != NULL; word = strtok(NULL, " \n")) {
        if (count == FRAMES || !read_frame(word, frames[count])) {
            return FRAMES + 1;
        }
        count++;
    }
    return count;
}

/* Asked with the rule at either side of a page that may not be touched. */
static void nth(const frame *rule, uint64_t count) {
    uint64_t first_day = (*rule)[3] / 1440;
    lent after = lend(rule, sizeof *rule, LENT_AFTER);
    lent before = lend(rule, sizeof *rule, LENT_BEFORE);
    uint64_t day = probe_nth_day(after.bytes, count, first_day);
    if (probe_nth_day(before.bytes, count, first_day) != day) {
        fputs("frame_driver: the answer depends on where the rule lies\n", stderr);
        exit(3);
    }
    give_back(after);
    give_back(before);
    if (day < DAYS) {
        printf("%" PRIu64, day);
    } else {
        putchar('-');
    }
}

/* The 64 frames do not fill whole pages. They lie at either side of a page that may not be touched, for three requests each: requests that
   come in pairs then see both. */
static lent_side next_side(void) {
    static unsigned requests;
    return requests++ / 3 % 2 == 0 ? LENT_AFTER : LENT_BEFORE;
}

static void in_turn(const frame *frames, size_t count, uint64_t from, uint64_t asked, int up) {
    lent all = lend(frames, FRAMES * sizeof(frame), next_side());
    (up ? rising : falling)(all.bytes, count, from, asked);
    give_back(all);
}

/* Answers one line, without its LF: 1, or 0 for a bad request. */
static int answer(char *line) {
    static frame frames[FRAMES];
    char *name = strtok(line, " \n");
    char *first = strtok(NULL, " \n");
    if (name == NULL || first == NULL) {
        return 0;
    }
    uint64_t from = strtoull(first, NULL, 10);
    if (strcmp(name, "nth") == 0) {
        if (read_frames(frames) != 1) {
            return 0;
        }
        nth((const frame *)frames, from);
        return 1;
    }
    char *second = strtok(NULL, " \n");
    int up = strcmp(name, "rising") == 0;
    if (second == NULL || (!up && strcmp(name, "falling") != 0)) {
        return 0;
    }
    uint64_t asked = strtoull(second, NULL, 10);
    size_t count = read_frames(frames);
    if (count > FRAMES) {
        return 0;
    }
    in_turn((const frame *)frames, count, from, asked, up);
    return 1;
}

int main(void) {
    static char line[LINE_ROOM];
    int status = 0;
    lent_start();
    while (fgets(line, sizeof line, stdin) != NULL) {
        if (!answer(line)) {
            fputs("bad request", stdout);
            status = 1;
        }
        putchar('\n');
    }
    return ferror(stdin) || fflush(stdout) != 0 || ferror(stdout) ? 2 : status;
}
