/* Answers requests about zones, a line each, from standard input on standard output, by the test entries of the crate probe:

     locals FIRST N AT OFFSET .. FROM COUNT     the instants of COUNT local minutes from FROM on, `-` for one outside the window
     offsets FIRST N AT OFFSET .. FROM COUNT    the offsets at COUNT instants from FROM on

   FIRST is the offset before the N transitions, at most 32, all in minutes, instants not below -1440. The zone is one that is taken: the
   limits are compared in the load check, by plan_driver. It goes by value: nothing is lent. */
#include <inttypes.h>
#include <stdio.h>
#include <stdlib.h>
#include <string.h>

/* Inside, instants and offsets are moved up by a day. */
enum { DAY = 1440, MOST_CHANGES = 32, MOST_NUMBERS = 128, LINE_ROOM = 4096 };

typedef struct { uint64_t at, offset; } transition;
typedef struct { uint64_t first; size_t count; transition changes[MOST_CHANGES]; } zone;
typedef struct { uint64_t number, instant; } probe_instant;

uint64_t probe_offset_at(zone zone, uint64_t instant);
probe_instant probe_instant_of_local(zone zone, uint64_t minute);

static zone read_zone(const int64_t *a, int64_t n) {
    zone z = {(uint64_t)(a[0] + DAY), (size_t)n, {{0, 0}}};
    for (int64_t k = 0; k < n; k++) {
        z.changes[k].at = (uint64_t)(a[2 + 2 * k] + DAY);
        z.changes[k].offset = (uint64_t)(a[3 + 2 * k] + DAY);
    }
    return z;
}

static void local(zone z, int64_t m) {
    probe_instant r = probe_instant_of_local(z, (uint64_t)m);
    if (r.number == 0) {
        printf("%" PRId64, (int64_t)r.instant - DAY);
    } else {
        putchar('-');
    }
}

static void offset(zone z, int64_t i) {
    printf("%" PRId64, (int64_t)probe_offset_at(z, (uint64_t)(i + DAY)) - DAY);
}

/* Answers one line: 1, or 0 for a bad request. */
static int answer(char *line) {
    int64_t a[MOST_NUMBERS];
    int64_t given = 0;
    char *name = strtok(line, " \n");
    for (char *word = strtok(NULL, " \n"); word != NULL; word = strtok(NULL, " \n")) {
        if (given == MOST_NUMBERS) {
            return 0;
        }
        a[given++] = strtoll(word, NULL, 10);
    }
    int by_local = name != NULL && strcmp(name, "locals") == 0;
    if (!by_local && (name == NULL || strcmp(name, "offsets") != 0)) {
        return 0;
    }
    if (given < 4 || a[1] < 0 || MOST_CHANGES < a[1] || given != 2 * a[1] + 4) {
        return 0;
    }
    zone z = read_zone(a, a[1]);
    int64_t from = a[given - 2], end = from + a[given - 1];
    for (int64_t n = from; n < end; n++) {
        if (from < n) {
            putchar(' ');
        }
        (by_local ? local : offset)(z, n);
    }
    putchar('\n');
    return 1;
}

int main(void) {
    char line[LINE_ROOM];
    int status = 0;
    while (fgets(line, sizeof line, stdin) != NULL) {
        if (!answer(line)) {
            puts("bad request");
            status = 1;
        }
    }
    return ferror(stdin) || fflush(stdout) != 0 || ferror(stdout) ? 2 : status;
}
