/* Answers requests, a line each, from standard input on standard output: the way in for the reference's comparison.

     day_of_date YEAR MONTH DAY     NUMBER DAY
     date_of_day DAY                NUMBER YEAR MONTH DAY
     iso_of_day DAY                 NUMBER YEAR WEEK WEEKDAY
     day_of_iso YEAR WEEK WEEKDAY   NUMBER DAY

   Signed 64-bit decimal numbers, single spaces, LF (the last one may lack). Answers are flushed at the end of input alone.
   A line of another form is answered by `bad request`, and the exit status is then 1; 2 means that reading or writing failed. */
#include <errno.h>
#include <inttypes.h>
#include <stdio.h>
#include <stdlib.h>
#include <string.h>

#include "evandrusk.h"

enum { MOST_ARGUMENTS = 3, LINE_ROOM = 256 };

static void day_of_date(const int64_t *a) {
    evk_day r = evk_day_of_date(a[0], a[1], a[2]);
    printf("%" PRIu64 " %" PRId64 "\n", r.number, r.day);
}

static void date_of_day(const int64_t *a) {
    evk_date r = evk_date_of_day(a[0]);
    printf("%" PRIu64 " %" PRId64 " %" PRId64 " %" PRId64 "\n", r.number, r.year, r.month, r.day);
}

static void iso_of_day(const int64_t *a) {
    evk_iso r = evk_iso_of_day(a[0]);
    printf("%" PRIu64 " %" PRId64 " %" PRId64 " %" PRId64 "\n", r.number, r.year, r.week, r.weekday);
}

static void day_of_iso(const int64_t *a) {
    evk_day r = evk_day_of_iso(a[0], a[1], a[2]);
    printf("%" PRIu64 " %" PRId64 "\n", r.number, r.day);
}

static const struct request {
    const char *name;
    int arguments;
    void (*answer)(const int64_t *arguments);
} requests[] = {
    {"day_of_date", 3, day_of_date},
    {"date_of_day", 1, date_of_day},
    {"iso_of_day", 1, iso_of_day},
    {"day_of_iso", 3, day_of_iso},
};

/* Reads a line without its LF: 1, or 0 at the end of input. One too long or with a NUL byte comes out empty, which is no request. */
static int read_line(char *line) {
    size_t length = 0;
    int unfit = 0;
    int c = getchar();
    if (c == EOF) {
        return 0;
    }
    for (; c != EOF && c != '\n'; c = getchar()) {
        if (c == 0 || length == LINE_ROOM - 1) {
            unfit = 1;
        } else {
            line[length++] = (char)c;
        }
    }
    line[unfit ? 0 : length] = 0;
    return 1;
}

/* Reads a space and a number at *at, and moves *at behind them: 1, or 0 where they are not there. */
static int read_number(const char **at, int64_t *number) {
    if (**at != ' ') {
        return 0;
    }
    const char *digits = *at + 1 + ((*at)[1] == '-');
    if (*digits < '0' || '9' < *digits) {
        return 0;
    }
    char *end;
    errno = 0;
    intmax_t value = strtoimax(*at + 1, &end, 10);
    if (errno != 0 || value < INT64_MIN || INT64_MAX < value) {
        return 0;
    }
    *at = end;
    *number = value;
    return 1;
}

/* Answers one line: 1, or 0 for a bad request. */
static int answer(const char *line) {
    size_t name = strcspn(line, " ");
    for (size_t i = 0; i < sizeof requests / sizeof requests[0]; i++) {
        const struct request *r = &requests[i];
        if (strlen(r->name) != name || memcmp(r->name, line, name) != 0) {
            continue;
        }
        int64_t arguments[MOST_ARGUMENTS];
        const char *at = line + name;
        for (int k = 0; k < r->arguments; k++) {
            if (!read_number(&at, &arguments[k])) {
                return 0;
            }
        }
        if (*at != 0) {
            return 0;
        }
        r->answer(arguments);
        return 1;
    }
    return 0;
}

int main(void) {
    char line[LINE_ROOM];
    int status = 0;
    while (read_line(line)) {
        if (!answer(line)) {
            puts("bad request");
            status = 1;
        }
    }
    if (ferror(stdin) || fflush(stdout) != 0 || ferror(stdout)) {
        perror("driver");
        return 2;
    }
    return status;
}
