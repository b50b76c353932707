/* pump_head PLAN_FILE INSTANT [COUNT]: the plan's next COUNT doses (5 where none is given) after an instant, as a pump head would ask for
   them. A dose is a line: its instant, and the local time that the wall clock shows then, with the offset in force:

     13801050 2026-03-29 03:30 +0200

   A refusal is its number and line, as last line (`11 0` where there are no more doses), and the exit status is then 1; 2 means that the
   words or the file cannot be read, or that nothing can be written. What it prints of document 01's example stands in pump_head.out. */
#include <errno.h>
#include <inttypes.h>
#include <stdio.h>
#include <stdlib.h>

#include "evandrusk.h"

/* 2000-01-01 is day 10957. */
enum { HOUR = 60, DAY = 1440, FIRST_DAY = 10957 };

/* Reads a whole file: 1, or 0 where that fails. */
static int read_file(const char *name, uint8_t **bytes, size_t *length) {
    FILE *file = fopen(name, "rb");
    size_t room = 0, got;
    *bytes = NULL;
    *length = 0;
    if (file == NULL) {
        return 0;
    }
    do {
        if (*length == room) {
            room = 2 * room + 8192;
            uint8_t *more = realloc(*bytes, room);
            if (more == NULL) {
                return 0;
            }
            *bytes = more;
        }
        got = fread(*bytes + *length, 1, room - *length, file);
        *length += got;
    } while (got > 0);
    int good = !ferror(file);
    fclose(file);
    return good;
}

static int read_number(const char *word, int64_t *number) {
    char *end;
    errno = 0;
    intmax_t value = strtoimax(word, &end, 10);
    *number = value;
    return errno == 0 && end != word && *end == 0 && INT64_MIN <= value && value <= INT64_MAX;
}

/* Of a plan that is taken. The local time of a dose is never before 2000-01-01 00:00. */
static void show(const uint8_t *plan, size_t length, int64_t instant) {
    int64_t offset = evk_offset_at(plan, length, instant).offset;
    int64_t local = instant + offset;
    evk_date date = evk_date_of_day(FIRST_DAY + local / DAY);
    int64_t size = offset < 0 ? -offset : offset;
    printf("%" PRId64 " %04" PRId64 "-%02" PRId64 "-%02" PRId64, instant, date.year, date.month, date.day);
    printf(" %02" PRId64 ":%02" PRId64, local % DAY / HOUR, local % HOUR);
    printf(" %c%02" PRId64 "%02" PRId64 "\n", offset < 0 ? '-' : '+', size / HOUR, size % HOUR);
}

int main(int argc, char **argv) {
    uint8_t *plan;
    size_t length;
    int64_t instant, count = 5;
    if (argc < 3 || 4 < argc || !read_number(argv[2], &instant) || (argc == 4 && !read_number(argv[3], &count))) {
        fputs("usage: pump_head PLAN_FILE INSTANT [COUNT]\n", stderr);
        return 2;
    }
    if (!read_file(argv[1], &plan, &length)) {
        perror(argv[1]);
        return 2;
    }
    int status = 0;
    for (int64_t k = 0; k < count && status == 0; k++) {
        evk_found dose = evk_next(plan, length, instant);
        if (dose.number == EVK_TAKEN) {
            show(plan, length, dose.instant);
            instant = dose.instant;
        } else {
            printf("%" PRIu64 " %" PRIu64 "\n", dose.number, dose.line);
            status = 1;
        }
    }
    free(plan);
    return fflush(stdout) == 0 ? status : 2;
}
