/* dates WAY DAY STEP TIMES: the date of a day number, of the one so many days later and so on, so many times, by Evandrusk, by a published
   algorithm or by libical; the last answer is printed. By `evandrusk_iso` it is the ISO date. Every way is called in the same loop and answers
   in Evandrusk's struct. */
#include <inttypes.h>
#include <libical/ical.h>
#include <stdio.h>
#include <stdlib.h>
#include <string.h>

#include "evandrusk.h"

/* Howard Hinnant, "chrono-Compatible Low-Level Date Algorithms", civil_from_days: years from March on, eras of 400 years. */
static evk_date hinnant(int64_t day) {
    int64_t z = day + 719468;
    int64_t era = (z >= 0 ? z : z - 146096) / 146097;
    unsigned doe = (unsigned)(z - era * 146097);
    unsigned yoe = (doe - doe / 1460 + doe / 36524 - doe / 146096) / 365;
    unsigned doy = doe - (365 * yoe + yoe / 4 - yoe / 100);
    unsigned mp = (5 * doy + 2) / 153;
    unsigned d = doy - (153 * mp + 2) / 5 + 1;
    unsigned m = mp < 10 ? mp + 3 : mp - 9;
    evk_date found = {EVK_TAKEN, (int64_t)yoe + era * 400 + (m <= 2), m, d};
    return found;
}

/* Cassio Neri and Lorenz Schneider, "Euclidean affine functions and their application to calendar algorithms", to_date: years from March on,
   32-bit numbers that are moved up by 82 times 400 years. */
static evk_date neri_schneider(int64_t day) {
    uint32_t n = (uint32_t)day + 719468 + 146097 * 82;
    uint32_t n1 = 4 * n + 3;
    uint32_t c = n1 / 146097;
    uint32_t nc = n1 % 146097 / 4;
    uint32_t n2 = 4 * nc + 3;
    uint64_t p2 = UINT64_C(2939745) * n2;
    uint32_t z = (uint32_t)(p2 / UINT64_C(4294967296));
    uint32_t ny = (uint32_t)(p2 % UINT64_C(4294967296)) / 2939745 / 4;
    uint32_t y = 100 * c + z;
    uint32_t n3 = 2141 * ny + 197913;
    uint32_t m = n3 / 65536;
    uint32_t d = n3 % 65536 / 2141;
    uint32_t j = ny >= 306;
    evk_date found = {EVK_TAKEN, (int32_t)(y - 400 * 82 + j), j ? m - 12 : m, d + 1};
    return found;
}

/* By the seconds of Unix, as a date. */
static evk_date libical(int64_t day) {
    struct icaltimetype at = icaltime_from_timet_with_zone((time_t)(day * 86400), 1, NULL);
    evk_date found = {EVK_TAKEN, at.year, at.month, at.day};
    return found;
}

static const struct {
    const char *name;
    evk_date (*date_of_day)(int64_t day);
} ways[] = {{"evandrusk", evk_date_of_day}, {"neri_schneider", neri_schneider}, {"hinnant", hinnant}, {"libical", libical}};
enum { WAYS = sizeof ways / sizeof ways[0] };

int main(int argc, char **argv) {
    if (argc != 5) {
        return 2;
    }
    volatile int64_t asked = strtoll(argv[2], NULL, 10); /* read anew each time, so that no answer is kept */
    int64_t step = strtoll(argv[3], NULL, 10);
    long times = strtol(argv[4], NULL, 10);
    if (strcmp(argv[1], "evandrusk_iso") == 0) {
        evk_iso found = {0, 0, 0, 0};
        for (long k = 0; k < times; k++) {
            found = evk_iso_of_day(asked);
            asked += step;
        }
        printf("%04" PRId64 "-W%02" PRId64 "-%" PRId64 "\n", found.year, found.week, found.weekday);
        return 0;
    }
    for (int way = 0; way < WAYS; way++) {
        if (strcmp(argv[1], ways[way].name) == 0) {
            evk_date found = {0, 0, 0, 0};
            for (long k = 0; k < times; k++) {
                found = ways[way].date_of_day(asked);
                asked += step;
            }
            printf("%04" PRId64 "-%02" PRId64 "-%02" PRId64 "\n", found.year, found.month, found.day);
            return 0;
        }
    }
    return 2;
}
