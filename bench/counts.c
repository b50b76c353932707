/* Runs one count of occurrences once, or not at all: the difference of the two runs is what the count costs.
   counts NUMBER 0|1, or counts alone for the cases' names and limits. Exit status 1 for a wrong answer. */
#include <stdio.h>
#include <stdlib.h>

#include "frames.h"

uint64_t probe_nth_day(const uint64_t *numbers, uint64_t count, uint64_t low);

enum { COUNTS = 9, DAY = 1440 };

/* From the start's day on. 13676040 is 2026-01-01 06:00, a Thursday and local day 9497; 360 is 2000-01-01 06:00, a Saturday.
   Where a rule has fewer occurrences, all of the window is counted, and year 0 stands for none. */
static const struct {
    const char *name;
    frame frame;
    uint64_t count, low;
    struct when day;
    uint64_t most; /* instructions allowed */
} counts[COUNTS] = {
    /* 9,998 days after the start */
    {"daily, the 9,999th", {4, 1, 1, 13676040, 52595999}, 9999, 9497, {2053, 5, 17, 0}, 80000},
    /* the 4th is the Tuesday after the start's Thursday, and 9,995 days of a five-day week are 1,999 weeks */
    {"weekly, Monday to Friday, the 9,999th", {4, 2, 1, 13676040, 52595999, 62}, 9999, 9497, {2064, 4, 29, 0}, 110000},
    {"monthly on the 1st, the 1,200th", {4, 3, 1, 360, 52595999, 0, 2}, 1200, 0, {2099, 12, 1, 0}, 300000},
    /* 29,994 days after the start */
    {"every third day, the 9,999th", {4, 1, 3, 360, 52595999}, 9999, 0, {2082, 2, 13, 0}, 450000},
    {"every second day of Monday to Friday up to the 23rd, all", {4, 1, 2, 360, 52595999, 62, 0xfffffe}, 9999, 0, {0, 0, 0, 0}, 600000},
    {"every third week, Monday to Friday, all", {4, 2, 3, 360, 52595999, 62}, 9999, 0, {0, 0, 0, 0}, 450000},
    /* the last month ends on a Thursday */
    {"monthly, last workday, the 1,200th", {4, 3, 1, 360, 52595999, 62, 0, 0, 0, 0, 0, 2}, 1200, 0, {2099, 12, 31, 0}, 1200000},
    /* 219240 is 2000-06-01 06:00, local day 152, and 3240 is 2000-01-03 06:00, local day 2 and the year's first workday */
    {"yearly on 1 June, the 100th", {4, 4, 1, 219240, 52595999, 0, 2, 0, 0, 0, 0, 0, 64}, 100, 152, {2099, 6, 1, 0}, 200000},
    {"yearly, first and last workday, the 200th", {4, 4, 1, 3240, 52595999, 62, 0, 0, 0, 0, 2, 2}, 200, 2, {2099, 12, 31, 0}, 480000},
};

int main(int argc, char **argv) {
    if (argc < 3) {
        for (int k = 0; k < COUNTS; k++) {
            printf("%s|%llu\n", counts[k].name, (unsigned long long)counts[k].most);
        }
        return 0;
    }
    int k = atoi(argv[1]);
    if (k < 0 || COUNTS <= k) {
        return 2;
    }
    uint64_t wanted = least_of(counts[k].day) / DAY, found = wanted;
    if (argv[2][0] == '1') {
        found = probe_nth_day(counts[k].frame, counts[k].count, counts[k].low);
    }
    puts(found == wanted ? "right" : "wrong");
    return found == wanted ? 0 : 1;
}
