/* The frames that the bench and the stack test ask, as the search holds them: kind, then the fields of the frame. */
#ifndef BENCH_FRAMES_H
#define BENCH_FRAMES_H

#include <stddef.h>
#include <stdint.h>

enum { NUMBERS = 18 };

typedef uint64_t frame[NUMBERS];

uint64_t probe_list_least(const frame *frames, size_t count, uint64_t low, uint64_t high);
uint64_t probe_list_last(const frame *frames, size_t count, uint64_t low, uint64_t high);

enum { MINUTES = 52596000, CASES = 16 };

/* A local time of the window as a calendar shows it, at a full hour. */
struct when {
    int year, month, day, hour;
};

/* Its local minute, by counting days. From 2000 to 2099 every fourth year is leap. */
static uint64_t minute_of(struct when t) {
    static const int lengths[] = {31, 28, 31, 30, 31, 30, 31, 31, 30, 31, 30, 31};
    int days = t.day - 1;
    for (int y = 2000; y < t.year; y++) {
        days += y % 4 == 0 ? 366 : 365;
    }
    for (int m = 1; m < t.month; m++) {
        days += lengths[m - 1] + (m == 2 && t.year % 4 == 0);
    }
    return (uint64_t)days * 1440 + (uint64_t)t.hour * 60;
}

/* 2026-01-01 00:00 is local minute 13675680, a Thursday; 20000000 is 2038-01-09 21:20, a Saturday; 13681440 is 2026-01-05 00:00.
   The answers are read off a calendar as it says beside them, and python3-dateutil gives the same. Year 0 stands for none. */
static const struct bench_case {
    const char *name;
    frame frames[64];
    uint64_t low;
    struct when least;       /* the least from low on */
    struct when first, last; /* of the whole window */
    uint64_t most;           /* instructions allowed, 0 for no limit */
} bench_cases[CASES] = {
    /* no February has a 30th */
    {"0 0 30 2 *, which holds nothing", {{3, 1, 1, 1u << 30, 1u << 2, 127, 5}}, 0,
     {0, 0, 0, 0}, {0, 0, 0, 0}, {0, 0, 0, 0}, 60000},
    /* 06:00 on 9 January is past */
    {"daily from 2026-01-01 06:00", {{4, 1, 1, 13676040, 52595999}}, 20000000,
     {2038, 1, 10, 6}, {2026, 1, 1, 6}, {2099, 12, 31, 6}, 2000},
    /* start on a Friday; the Monday 2038-01-04 is 627 weeks, a multiple of three, after the start's, 2025-12-29, and its Friday is past */
    {"every third week, Monday and Friday", {{4, 2, 3, 13677120, 52595999, 34}}, 20000000,
     {2038, 1, 25, 0}, {2026, 1, 2, 0}, {2099, 12, 28, 0}, 2000},
    /* 5 and 27 times 999 days after 2026-01-01; 4 times is 2036-12-10 */
    {"every 999th day", {{4, 1, 999, 13676040, 52595999}}, 20000000,
     {2039, 9, 5, 6}, {2026, 1, 1, 6}, {2099, 11, 7, 6}, 2000},
    /* 1 and 3 times 6993 days after the Sunday 2026-01-04 */
    {"every 999th week, Sunday", {{4, 2, 999, 13680360, 52595999, 1}}, 20000000,
     {2045, 2, 26, 6}, {2026, 1, 4, 6}, {2083, 6, 13, 6}, 2000},
    /* 14 days after the Saturday 2026-01-03; the last Saturday of 2099 is 1930 times 14 days after it */
    {"every second week, Saturday, asked on the Monday after", {{4, 2, 2, 13678920, 52595999, 64}}, 13681440,
     {2026, 1, 17, 6}, {2026, 1, 3, 6}, {2099, 12, 26, 6}, 2000},
    /* 31 January is a Sunday in 2038 and a Saturday in 2026; 2099 ends on a Thursday */
    {"monthly, last workday", {{4, 3, 1, 13717440, 52595999, 62, 0, 0, 0, 0, 0, 2}}, 20000000,
     {2038, 1, 29, 0}, {2026, 1, 30, 0}, {2099, 12, 31, 0}, 0},
    /* the next leap year, the window's first and its last */
    {"0 0 29 2 *", {{3, 1, 1, 1u << 29, 1u << 2, 127, 5}}, 13675680,
     {2028, 2, 29, 0}, {2000, 2, 29, 0}, {2096, 2, 29, 0}, 0},
    /* a Friday, before the 13th: the day after the Thursday; 2000 begins on a Saturday */
    {"0 0 13 * 5", {{3, 1, 1, 1u << 13, 8190, 32, 3}}, 13675680,
     {2026, 1, 2, 0}, {2000, 1, 7, 0}, {2099, 12, 25, 0}, 0},
    /* of every year one */
    {"yearly on 1 June", {{4, 4, 1, 219240, 52595999, 0, 1u << 1, 0, 0, 0, 0, 0, 1u << 6}}, 20000000,
     {2038, 6, 1, 6}, {2000, 6, 1, 6}, {2099, 6, 1, 6}, 2000},
    /* days 1 to 15 and the last five, of these Monday to Friday, first Sundays and last Saturdays, in every month, of the year's the 1st,
       20th, 31st, last and 31st from the end: in 2038 1 January, 4 and 26 February, 3 November and 31 December */
    {"yearly with every limit and positions", {{4, 4, 1, 360, 52595999, 62, 0xfffe, 0x3e, 1ull << 32, 64ull << 32, 0x80100002, 0x80000002, 8190}}, 20000000,
     {2038, 2, 4, 6}, {2000, 1, 2, 6}, {2099, 12, 31, 6}, 6000},
    {"the same, asked on 27 February", {{4, 4, 1, 360, 52595999, 62, 0xfffe, 0x3e, 1ull << 32, 64ull << 32, 0x80100002, 0x80000002, 8190}}, 20070000,
     {2038, 11, 3, 6}, {2000, 1, 2, 6}, {2099, 12, 31, 6}, 6000},
    {"the same, asked after the year's last", {{4, 4, 1, 360, 52595999, 62, 0xfffe, 0x3e, 1ull << 32, 64ull << 32, 0x80100002, 0x80000002, 8190}}, 20511840,
     {2039, 1, 2, 6}, {2000, 1, 2, 6}, {2099, 12, 31, 6}, 6000},
    /* the 29th is a Thursday in 2024, and again 28 years later */
    {"29 February on a Thursday", {{4, 4, 1, 12708360, 52595999, 16, 1u << 29, 0, 0, 0, 0, 0, 1u << 2}}, 12709440,
     {2052, 2, 29, 6}, {2024, 2, 29, 6}, {2080, 2, 29, 6}, 40000},
    {"29 February on a Thursday, every 28th year", {{4, 4, 28, 12708360, 52595999, 16, 1u << 29, 0, 0, 0, 0, 0, 1u << 2}}, 12709440,
     {2052, 2, 29, 6}, {2024, 2, 29, 6}, {2080, 2, 29, 6}, 40000},
    {"29 February on a Thursday, every 999th year", {{4, 4, 999, 12708360, 52595999, 16, 1u << 29, 0, 0, 0, 0, 0, 1u << 2}}, 12709440,
     {0, 0, 0, 0}, {2024, 2, 29, 6}, {2024, 2, 29, 6}, 40000},
};

/* What the search says: the minute, or the range's end for none. */
static uint64_t least_of(struct when t) {
    return t.year == 0 ? MINUTES : minute_of(t);
}

#endif
