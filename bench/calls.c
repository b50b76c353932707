/* Calls one exported function once, or not at all: the difference of the two counts is what it costs. The functions are those that plans.c
   and sheets.c do not count, and those whose longest argument has more bytes than a string of C99 may have; each on the argument that takes it
   longest of what was tried, dates and ISO dates on the last day.
   calls NUMBER 0|1, or calls alone for the cases' names and limits. Exit status 1 for a wrong answer. */
#include <stdio.h>
#include <stdlib.h>
#include <string.h>

#include "evandrusk.h"
#include "plans.h"

static const uint8_t limited[] = LIMITED_PLAN, no_days[] = PLAN_OF_NO_DAYS, late[] = LATE_PLAN;
enum { LIMITED_LENGTH = sizeof limited - 1, NO_DAYS_LENGTH = sizeof no_days - 1, LATE_LENGTH = sizeof late - 1 }; /* without the string's end */

/* The longest plan has 5,241 bytes, the longest sheet 16,448. */
struct text {
    uint8_t bytes[16448];
    size_t length;
};
static struct text rare, crowded_up, crowded_down, most_limited, most_checked, counted, most_placed, counted_years;

#define MOST_PLACED_RULE \
    "R 20000101T0600 FREQ=YEARLY;BYMONTH=1,2,3,4,5,6,7,8,9,10,11,12;BYDAY=SU,MO,TU,WE,TH,FR,-5SA,-4FR,-4SA,-2SA,-1SA,1MO,1SA,2SA,3SU,3SA,4FR,4SA,5SA;" \
    "BYMONTHDAY=-18,1,4,8,15,22;BYSETPOS=-31,-26,-24,-23,-16,-12,-8,-6,-4,1,4,8,9,12,14,17,20,24,28,29,31;COUNT=9999\n"

static void append(struct text *to, const char *bytes) {
    size_t length = strlen(bytes);
    memcpy(to->bytes + to->length, bytes, length);
    to->length += length;
}

static void make(struct text *to, const char *first, const char *line, int times, const char *rest) {
    append(to, first);
    for (int k = 0; k < times; k++) {
        append(to, line);
    }
    append(to, rest);
}

/* Made whether a call is counted or not, so that the making is not. */
static void make_texts(void) {
    make(&rare, "010000\n", LEAP_TUESDAY, 60, LATER_LEAP_TUESDAYS "FF40\n");
    make(&crowded_up, "010000\n", FULL_LEAP_TUESDAY, 31, EVERY_MINUTE_BUT_31_IN_2000 "FF40\n");
    make(&crowded_down, "010000\n", FULL_LEAP_TUESDAY, 31, EVERY_MINUTE_BUT_31_IN_2028 "FF40\n");
    make(&most_limited, "010000\n", MOST_LIMITED, 63, "FF40\n");
    make(&counted, "Z +0000\n",
         "R 20000101T0600 FREQ=MONTHLY;BYDAY=SU,MO,TU,WE,TH,FR,SA,1SU,-1SU;BYMONTHDAY=1,2,3,4,5,6,7,8,9,10,11,12,13,14,15,16,17,18,19,20,21,22,23,24,25,26,"
         "27,28,29,30,31,-1;BYSETPOS=1,-1;COUNT=9999\n",
         63, "");
    make(&most_checked, "010000\n", MOST_CHECKED, 63, "FF40\n");
    make(&most_placed, "010000\n", MOST_PLACED, 63, "FF40\n");
    make(&counted_years, "Z +0000\n", MOST_PLACED_RULE, 63, "");
}

/* Each answers 1 where the answer is right. The last day is document 01's mark (d). */
static int day_of_date(void) {
    evk_day found = evk_day_of_date(9999, 12, 31);
    return found.number == EVK_TAKEN && found.day == 2932896;
}

static int date_of_day(void) {
    evk_date found = evk_date_of_day(2932896);
    return found.number == EVK_TAKEN && found.year == 9999 && found.month == 12 && found.day == 31;
}

static int date_of_costliest(void) {
    evk_date found = evk_date_of_day(11047);
    return found.number == EVK_TAKEN && found.year == 2000 && found.month == 3 && found.day == 31;
}

static int day_of_iso(void) {
    evk_day found = evk_day_of_iso(9999, 52, 5);
    return found.number == EVK_TAKEN && found.day == 2932896;
}

static int iso_of_day(void) {
    evk_iso found = evk_iso_of_day(2932896);
    return found.number == EVK_TAKEN && found.year == 9999 && found.week == 52 && found.weekday == 5;
}

static int check(void) {
    return evk_check(limited, LIMITED_LENGTH).number == EVK_TAKEN;
}

/* In 2099 the offset is +0100. */
static int instant_of_local(void) {
    evk_found found = evk_instant_of_local(limited, LIMITED_LENGTH, 52595999);
    return found.number == EVK_TAKEN && found.instant == 52595999 - 60;
}

static int offset_at(void) {
    evk_offset found = evk_offset_at(limited, LIMITED_LENGTH, 52595999);
    return found.number == EVK_TAKEN && found.offset == 60;
}

/* From 2026-03-31 06:10 UTC, which is held itself: the last workday of February is the 27th, at 07:10 UTC. */
static int previous(void) {
    evk_found found = evk_previous(limited, LIMITED_LENGTH, 13804210);
    return found.number == EVK_TAKEN && found.instant == 13758190;
}

static int previous_of_none(void) {
    evk_found found = evk_previous(no_days, NO_DAYS_LENGTH, INT64_MAX);
    return found.number == EVK_NONE && found.instant == 0;
}

/* 2099-12-31 06:00 UTC, and nothing before it. */
static int next_of_late(void) {
    evk_found found = evk_next(late, LATE_LENGTH, 0);
    return found.number == EVK_TAKEN && found.instant == 52594920;
}

static int previous_of_late(void) {
    return evk_previous(late, LATE_LENGTH, 52594920).number == EVK_NONE;
}

/* From 2000-02-29 06:00 UTC on: the later ones are excepted, and each rule is walked to the end of 2099. */
static int next_of_rare(void) {
    return evk_next(rare.bytes, rare.length, 85320).number == EVK_NONE;
}

static int previous_of_rare(void) {
    evk_found found = evk_previous(rare.bytes, rare.length, INT64_MAX);
    return found.number == EVK_TAKEN && found.instant == 85320;
}

/* Each of 31 minutes is found and is excepted; before each find the rules are walked through 28 years, 2000-02-29 to 2028-02-29. */
static int next_of_crowded(void) {
    evk_found found = evk_next(crowded_up.bytes, crowded_up.length, 85535);
    return found.number == EVK_TAKEN && found.instant == 85567;
}

static int previous_of_crowded(void) {
    evk_found found = evk_previous(crowded_down.bytes, crowded_down.length, 14811967);
    return found.number == EVK_TAKEN && found.instant == 14811935;
}

static int taken(const struct text *plan) {
    return evk_check(plan->bytes, plan->length).number == EVK_TAKEN;
}

static int check_most_limited(void) {
    return taken(&most_limited);
}

static int check_most_checked(void) {
    return taken(&most_checked);
}

/* The century has fewer occurrences than 9,999, of the first 2,400: the plan is that of the rules without COUNT. */
static int compiles(const struct text *sheet, const struct text *wanted) {
    static uint8_t plan[5241];
    evk_compiled found = evk_compile(sheet->bytes, sheet->length, plan, sizeof plan);
    return found.number == EVK_TAKEN && found.length == wanted->length && memcmp(plan, wanted->bytes, found.length) == 0;
}

static int compile(void) {
    return compiles(&counted, &most_limited);
}

static int compile_years(void) {
    return compiles(&counted_years, &most_placed);
}

static const struct {
    const char *name;
    int (*right)(void);
    uint64_t most; /* instructions allowed, 0 for no limit */
} calls[] = {
    {"evk_day_of_date, the last day", day_of_date, 150},
    {"evk_date_of_day, the last day", date_of_day, 150},
    {"evk_date_of_day, the costliest found, 2000-03-31", date_of_costliest, 150},
    {"evk_day_of_iso, the last day", day_of_iso, 200},
    {"evk_iso_of_day, the last day", iso_of_day, 250},
    {"evk_check, 31 rules with every limit under 32 transitions", check, 150000},
    {"evk_instant_of_local of that plan, the last minute", instant_of_local, 150000},
    {"evk_offset_at of that plan, in 2099", offset_at, 150000},
    {"evk_previous of that plan", previous, 300000},
    {"evk_previous, 31 times 0 0 30 2 * under 32 transitions", previous_of_none, 5000000},
    {"evk_next from 2000, 45 rules that start on the last day", next_of_late, 300000},
    {"evk_previous of that plan, from the start", previous_of_late, 300000},
    {"evk_next, 60 rules of 29 February on a Tuesday, the later ones excepted", next_of_rare, 50000000},
    {"evk_previous of that plan", previous_of_rare, 50000000},
    {"evk_next, 31 rules with nothing for 28 years, every minute, the next 31 excepted", next_of_crowded, 360000000},
    {"evk_previous of such a plan", previous_of_crowded, 360000000},
    {"evk_check, 63 rules with every limit", check_most_limited, 250000},
    {"evk_check, 63 yearly rules with 14 positions", check_most_checked, 520000},
    {"evk_compile, 63 rules with every limit and a COUNT that the century does not fill", compile, 100000000},
    {"evk_compile, 63 yearly rules with 21 positions and such a COUNT", compile_years, 120000000},
};
enum { CALLS = sizeof calls / sizeof calls[0] };

int main(int argc, char **argv) {
    if (argc < 3) {
        for (int k = 0; k < CALLS; k++) {
            printf("%s|%llu\n", calls[k].name, (unsigned long long)calls[k].most);
        }
        return 0;
    }
    make_texts();
    int k = atoi(argv[1]);
    if (k < 0 || CALLS <= k) {
        return 2;
    }
    int good = argv[2][0] != '1' || calls[k].right();
    puts(good ? "right" : "wrong");
    return good ? 0 : 1;
}
