/* Dates, day numbers, ISO weeks, sheets and plans as firmware would ask for them: the examples of evandrusk.h. What it prints
   stands in example.out. */
#include <inttypes.h>
#include <stdio.h>
#include <string.h>

#include "evandrusk.h"

static void refused(uint64_t number) {
    printf(" is refused, %" PRIu64 "\n", number);
}

static void show_date(int64_t year, int64_t month, int64_t day) {
    printf("%04" PRId64 "-%02" PRId64 "-%02" PRId64, year, month, day);
    evk_day found = evk_day_of_date(year, month, day);
    if (found.number != EVK_TAKEN) {
        refused(found.number);
        return;
    }
    evk_iso iso = evk_iso_of_day(found.day);
    printf(" is day %" PRId64 ", %04" PRId64 "-W%02" PRId64 "-%" PRId64 "\n", found.day, iso.year, iso.week, iso.weekday);
}

static void show_iso(int64_t year, int64_t week, int64_t weekday) {
    printf("%04" PRId64 "-W%02" PRId64 "-%" PRId64, year, week, weekday);
    evk_day found = evk_day_of_iso(year, week, weekday);
    if (found.number != EVK_TAKEN) {
        refused(found.number);
        return;
    }
    evk_date date = evk_date_of_day(found.day);
    printf(" is day %" PRId64 ", %04" PRId64 "-%02" PRId64 "-%02" PRId64 "\n", found.day, date.year, date.month, date.day);
}

static void show_day(int64_t day) {
    printf("day %" PRId64, day);
    evk_date date = evk_date_of_day(day);
    if (date.number != EVK_TAKEN) {
        refused(date.number);
        return;
    }
    printf(" is %04" PRId64 "-%02" PRId64 "-%02" PRId64 "\n", date.year, date.month, date.day);
}

static const uint8_t *bytes(const char *text) {
    return (const uint8_t *)text;
}

static void show_sheet(const char *sheet) {
    uint8_t plan[5241]; /* no plan is longer */
    evk_compiled made = evk_compile(bytes(sheet), strlen(sheet), plan, sizeof plan);
    if (made.number == EVK_TAKEN) {
        printf("a plan of %" PRIu64 " bytes\n%.*s", made.length, (int)made.length, (const char *)plan);
    } else {
        printf("a sheet refused with %" PRIu64 ", line %" PRIu64 ": '%.*s'\n", made.number, made.line, (int)made.bad_length, sheet + made.bad_at);
    }
}

static void show_check(const char *plan) {
    evk_checked checked = evk_check(bytes(plan), strlen(plan));
    printf("a plan checked: %" PRIu64 ", line %" PRIu64 "\n", checked.number, checked.line);
}

static void show_found(const char *what, evk_found found) {
    printf("%s", what);
    if (found.number == EVK_TAKEN) {
        printf(" is instant %" PRId64 "\n", found.instant);
    } else {
        refused(found.number);
    }
}

static void show_plans(void) {
    const char *dose = "010000\n0500000000\nFF02\n", *hour = "01003C\nFF01\n";
    show_check(hour);
    show_check("01003C\nFF02\n");
    show_check("");
    show_found("next after INT64_MIN", evk_next(bytes(dose), strlen(dose), INT64_MIN));
    show_found("next after 0", evk_next(bytes(dose), strlen(dose), 0));
    show_found("previous before INT64_MAX", evk_previous(bytes(dose), strlen(dose), INT64_MAX));
    show_found("previous before 0", evk_previous(bytes(dose), strlen(dose), 0));
    show_found("local minute 60", evk_instant_of_local(bytes(hour), strlen(hour), 60));
    show_found("local minute -1", evk_instant_of_local(bytes(hour), strlen(hour), -1));
    printf("the offset at 0 is %" PRId64 "\n", evk_offset_at(bytes(hour), strlen(hour), 0).offset);
}

int main(void) {
    show_date(1970, 1, 1);
    show_date(1969, 12, 31);
    show_date(1, 1, 1);
    show_date(9999, 12, 31);
    show_date(2000, 2, 29);
    show_date(2027, 1, 1);
    show_date(1900, 2, 29);
    show_iso(2026, 53, 5);
    show_iso(2027, 53, 5);
    show_iso(9999, 52, 6);
    show_day(11016);
    show_day(2932897);
    show_sheet("Z +0100\n");
    show_sheet("Z +0100\nQ\n");
    show_plans();
    return fflush(stdout) == 0 ? 0 : 1;
}
