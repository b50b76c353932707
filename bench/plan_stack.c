/* Runs every exported function but evk_compile, which sheet_stack.c runs, on a thread of its own, over the plans of plans.h, and says how
   much of its stack each took at most. Exit status 1 where one took more than ALLOWED, or answered wrongly. */
#define _POSIX_C_SOURCE 200809L
#include <stdio.h>

#include "evandrusk.h"
#include "plans.h"
#include "touched.h"

/* Below, each answers NULL where all is right, and else its argument, a struct plan_case. */

/* Document 01's marked cases (c), (d) and (e), there and back. */
static void *dates(void *at) {
    static const struct {
        int64_t number, year, month, day;
    } known[] = {{-719162, 1, 1, 1}, {2932896, 9999, 12, 31}, {11016, 2000, 2, 29}};
    int good = 1;
    for (size_t i = 0; i < sizeof known / sizeof known[0]; i++) {
        int64_t day = known[i].number;
        evk_date date = evk_date_of_day(day);
        evk_iso iso = evk_iso_of_day(day);
        good &= date.number == EVK_TAKEN && date.year == known[i].year && date.month == known[i].month && date.day == known[i].day;
        good &= evk_day_of_date(date.year, date.month, date.day).day == day;
        good &= iso.number == EVK_TAKEN && evk_day_of_iso(iso.year, iso.week, iso.weekday).day == day;
    }
    good &= evk_date_of_day(INT64_MIN).number == EVK_OUT_OF_RANGE && evk_iso_of_day(INT64_MAX).number == EVK_OUT_OF_RANGE;
    good &= evk_day_of_date(0, 0, 0).number == EVK_OUT_OF_RANGE && evk_day_of_iso(0, 0, 0).number == EVK_OUT_OF_RANGE;
    return good ? NULL : at;
}

static void *check(void *at) {
    const struct plan_case *c = at;
    return evk_check((const uint8_t *)c->plan, strlen(c->plan)).number == EVK_TAKEN ? NULL : at;
}

static int is(evk_found found, uint64_t number, int64_t instant) {
    return found.number == number && found.line == 0 && found.instant == instant;
}

/* From the ends too, where a search is longest. */
static void *next(void *at) {
    const struct plan_case *c = at;
    const uint8_t *plan = (const uint8_t *)c->plan;
    size_t length = strlen(c->plan);
    int good = is(evk_next(plan, length, c->from), c->number, c->instant) && is(evk_next(plan, length, INT64_MAX), EVK_NONE, 0);
    return good && evk_next(plan, length, INT64_MIN).number == c->number ? NULL : at;
}

/* The last instant before the one after an answer is the answer. */
static void *previous(void *at) {
    const struct plan_case *c = at;
    const uint8_t *plan = (const uint8_t *)c->plan;
    size_t length = strlen(c->plan);
    int good = is(evk_previous(plan, length, c->instant + 1), c->number, c->instant) && is(evk_previous(plan, length, INT64_MIN), EVK_NONE, 0);
    return good && evk_previous(plan, length, INT64_MAX).number == c->number ? NULL : at;
}

/* In 2099 the offset of all these plans is +0100, 60 minutes. */
static void *local(void *at) {
    const struct plan_case *c = at;
    const uint8_t *plan = (const uint8_t *)c->plan;
    size_t length = strlen(c->plan);
    int good = is(evk_instant_of_local(plan, length, 52595999), EVK_TAKEN, 52595999 - 60);
    return good && is(evk_instant_of_local(plan, length, 52596000), EVK_OUT_OF_RANGE, 0) ? NULL : at;
}

/* And +0200, 120 minutes, from the first transition on, 2026-03-29 01:00 UTC. */
static void *offset(void *at) {
    static const struct {
        int64_t instant, offset;
    } known[] = {{INT64_MIN, 60}, {13801019, 60}, {13801020, 120}, {52595999, 60}, {INT64_MAX, 60}};
    const struct plan_case *c = at;
    int good = 1;
    for (size_t i = 0; i < sizeof known / sizeof known[0]; i++) {
        evk_offset found = evk_offset_at((const uint8_t *)c->plan, strlen(c->plan), known[i].instant);
        good &= found.number == EVK_TAKEN && found.line == 0 && found.offset == known[i].offset;
    }
    return good ? NULL : at;
}

int main(void) {
    static const struct {
        const char *name;
        void *(*work)(void *plan_case);
    } all[] = {{"dates", dates}, {"check", check}, {"next", next}, {"previous", previous}, {"local", local}, {"offset", offset}};
    int status = 0;
    for (size_t i = 0; i < sizeof all / sizeof all[0]; i++) {
        size_t most = 0;
        void *wrong = NULL;
        for (int k = 0; k < PLAN_CASES && wrong == NULL; k++) {
            if (k == CHECK_ALONE) {
                continue; /* it has another case's plan and no instant */
            }
            struct plan_case c = plan_cases[k];
            size_t used = touched(all[i].work, &c, &wrong);
            most = used > most ? used : most;
        }
        printf("%6zu of at most %d bytes of stack, the thread's own among them  %s", most, ALLOWED, all[i].name);
        puts(wrong ? ": WRONG" : most > ALLOWED ? ": MISSED" : "");
        status |= wrong != NULL || most > ALLOWED;
    }
    return status;
}
