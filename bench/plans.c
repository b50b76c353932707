/* Runs one case of plans.h so many times, or not at all: the difference of the two counts is what it costs, load included.
   plans NUMBER TIMES, or plans alone for the cases' names and limits. Exit status 1 for a wrong answer. */
#include <stdio.h>
#include <stdlib.h>
#include <string.h>

#include "evandrusk.h"
#include "plans.h"

/* 1 where the answer is the case's. */
static int ask(int k, const uint8_t *plan, size_t length) {
    const struct plan_case *c = &plan_cases[k];
    if (k == CHECK_ALONE) {
        return evk_check(plan, length).number == c->number;
    }
    evk_found found = evk_next(plan, length, c->from);
    return found.number == c->number && found.line == 0 && found.instant == c->instant;
}

int main(int argc, char **argv) {
    if (argc < 3) {
        for (int k = 0; k < PLAN_CASES; k++) {
            printf("%s|%llu\n", plan_cases[k].name, (unsigned long long)plan_cases[k].most);
        }
        return 0;
    }
    int k = atoi(argv[1]);
    if (k < 0 || PLAN_CASES <= k) {
        return 2;
    }
    size_t length = strlen(plan_cases[k].plan);
    int good = 1;
    for (int times = atoi(argv[2]); times > 0; times--) {
        good &= ask(k, (const uint8_t *)plan_cases[k].plan, length);
    }
    puts(good ? "right" : "wrong");
    return good ? 0 : 1;
}
