/* The stack that a search takes, at its deepest: it runs on a thread whose stack was filled beforehand, up and down over the whole window.
   Exit status 1 where a search takes 8 KiB or more, or none at all, or answers wrongly. */
#define _POSIX_C_SOURCE 200809L
#include <stdio.h>

#include "frames.h"
#include "touched.h"

enum { MOST = 8192 };

struct asked {
    const frame *frames;
    uint64_t up, down;
};

static void *nothing(void *ignored) {
    return ignored;
}

static void *search(void *at) {
    struct asked *asked = at;
    asked->up = probe_list_least(asked->frames, 1, 0, MINUTES);
    asked->down = probe_list_last(asked->frames, 1, 0, MINUTES);
    return NULL;
}

int main(void) {
    size_t base = touched(nothing, NULL, NULL);
    int status = 0;
    for (int k = 0; k < CASES; k++) {
        const struct bench_case *c = &bench_cases[k];
        struct asked asked = {c->frames, 0, 0};
        size_t all = touched(search, &asked, NULL);
        size_t used = all < base ? 0 : all - base;
        /* the search down answers one more than the minute, or the range's start for none */
        int good = asked.up == least_of(c->first) && asked.down == (c->last.year == 0 ? 0 : minute_of(c->last) + 1);
        printf("%6zu bytes of stack  %s%s\n", used, c->name, good ? "" : ": WRONG");
        status |= used == 0 || used >= MOST || !good;
    }
    return status;
}
