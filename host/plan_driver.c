/* Answers requests about plans, a line each, from standard input on standard output: the way in for the reference's comparison.

     check PLAN                      NUMBER LINE
     next PLAN INSTANT COUNT         NUMBER LINE INSTANT,.. : COUNT answers, each asked from the one before, or up to a refusal
     previous PLAN INSTANT COUNT     likewise
     local PLAN MINUTE ..            NUMBER LINE INSTANT,.. : the instant of each local minute
     offset PLAN INSTANT ..          NUMBER LINE OFFSET,.. : the offset at each instant

   PLAN is the plan's bytes in hex, two digits a byte, `-` for none: a plan that is not taken may hold any bytes, and any number of them.
   Other numbers are signed 64-bit decimals. A line of another form is answered by `bad request`, and the exit status is then 1; 2 means
   that reading, writing or memory failed. Each call is made twice, with the plan at either side of a page that may not be touched
   (lent.h); the exit status is 3 where the two answers differ or a call goes astray. */
#define LENT_DRIVER "plan_driver"
#include "lent.h"

#include <errno.h>
#include <inttypes.h>
#include <stdio.h>
#include <stdlib.h>
#include <string.h>

#include "evandrusk.h"

typedef evk_found search(const uint8_t *plan, size_t plan_length, int64_t asked);

typedef struct { lent after, before; size_t length; } plan;

static void fail(void) {
    perror("plan_driver");
    exit(2);
}

static int digit(char c) {
    return '0' <= c && c <= '9' ? c - '0' : 'A' <= c && c <= 'F' ? c - 'A' + 10 : -1;
}

/* Reads a plan: 1, or 0 where the word is none. The word's own memory takes its bytes, before they are lent. */
static int read_plan(char *word, plan *made) {
    size_t digits = strcmp(word, "-") == 0 ? 0 : strlen(word);
    if (digits % 2 != 0) {
        return 0;
    }
    made->length = digits / 2;
    for (size_t i = 0; i < made->length; i++) {
        int high = digit(word[2 * i]), low = digit(word[2 * i + 1]);
        if (high < 0 || low < 0) {
            return 0;
        }
        word[i] = (char)(16 * high + low);
    }
    made->after = lend(word, made->length, LENT_AFTER);
    made->before = lend(word, made->length, LENT_BEFORE);
    return 1;
}

/* Ends the driver where two calls with the same numbers answer otherwise. */
static void need_same(int same) {
    if (!same) {
        fputs("plan_driver: the answer depends on where the plan lies\n", stderr);
        exit(3);
    }
}

static evk_found found(plan p, search *one, int64_t asked) {
    evk_found r = one(p.after.bytes, p.length, asked);
    evk_found s = one(p.before.bytes, p.length, asked);
    need_same(r.number == s.number && r.line == s.line && r.instant == s.instant);
    return r;
}

/* Reads the next number of the line: 1, 0 at the line's end, or -1 where another word stands. */
static int read_number(int64_t *number) {
    char *word = strtok(NULL, " ");
    if (word == NULL) {
        return 0;
    }
    char *end;
    errno = 0;
    intmax_t value = strtoimax(word, &end, 10);
    *number = value;
    return errno == 0 && end != word && *end == 0 && INT64_MIN <= value && value <= INT64_MAX ? 1 : -1;
}

static void show(const char *before, evk_found r) {
    printf("%s%" PRIu64 " %" PRIu64 " %" PRId64, before, r.number, r.line, r.instant);
}

static int check(plan p) {
    if (strtok(NULL, " ") != NULL) {
        return 0;
    }
    evk_checked r = evk_check(p.after.bytes, p.length);
    evk_checked s = evk_check(p.before.bytes, p.length);
    need_same(r.number == s.number && r.line == s.line);
    printf("%" PRIu64 " %" PRIu64, r.number, r.line);
    return 1;
}

static int in_turn(plan p, search *one) {
    int64_t asked, count;
    if (read_number(&asked) != 1 || read_number(&count) != 1 || count < 1 || strtok(NULL, " ") != NULL) {
        return 0;
    }
    evk_found r = found(p, one, asked);
    show("", r);
    for (int64_t k = 1; k < count && r.number == EVK_TAKEN; k++) {
        r = found(p, one, r.instant);
        show(",", r);
    }
    return 1;
}

static int next(plan p) {
    return in_turn(p, evk_next);
}

static int previous(plan p) {
    return in_turn(p, evk_previous);
}

static int each(plan p, search *one) {
    int64_t asked;
    const char *before = "";
    int got;
    while ((got = read_number(&asked)) == 1) {
        show(before, found(p, one, asked));
        before = ",";
    }
    return got == 0 && *before != 0;
}

static int local(plan p) {
    return each(p, evk_instant_of_local);
}

/* The offset in the place of an instant. */
static evk_found offset_at(const uint8_t *plan, size_t plan_length, int64_t instant) {
    evk_offset r = evk_offset_at(plan, plan_length, instant);
    evk_found found = {r.number, r.line, r.offset};
    return found;
}

static int offset(plan p) {
    return each(p, offset_at);
}

static const struct request {
    const char *name;
    int (*answer)(plan p);
} requests[] = {
    {"check", check},
    {"next", next},
    {"previous", previous},
    {"local", local},
    {"offset", offset},
};

/* Answers one line: 1, or 0 for a bad request. */
static int answer(char *line) {
    char *name = strtok(line, " ");
    char *hex = strtok(NULL, " ");
    for (size_t i = 0; hex != NULL && i < sizeof requests / sizeof requests[0]; i++) {
        plan p;
        if (strcmp(name, requests[i].name) == 0 && read_plan(hex, &p)) {
            int good = requests[i].answer(p);
            give_back(p.after);
            give_back(p.before);
            return good;
        }
    }
    return 0;
}

int main(void) {
    char *line = NULL;
    size_t room = 0;
    ssize_t length;
    int status = 0;
    lent_start();
    while ((length = getline(&line, &room, stdin)) > 0) {
        line[length - (line[length - 1] == '\n')] = 0;
        if (!answer(line)) {
            fputs("bad request", stdout);
            status = 1;
        }
        putchar('\n');
    }
    free(line);
    if (ferror(stdin) || fflush(stdout) != 0 || ferror(stdout)) {
        fail();
    }
    return status;
}
