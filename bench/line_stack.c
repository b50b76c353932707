/* The stack that reading a line takes, over the lines of lines.h: each is read on a thread whose stack was filled beforehand.
   Exit status 1 where one takes more than ALLOWED, or none at all, or is answered wrongly. */
#define _POSIX_C_SOURCE 200809L
#include <stdio.h>

#include "lines.h"
#include "touched.h"

struct asked {
    const struct line_case *line;
    line_answer answer;
    uint8_t frame[FRAME_ROOM];
};

static void *nothing(void *ignored) {
    return ignored;
}

static void *ask(void *at) {
    struct asked *asked = at;
    asked->answer = read_line(asked->line, strlen(asked->line->line), asked->frame);
    return NULL;
}

int main(void) {
    size_t base = touched(nothing, NULL, NULL);
    int status = 0;
    for (int k = 0; k < LINE_CASES; k++) {
        struct asked asked = {&line_cases[k], {0, 0}, {0}};
        uint8_t frame[FRAME_ROOM];
        line_answer answer = wanted(asked.line, frame);
        memset(asked.frame, UNWRITTEN, FRAME_ROOM);
        size_t all = touched(ask, &asked, NULL);
        size_t used = all < base ? 0 : all - base;
        int good = same_answer(answer, frame, asked.answer, asked.frame);
        int missed = used == 0 || used > ALLOWED;
        printf("%6zu of at most %d bytes of stack  ", used, ALLOWED);
        show_case(asked.line);
        puts(!good ? ": WRONG" : missed ? ": MISSED" : "");
        status |= missed || !good;
    }
    return status;
}
