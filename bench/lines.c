/* Reads one line of lines.h once, or not at all: the difference of the two runs is what the reading costs, its frame written out.
   lines NUMBER 0|1, or lines alone for the cases' names and limits. Exit status 1 for a wrong answer. */
#include <stdio.h>
#include <stdlib.h>

#include "lines.h"

int main(int argc, char **argv) {
    if (argc < 3) {
        for (int k = 0; k < LINE_CASES; k++) {
            show_case(&line_cases[k]);
            printf("|%llu\n", (unsigned long long)line_cases[k].most);
        }
        return 0;
    }
    int k = atoi(argv[1]);
    if (k < 0 || LINE_CASES <= k) {
        return 2;
    }
    const struct line_case *c = &line_cases[k];
    /* what is wanted and what was found: both runs do the same but for the call */
    static uint8_t buffers[2][FRAME_ROOM];
    line_answer answers[2] = {wanted(c, buffers[0]), {0, 0}};
    memset(buffers[1], UNWRITTEN, FRAME_ROOM);
    size_t length = strlen(c->line);
    int asked = argv[2][0] == '1';
    if (asked) {
        answers[1] = read_line(c, length, buffers[1]);
    }
    int good = same_answer(answers[0], buffers[0], answers[asked], buffers[asked]) && (c->name == NULL || length == LONGEST);
    puts(good ? "right" : "wrong");
    return good ? 0 : 1;
}
