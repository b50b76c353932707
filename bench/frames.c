/* Runs one case of frames.h once, or not at all: the difference of the two counts is what the search costs.
   frames NUMBER 0|1, or frames alone for the cases' names and limits. Exit status 1 for a wrong answer. */
#include <stdio.h>
#include <stdlib.h>

#include "frames.h"

int main(int argc, char **argv) {
    if (argc < 3) {
        for (int k = 0; k < CASES; k++) {
            printf("%s|%llu\n", bench_cases[k].name, (unsigned long long)bench_cases[k].most);
        }
        return 0;
    }
    int k = atoi(argv[1]);
    if (k < 0 || CASES <= k) {
        return 2;
    }
    uint64_t wanted = least_of(bench_cases[k].least), found = wanted;
    if (argv[2][0] == '1') {
        found = probe_list_least(bench_cases[k].frames, 1, bench_cases[k].low, MINUTES);
    }
    puts(found == wanted ? "right" : "wrong");
    return found == wanted ? 0 : 1;
}
