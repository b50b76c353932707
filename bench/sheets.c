/* Compiles one sheet of sheets.h so many times, or not at all: the difference of the two counts is what it costs.
   sheets NUMBER TIMES, or sheets alone for the cases' names and limits; from the repository's top. Exit status 1 for a wrong answer. */
#include "sheets.h"

int main(int argc, char **argv) {
    if (argc < 3) {
        for (int k = 0; k < SHEET_CASES; k++) {
            printf("%s|%llu\n", sheet_cases[k].name, (unsigned long long)sheet_cases[k].most);
        }
        return 0;
    }
    int k = atoi(argv[1]);
    if (k < 0 || SHEET_CASES <= k) {
        return 2;
    }
    static uint8_t sheet[SHEET_ROOM];
    size_t length = read_sheet(&sheet_cases[k], sheet);
    /* what is wanted and what was found: both runs do the same but for the calls */
    static uint8_t plans[2][PLAN_ROOM];
    evk_compiled answers[2] = {wanted(&sheet_cases[k], plans[0]), {0, 0, 0, 0, 0}};
    memset(plans[1], UNWRITTEN, PLAN_ROOM);
    int asked = 0;
    for (int times = atoi(argv[2]); times > 0; times--) {
        answers[1] = evk_compile(sheet, length, plans[1], PLAN_ROOM);
        asked = 1;
    }
    int good = same_answer(answers[0], plans[0], answers[asked], plans[asked]);
    puts(good ? "right" : "wrong");
    return good ? 0 : 1;
}
