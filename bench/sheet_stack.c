/* Compiles every sheet of sheets.h on a thread of its own, and says how much of its stack each took; from the repository's top.
   Exit status 1 where one took more than ALLOWED, or was answered wrongly. */
#define _POSIX_C_SOURCE 200809L
#include "sheets.h"
#include "touched.h"

static uint8_t sheet[SHEET_ROOM], plan[PLAN_ROOM];

struct asked {
    size_t length;
    evk_compiled answer;
};

static void *compile(void *at) {
    struct asked *asked = at;
    asked->answer = evk_compile(sheet, asked->length, plan, PLAN_ROOM);
    return NULL;
}

int main(void) {
    int status = 0;
    for (int k = 0; k < SHEET_CASES; k++) {
        static uint8_t right[PLAN_ROOM];
        struct asked asked = {read_sheet(&sheet_cases[k], sheet), {0, 0, 0, 0, 0}};
        evk_compiled answer = wanted(&sheet_cases[k], right);
        memset(plan, UNWRITTEN, PLAN_ROOM);
        size_t used = touched(compile, &asked, NULL);
        int good = same_answer(answer, right, asked.answer, plan);
        printf("%6zu of at most %d bytes of stack, the thread's own among them  %s", used, ALLOWED, sheet_cases[k].name);
        puts(!good ? ": WRONG" : used > ALLOWED ? ": MISSED" : "");
        status |= !good || used > ALLOWED;
    }
    return status;
}
