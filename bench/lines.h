/* The sheet lines that the bench and its stack test read, each with what stands before it: LOW and OFFSET of a T as host/line_driver.c has
   them. The answers are the reference's. */
#ifndef BENCH_LINES_H
#define BENCH_LINES_H

#include <stddef.h>
#include <stdint.h>
#include <stdio.h>
#include <string.h>

typedef struct {
    uint64_t number, length;
} line_answer;

line_answer probe_line(const uint8_t *line, size_t line_length, uint64_t before, uint64_t changes, uint64_t low, uint64_t offset,
                       uint8_t *frame, size_t frame_length);

/* What stands before a line: nothing, a Z and so many T, other lines. */
enum { START, ZONED, LINES };

enum { LONGEST = 256, FRAME_ROOM = 128, UNWRITTEN = 0x5A };

#define FOUR(WORDS) WORDS WORDS WORDS WORDS
#define TEN "0,1,2,3,4,5,6,7,8,9,"
#define NINE "1,2,3,4,5,6,7,8,9,"
#define SIX "1,2,3,4,5,6,"

static const struct line_case {
    const char *line, *name; /* a name for a line of LONGEST bytes, NULL for one that is shown itself */
    uint64_t before, changes, low, offset;
    uint64_t number;
    const char *frame; /* the frame's line without its LF */
    uint64_t most;     /* instructions allowed */
} line_cases[] = {
    {"C 30 2 * * *", NULL, LINES, 0, 0, 0, 0, "03000000004000000000000004FFFFFFFE1FFE7F00", 1500},
    {"R 20260130T0600 FREQ=MONTHLY;BYDAY=MO,TU,WE,TH,FR;BYSETPOS=-1", NULL, LINES, 0, 0, 0, 0,
     "0403000100D1512803228D1F3E00000000000000000000000000000000000000000000000000020000", 6000},
    {"C " FOUR(TEN) FOUR(TEN) FOUR(TEN) "0,1,10 * * * *", "C of 256 bytes, 123 minutes", LINES, 0, 0, 0, 0,
     "0300000000000007FF00FFFFFFFFFFFFFE1FFE7F00", 12000},
    {"C " FOUR(SIX) "10 " FOUR(SIX) "1 " FOUR(SIX) "1 " FOUR(SIX) "1 " FOUR(SIX) "1,2,3", "C of 256 bytes, 127 numbers in five lists", LINES, 0, 0, 0,
     0, "03000000000000047E0000007E0000007E007E7E07", 12000},
    {"R 20260101T0600 FREQ=DAILY;COUNT=9999", NULL, LINES, 0, 0, 0, 0,
     "0401000100D0AE0801AC5CC80000000000000000000000000000000000000000000000000000000000", 800000},
    {"R 20000101T0600 FREQ=DAILY;INTERVAL=2;COUNT=9999", NULL, LINES, 0, 0, 0, 0,
     "040100020000016801B75EE80000000000000000000000000000000000000000000000000000000000", 330000},
    {"R 20000101T0600 FREQ=DAILY;INTERVAL=3;COUNT=9999", NULL, LINES, 0, 0, 0, 0,
     "040100030000016802930DA80000000000000000000000000000000000000000000000000000000000", 450000},
    /* these two have fewer occurrences: all of the window is counted */
    {"R 20000101T0600 FREQ=DAILY;INTERVAL=7;COUNT=9999", NULL, LINES, 0, 0, 0, 0,
     "040100070000016803228D1F0000000000000000000000000000000000000000000000000000000000", 470000},
    {"R 20000103T0600 FREQ=WEEKLY;INTERVAL=3;BYDAY=MO,TU,WE,TH,FR;COUNT=9999", NULL, LINES, 0, 0, 0, 0,
     "0402000300000CA803228D1F3E00000000000000000000000000000000000000000000000000000000", 440000},
    {"R 20000131T0600 FREQ=MONTHLY;BYDAY=MO,TU,WE,TH,FR;BYSETPOS=-1;COUNT=1200", NULL, LINES, 0, 0, 0, 0,
     "040300010000AA28032288E83E00000000000000000000000000000000000000000000000000020000", 1200000},
    {"R 20000103T0600 FREQ=YEARLY;BYDAY=MO,TU,WE,TH,FR;BYSETPOS=1,-1;COUNT=200", NULL, LINES, 0, 0, 0, 0,
     "0404000100000CA8032288E83E00000000000000000000000000000000000000000002000000020000", 480000},
    {"R 20260101T0600 FREQ=MONTHLY;BYMONTHDAY=" FOUR(NINE) FOUR(NINE) NINE NINE NINE "1,2,3,4,5,6,7,8,10", "R of 256 bytes, 108 month days", LINES, 0, 0,
     0, 0, "0403000100D0AE0803228D1F00000007FE000000000000000000000000000000000000000000000000", 10000},
    {"R 20260101T0600 FREQ=MONTHLY;BYDAY=1TH," FOUR(FOUR("1SA,")) FOUR(FOUR("1SA,")) FOUR(FOUR("1SA,")) FOUR("1SA,") "+1SA,+1SA",
     "R of 256 bytes, 55 weekdays with an ordinal", LINES, 0, 0, 0, 0,
     "0403000100D0AE0803228D1F0000000000000000005000000000000000000000000000000000000000", 11500},
    {"Z +0100", NULL, START, 0, 0, 0, 0, "01003C", 680},
    /* a time, with seconds or without, takes at most 60 more than before T-02: a T took 1035, a D 861 */
    {"T 20260329T0100 +0200", NULL, ZONED, 0, 0, 1500, 0, "0200D2963C0078", 1230},
    {"T 20260329T010000 +0200", NULL, ZONED, 0, 0, 1500, 0, "0200D2963C0078", 1230},
    {"D 20260101T0600", NULL, LINES, 0, 0, 0, 0, "0500D0AE08", 1000},
    {"D 20260101T060000", NULL, LINES, 0, 0, 0, 0, "0500D0AE08", 1000},
    {"X 20260101T0600", NULL, LINES, 0, 0, 0, 0, "0600D0AE08", 1000},
    {"X 20260101T060000", NULL, LINES, 0, 0, 0, 0, "0600D0AE08", 1000},
    /* the refusals: a byte, the form, the place, a range, the parts together, the limits of a transition, the start */
    {"C 30 2 * * \x7f", NULL, LINES, 0, 0, 0, 2, "", 160},
    {"C 30 2 * *", NULL, LINES, 0, 0, 0, 3, "", 600},
    {"Z +0100", NULL, LINES, 0, 0, 0, 4, "", 230},
    {"C 60 2 * * *", NULL, LINES, 0, 0, 0, 5, "", 650},
    {"D 20260101T060001", NULL, LINES, 0, 0, 0, 5, "", 430},
    {"R 20260101T0600 FREQ=DAILY;BYSETPOS=-1", NULL, LINES, 0, 0, 0, 6, "", 950},
    {"T 20260329T0100 +0200", NULL, ZONED, 1, 0, 1560, 7, "", 720},
    {"R 20260130T0600 FREQ=MONTHLY;BYDAY=MO;BYSETPOS=-1", NULL, LINES, 0, 0, 0, 8, "", 2050},
};

enum { LINE_CASES = sizeof line_cases / sizeof line_cases[0] };

/* The case's answer, and the buffer that goes with it: the frame and LF at its front, all else as a call finds it. */
static line_answer wanted(const struct line_case *c, uint8_t buffer[FRAME_ROOM]) {
    line_answer answer = {c->number, strlen(c->frame)};
    memset(buffer, UNWRITTEN, FRAME_ROOM);
    memcpy(buffer, c->frame, answer.length);
    if (answer.length != 0) {
        buffer[answer.length++] = '\n';
    }
    return answer;
}

static line_answer read_line(const struct line_case *c, size_t length, uint8_t buffer[FRAME_ROOM]) {
    return probe_line((const uint8_t *)c->line, length, c->before, c->changes, c->low, c->offset, buffer, FRAME_ROOM);
}

static int same_answer(line_answer a, const uint8_t *frame, line_answer b, const uint8_t *other) {
    return a.number == b.number && a.length == b.length && memcmp(frame, other, FRAME_ROOM) == 0;
}

/* Writes the line, or its name, and how it is refused. */
static void show_case(const struct line_case *c) {
    for (const char *at = c->name ? c->name : c->line; *at; at++) {
        putchar(*at < ' ' || '~' < *at ? '?' : *at);
    }
    if (c->number != 0) {
        printf(": refused by %d", (int)c->number);
    }
}

#endif
