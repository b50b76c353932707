/* The sheets that the bench and its stack test compile. Their texts are the files that the peers read too; the plans are what the
   reference's compiler made of them. */
#ifndef BENCH_SHEETS_H
#define BENCH_SHEETS_H

#include <stdio.h>
#include <stdlib.h>
#include <string.h>

#include "evandrusk.h"
#include "plans.h"

/* 64 lines of all kinds without COUNT. */
#define MIXED \
    "01003C\n"                                                                         /* Z +0100 */ \
    "0200D2963C0078\n"                                                                 /* T 20260329T0100 +0200 */ \
    "0200D7337C003C\n"                                                                 /* T 20261025T0100 +0100 */ \
    "0200DA95BC0078\n"                                                                 /* T 20270328T0100 +0200 */ \
    "0200DF5A5C003C\n"                                                                 /* T 20271031T0100 +0100 */ \
    "0200E2953C0078\n"                                                                 /* T 20280326T0100 +0200 */ \
    "0200E759DC003C\n"                                                                 /* T 20281029T0100 +0100 */ \
    "0200EA94BC0078\n"                                                                 /* T 20290325T0100 +0200 */ \
    "0200EF595C003C\n"                                                                 /* T 20291028T0100 +0100 */ \
    "0200F2BB9C0078\n"                                                                 /* T 20300331T0100 +0200 */ \
    "0200F758DC003C\n"                                                                 /* T 20301027T0100 +0100 */ \
    "0200FABB1C0078\n"                                                                 /* T 20310330T0100 +0200 */ \
    "0200FF585C003C\n"                                                                 /* T 20311026T0100 +0100 */ \
    "020102BA9C0078\n"                                                                 /* T 20320328T0100 +0200 */ \
    "0201077F3C003C\n"                                                                 /* T 20321031T0100 +0100 */ \
    "02010ABA1C0078\n"                                                                 /* T 20330327T0100 +0200 */ \
    "02010F7EBC003C\n"                                                                 /* T 20331030T0100 +0100 */ \
    "03000000004000000000000004FFFFFFFE1FFE7F00\n"                                     /* C 30 2 * * * */ \
    "03000000000000000100040040FFFFFFFE1FFE7F00\n"                                     /* C 0 6,18 * * * */ \
    "03000000000000800000000080FFFFFFFE1FFE3E02\n"                                     /* C 15 7 * * 1-5 */ \
    "03000020000000000000200000FFFFFFFE03E04106\n"                                     /* C 45 21 * 5-9 0,6 */ \
    "03000000000000000100001000000080021FFE7F01\n"                                     /* C 0 12 1,15 * * */ \
    "03000000080000002000000010FFFFFFFE180E7F04\n"                                     /* C 5,35 4 * 1-3,11,12 * */ \
    "03000000000000000100000001000020001FFE2003\n"                                     /* C 0 0 13 * 5 */ \
    "03000000000010000000000400000000FE1FFE0203\n"                                     /* C 20 10 1-7 * 1 */ \
    "030000000000000001000000082000000000047F05\n"                                     /* C 0 3 29 2 * */ \
    "03000000000000040000800000800000001FFE7F01\n"                                     /* C 10 23 31 * * */ \
    "030800000000000000008000008000000010007F05\n"                                     /* C 59 23 31 12 * */ \
    "030FFFFFFFFFFFFFFF000000100000000204927F05\n"                                     /* C 0-59 4 1 1,4,7,10 * */ \
    "030004010040100401001FFF00FFFFFFFE01C03E06\n"                                     /* C 0,10,20,30,40,50 8-20 * 6-8 1,2,3,4,5 */ \
    "030010002000400080007F03E0FFFFFFFE1E3E5E06\n"                                     /* C 7,22,37,52 5-9,16-22 * 1-5,9-12 1-4,6 */ \
    "03000000003EAFFAAA00FE2FD5C03FE12E13BA5707\n"                                     /* C 1,3,5,7,9,11-19,21,23,25-29 0,2,4,6-11,13,17-23 1-3,5,8,13-21,30,31 1,3-5,7-9,12 0-2,4,6 */ \
    "0401000100D0ADDB03228D1F0000000000000000000000000000000000000000000000000000000000\n" /* R 20260101T0515 FREQ=DAILY */ \
    "0401000300D0B38503228D1F0000000000000000000000000000000000000000000000000000000000\n" /* R 20260102T0525 FREQ=DAILY;INTERVAL=3 */ \
    "0401000100D0C46F03228D1F2A00000000000000000000000000000000000000000000000000000000\n" /* R 20260105T0535 FREQ=DAILY;BYDAY=MO,WE,FR */ \
    "0401000100D0E09903228D1F0040100400000000000000000000000000000000000000000000000000\n" /* R 20260110T0545 FREQ=DAILY;BYMONTHDAY=10,20,30 */ \
    "0401000A00D0AE030141053F0000000000000000000000000000000000000000000000000000000000\n" /* R 20260101T0555 FREQ=DAILY;INTERVAL=10;UNTIL=20391231T2359 */ \
    "0401000100D156C800F8C7A84100008002000000020000000000000000000000000000000000000000\n" /* R 20260131T0600 FREQ=DAILY;BYDAY=SA,SU;BYMONTHDAY=1,15,-1;UNTIL=20301231T0600 */ \
    "0402000100D0C49203228D1F0200000000000000000000000000000000000000000000000000000000\n" /* R 20260105T0610 FREQ=WEEKLY */ \
    "0402000200D0CA3C03228D1F1400000000000000000000000000000000000000000000000000000000\n" /* R 20260106T0620 FREQ=WEEKLY;INTERVAL=2;BYDAY=TU,TH */ \
    "0402000100D0B9660120EB1F4100000000000000000000000000000000000000000000000000000000\n" /* R 20260103T0630 FREQ=WEEKLY;BYDAY=SA,SU;UNTIL=20351231T2359 */ \
    "0402000500D0DB3003228D1F2000000000000000000000000000000000000000000000000000000000\n" /* R 20260109T0640 FREQ=WEEKLY;INTERVAL=5;BYDAY=FR */ \
    "0402000100D0CFFA03228D1F0A00000000000000000000000000000000000000000000000000000000\n" /* R 20260107T0650 FREQ=WEEKLY;BYDAY=MO,WE */ \
    "0402000400D0AE3F00E8C19F7F00000000000000000000000000000000000000000000000000000000\n" /* R 20260101T0655 FREQ=WEEKLY;INTERVAL=4;BYDAY=SU,MO,TU,WE,TH,FR,SA;UNTIL=20281231T2359 */ \
    "0403000100D0AE4E03228D1F0000000002000000000000000000000000000000000000000000000000\n" /* R 20260101T0710 FREQ=MONTHLY */ \
    "0403000100D1571803228D1F0080000000000000000000000000000000000000000000000000000000\n" /* R 20260131T0720 FREQ=MONTHLY */ \
    "0403000100D1572203228D1F0000000000000000020000000000000000000000000000000000000000\n" /* R 20260131T0730 FREQ=MONTHLY;BYMONTHDAY=-1 */ \
    "0403000100D0EC4C03228D1F0000000000000000000002000000000000000000000000000000000000\n" /* R 20260112T0740 FREQ=MONTHLY;BYDAY=2MO */ \
    "0403000300D1519603228D1F0000000000000000000000000000200000000000000000000000000000\n" /* R 20260130T0750 FREQ=MONTHLY;INTERVAL=3;BYDAY=-1FR */ \
    "0403000100D151AA03228D1F3E00000000000000000000000000000000000000000000000000020000\n" /* R 20260130T0810 FREQ=MONTHLY;BYDAY=MO,TU,WE,TH,FR;BYSETPOS=-1 */ \
    "0403000200D0C51403228D1F2A00000000000000000000000000000000000000000004000000040000\n" /* R 20260105T0820 FREQ=MONTHLY;INTERVAL=2;BYDAY=MO,WE,FR;BYSETPOS=2,-2 */ \
    "0403000100D0AE9E01994E7F000020212E000000860000000000000000000000000000000000000000\n" /* R 20260101T0830 FREQ=MONTHLY;BYMONTHDAY=1,2,3,5,8,13,21,-1,-2,-7;UNTIL=20501231T2359 */ \
    "0403000100D0CAC803228D1F0000000000000000000400100000010200000000000000000000000000\n" /* R 20260106T0840 FREQ=MONTHLY;BYDAY=1TU,+3TH,-1SU,-2MO */ \
    "0403000100D1A09203228D1F2000002000000000000000000000000000000000000000000000000000\n" /* R 20260213T0850 FREQ=MONTHLY;BYMONTHDAY=13;BYDAY=FR */ \
    "0403000600D0BF9C03228D1F3E000000FE000000FE010000000001000000000000000A0000000A0000\n" /* R 20260104T0900 FREQ=MONTHLY;INTERVAL=6;BYMONTHDAY=1,2,3,4,5,6,7,-1,-2,-3,-4,-5,-6,-7;BYDAY=MO,TU,WE,TH,FR,1SU,-1SU;BYSETPOS=1,3,-1,-3;UNTIL=20991231T2359 */ \
    "0403000C00C1EAC603228D1F1020000000000000000000000000000000000000000000000000000000\n" /* R 20240229T0910 FREQ=MONTHLY;INTERVAL=12;BYMONTHDAY=29;BYDAY=TH */ \
    "0500D4BA70\n"                                                                     /* D 20260704T1200 */ \
    "0500D888F8\n"                                                                     /* D 20261224T1800 */ \
    "0500D8B1A2\n"                                                                     /* D 20261231T2330 */ \
    "0500D8B1DE\n"                                                                     /* D 20270101T0030 */ \
    "0600D2A848\n"                                                                     /* X 20260401T0600 */ \
    "0600D88BC8\n"                                                                     /* X 20261225T0600 */ \
    "0600D9F896\n"                                                                     /* X 20270228T0230 */ \
    "0600E20374\n"                                                                     /* X 20280229T0300 */ \
    "FF40\n"

enum { SHEET_CASES = 6, SHEET_ROOM = 16448, PLAN_ROOM = 5241, UNWRITTEN = 0x5A };

static const struct sheet_case {
    const char *name, *file;
    const char *plan;
    uint64_t most; /* instructions allowed, 0 for no limit */
} sheet_cases[SHEET_CASES] = {
    {"compile the example", "bench/peers/example.sheet", EXAMPLE, 8000},
    {"compile 64 lines of all kinds without COUNT", "bench/peers/mixed.sheet", MIXED, 400000},
    {"compile 64 lines, two of them with COUNT", "bench/peers/full.sheet", YEARS_OF_SUMMER THIRTY_ONE "FF40\n", 0},
    {"compile 31 rules with a position under 32 transitions", "bench/peers/workdays.sheet",
     YEARS_OF_SUMMER WORKDAYS WORKDAYS WORKDAYS WORKDAYS WORKDAYS WORKDAYS WORKDAY "FF40\n", 0},
    {"compile 31 rules with every limit under 32 transitions", "bench/peers/limited.sheet",
     YEARS_OF_SUMMER LIMITEDS LIMITEDS LIMITEDS LIMITEDS LIMITEDS LIMITEDS LIMITED "FF40\n", 0},
    {"compile 31 yearly rules with positions under 32 transitions", "bench/peers/yearly.sheet", YEARLY_PLAN, 0},
};

/* Reads the case's sheet: how long it is. */
static size_t read_sheet(const struct sheet_case *c, uint8_t sheet[SHEET_ROOM]) {
    FILE *file = fopen(c->file, "rb");
    if (file == NULL) {
        perror(c->file);
        exit(2);
    }
    size_t length = fread(sheet, 1, SHEET_ROOM, file);
    if (ferror(file)) {
        exit(2);
    }
    fclose(file);
    return length;
}

/* The case's answer, and the buffer that goes with it: the plan at its front, all else as a call finds it. */
static evk_compiled wanted(const struct sheet_case *c, uint8_t plan[PLAN_ROOM]) {
    evk_compiled answer = {EVK_TAKEN, 0, strlen(c->plan), 0, 0};
    memset(plan, UNWRITTEN, PLAN_ROOM);
    memcpy(plan, c->plan, (size_t)answer.length);
    return answer;
}

static int same_answer(evk_compiled a, const uint8_t *plan, evk_compiled b, const uint8_t *other) {
    return a.number == b.number && a.line == b.line && a.length == b.length && a.bad_at == b.bad_at && a.bad_length == b.bad_length
           && memcmp(plan, other, PLAN_ROOM) == 0;
}

#endif
