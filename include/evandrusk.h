/* Evandrusk: dates, day numbers and ISO weeks; sheets and plans. C99, usable from C++; link with libevandrusk.a.

   Days are counted from 1970-01-01, which is day 0; earlier days are negative. The calendar is the proleptic
   Gregorian one and runs from 0001-01-01 (day -719162) to 9999-12-31 (day 2932896). ISO weeks (ISO 8601) start
   on Monday, week 1 of a year holds its 4 January, and weekdays run from 1, Monday, to 7, Sunday.

   Instants are minutes from 2000-01-01 00:00 UTC and may be negative. Local minutes count from 2000-01-01 00:00 on
   the wall clock to 2099-12-31 23:59, so 0 to 52595999. A sheet or a plan is lent as its bytes and how many they are,
   NULL and 0 too; it is only read, but for the buffer of evk_compile, and each call checks it anew. Lent buffers must
   not overlap.

   Each function takes any 64-bit numbers whatever and never traps. It keeps no state, allocates nothing and may
   be called from several threads at once. Of a C library the archive wants memcpy and memset at most.

   Each answer has a `number`: EVK_TAKEN, or the reason of a refusal. Look at it first: on a refusal every other
   field but `line`, and of a sheet the bad line's place and length, is 0, and day 0, instant 0 and offset 0 are also good
   answers. */
#ifndef EVANDRUSK_H
#define EVANDRUSK_H

#include <stddef.h>
#include <stdint.h>

#ifdef __cplusplus
extern "C" {
#endif

enum {
    EVK_TAKEN = 0,
    EVK_TOO_LONG = 1,     /* the sheet has over 16448 bytes or over 64 lines */
    EVK_BAD_LINE = 2,     /* a line over 256 bytes, with a byte outside 20 to 7E, or without LF */
    EVK_BAD_FORM = 3,     /* a line of no listed form, an unknown name or value word */
    EVK_BAD_PLACE = 4,    /* a line where it may not stand (a 33rd T too), or no line at all: line 1 */
    EVK_OUT_OF_RANGE = 5, /* a number outside its range, a cron range that falls, or a date, day or ISO date not in the calendar */
    EVK_BAD_PARTS = 6,    /* rule parts that do not go together */
    EVK_BAD_CHANGE = 7,   /* a transition too near the one before it, or of too many minutes or none */
    EVK_BAD_START = 8,    /* a start that is no occurrence of its rule, or UNTIL before it */
    EVK_NO_ROOM = 9,      /* the plan is longer than the lent buffer */
    EVK_NO_PLAN = 10,     /* the plan is not taken: `line`, from 1, is the first that may not stand there or is missing */
    EVK_NONE = 11         /* the plan has no such instant */
};

typedef struct { uint64_t number; int64_t day; } evk_day;
typedef struct { uint64_t number; int64_t year, month, day; } evk_date;
typedef struct { uint64_t number; int64_t year, week, weekday; } evk_iso;
typedef struct { uint64_t number, line, length, bad_at, bad_length; } evk_compiled;
typedef struct { uint64_t number, line; } evk_checked;
typedef struct { uint64_t number, line; int64_t instant; } evk_found;
typedef struct { uint64_t number, line; int64_t offset; } evk_offset;

/* The day number of a date. Year 1 to 9999, month 1 to 12, day 1 to the length of that month; anything else is
   refused with EVK_OUT_OF_RANGE. 2000-02-29 is day 11016; 1900-02-29 is refused. */
evk_day evk_day_of_date(int64_t year, int64_t month, int64_t day);

/* The date of a day number. -719162 to 2932896; anything else is refused with EVK_OUT_OF_RANGE.
   Day 11016 is 2000-02-29; day 2932897 is refused. */
evk_date evk_date_of_day(int64_t day);

/* The ISO date of a day number. -719162 to 2932896; anything else is refused with EVK_OUT_OF_RANGE.
   The ISO year may be the year before or after the date's: day 20819, 2027-01-01, is 2026-W53-5. */
evk_iso evk_iso_of_day(int64_t day);

/* The day number of an ISO date. Year 1 to 9999, week 1 to 52, or 53 in a year that has it, weekday 1 to 7;
   anything else is refused with EVK_OUT_OF_RANGE, and so are 9999-W52-6 and 9999-W52-7, which are past
   9999-12-31. 2026-W53-5 is day 20819; 2027-W53-5 is refused. */
evk_day evk_day_of_iso(int64_t year, int64_t week, int64_t weekday);

/* Compiles a sheet to a plan in the buffer `plan`. EVK_TAKEN and the plan's length: its bytes are the buffer's first, and
   every byte after them is as it was. Refused, in this order: EVK_TOO_LONG, whatever its lines; else the first bad line
   decides, and in it the lowest of EVK_BAD_LINE to EVK_BAD_START: `line`, from 1, with the line without its LF at `bad_at`,
   of `bad_length` bytes; else EVK_NO_ROOM. On a refusal no byte of the buffer is changed; of the two that are of no line,
   `line` and the place are 0. No plan is longer than 5241 bytes: a Z and 63 rules.
   "Z +0100\n" is the plan "01003C\nFF01\n", length 12; "Z +0100\nQ\n" is EVK_BAD_FORM, line 2, bad_at 8, bad_length 1. */
evk_compiled evk_compile(const uint8_t *sheet, size_t sheet_length, uint8_t *plan, size_t plan_length);

/* Whether a plan is taken; if not, EVK_NO_PLAN and its line.
   "01003C\nFF01\n" is taken; "01003C\nFF02\n" is refused at line 2, and a plan of no bytes at line 1. */
evk_checked evk_check(const uint8_t *plan, size_t plan_length);

/* The plan's least instant strictly later than the given one, which may be any. Refused: EVK_NO_PLAN, else EVK_NONE.
   Of "010000\n0500000000\nFF02\n", one dose at instant 0, it is 0 from INT64_MIN to -1, and EVK_NONE from 0 on. */
evk_found evk_next(const uint8_t *plan, size_t plan_length, int64_t instant);

/* The plan's greatest instant strictly earlier than the given one, which may be any. Refused: EVK_NO_PLAN, else EVK_NONE.
   Of the same plan it is 0 from 1 to INT64_MAX, and EVK_NONE up to 0. */
evk_found evk_previous(const uint8_t *plan, size_t plan_length, int64_t instant);

/* The instant of a local minute, held or not, by the plan's zone: one that a gap leaves out goes by the offset before the
   gap, one that comes twice is its first pass. Refused: EVK_NO_PLAN, else EVK_OUT_OF_RANGE outside 0 to 52595999.
   Of "01003C\nFF01\n" local minute 60 is instant 0; -1 is refused. */
evk_found evk_instant_of_local(const uint8_t *plan, size_t plan_length, int64_t local_minute);

/* The offset in minutes, -720 to 840, at an instant, which may be any, by the plan's zone: where instant + offset is 0 to
   52595999, the wall clock then shows that local minute. Refused: EVK_NO_PLAN. Of "01003C\nFF01\n" it is 60 at every instant. */
evk_offset evk_offset_at(const uint8_t *plan, size_t plan_length, int64_t instant);

#ifdef __cplusplus
}
#endif

#endif
