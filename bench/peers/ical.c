/* ical SHEET FROM TIMES: the next dose of a sheet after an instant, by libical, so many times over, load included; the last answer is
   printed, `none` where there is none. FROM may be `load`: then the sheet is loaded alone.

   What is counted as load is the reading of a calendar's text: a zone of the sheet's transitions, an event for each R and D line, and one
   or two for a C line. Writing that text is not: it is done once, whatever TIMES is. */
#define _POSIX_C_SOURCE 200809L
#include <inttypes.h>
#include <libical/ical.h>
#include <stdio.h>
#include <stdlib.h>
#include <string.h>

enum { MOST_EXCEPTED = 64 };

/* 2000-01-01 00:00 UTC, in seconds of Unix */
static const int64_t epoch = 946684800;

static char calendar[65536];
static struct icaltimetype excepted[MOST_EXCEPTED];
static size_t excepted_count;

static void put(const char *text) {
    if (strlen(calendar) + strlen(text) + 3 > sizeof calendar) {
        exit(2);
    }
    strcat(strcat(calendar, text), "\r\n");
}

static void put_event(const char *start, const char *rule) {
    char line[600];
    put("BEGIN:VEVENT");
    snprintf(line, sizeof line, "DTSTART;TZID=Here:%s00", start);
    put(line);
    if (rule != NULL) {
        snprintf(line, sizeof line, "RRULE:%s", rule);
        put(line);
    }
    put("END:VEVENT");
}

/* A transition at a UTC time, as an observance that starts at the local time before it. */
static void put_observance(const char *utc, const char *before, const char *after) {
    char line[100];
    int offset = atoi(before); /* hours and minutes as one number, both of its sign */
    struct icaltimetype at = icaltime_from_string(utc);
    put("BEGIN:STANDARD");
    icaltime_adjust(&at, 0, offset / 100, offset % 100, 0);
    snprintf(line, sizeof line, "DTSTART:%s", icaltime_as_ical_string(at));
    put(line);
    snprintf(line, sizeof line, "TZOFFSETFROM:%s", before);
    put(line);
    snprintf(line, sizeof line, "TZOFFSETTO:%s", after);
    put(line);
    put("END:STANDARD");
}

/* A cron field as a part of a rule, with its ranges written out and its weekdays as words; nothing for `*`. */
static void add_part(char *rule, const char *name, const char *field) {
    static const char *const words[] = {"SU", "MO", "TU", "WE", "TH", "FR", "SA"};
    char separator = '=';
    if (strcmp(field, "*") == 0) {
        return;
    }
    sprintf(rule + strlen(rule), ";%s", name);
    while (*field != 0) {
        char *end;
        long first = strtol(field, &end, 10), last = *end == '-' ? strtol(end + 1, &end, 10) : first;
        for (; first <= last; first++, separator = ',') {
            if (strcmp(name, "BYDAY") == 0) {
                sprintf(rule + strlen(rule), "%c%s", separator, words[first]);
            } else {
                sprintf(rule + strlen(rule), "%c%ld", separator, first);
            }
        }
        field = end + (*end == ',');
    }
}

static void put_cron_event(char fields[5][64], const char *frequency, const char *months, const char *days, const char *weekdays) {
    char rule[500];
    sprintf(rule, "FREQ=%s;UNTIL=20991231T235900", frequency);
    add_part(rule, "BYMONTH", months);
    add_part(rule, "BYMONTHDAY", days);
    add_part(rule, "BYDAY", weekdays);
    add_part(rule, "BYHOUR", fields[1]);
    add_part(rule, "BYMINUTE", fields[0]);
    put_event("20000101T0000", rule);
}

/* The frequency that lets libical step furthest. Month and day of month are one event and the day of week another, since either suffices. */
static void put_cron(const char *line) {
    char fields[5][64];
    if (sscanf(line, "%63s %63s %63s %63s %63s", fields[0], fields[1], fields[2], fields[3], fields[4]) != 5) {
        exit(2);
    }
    int by_day = strcmp(fields[2], "*") != 0, by_month = strcmp(fields[3], "*") != 0, by_weekday = strcmp(fields[4], "*") != 0;
    if (by_day || by_month) {
        put_cron_event(fields, !by_day ? "DAILY" : by_month ? "YEARLY" : "MONTHLY", fields[3], fields[2], "*");
    }
    if (by_weekday || !(by_day || by_month)) {
        put_cron_event(fields, by_weekday ? "WEEKLY" : "DAILY", "*", "*", fields[4]);
    }
}

/* A rule without an end gets the window's; libical reads times with seconds. */
static void put_rule(const char *start, const char *parts) {
    char rule[500];
    const char *until = strstr(parts, "UNTIL=");
    if (until != NULL) {
        int front = (int)(until - parts) + 19;
        snprintf(rule, sizeof rule, "%.*s00%s", front, parts, parts + front);
    } else {
        snprintf(rule, sizeof rule, "%s%s", parts, strstr(parts, "COUNT=") != NULL ? "" : ";UNTIL=20991231T235900");
    }
    put_event(start, rule);
}

static void write_calendar(const char *name) {
    char line[400], first[300], second[300], time[40], before[8] = "+0000";
    int in_zone = 1;
    FILE *file = fopen(name, "r");
    if (file == NULL) {
        perror(name);
        exit(2);
    }
    put("BEGIN:VCALENDAR");
    put("BEGIN:VTIMEZONE");
    put("TZID:Here");
    while (fgets(line, sizeof line, file) != NULL) {
        int words = sscanf(line + 2, "%299s %299s", first, second);
        snprintf(time, sizeof time, "%.13s00", first);
        if (in_zone && line[0] != 'Z' && line[0] != 'T') {
            put("END:VTIMEZONE");
            in_zone = 0;
        }
        if (line[0] == 'Z') {
            put_observance("19700101T000000", first, first);
            snprintf(before, sizeof before, "%.5s", first);
        } else if (line[0] == 'T' && words == 2) {
            put_observance(time, before, second);
            snprintf(before, sizeof before, "%.5s", second);
        } else if (line[0] == 'C') {
            put_cron(line + 2);
        } else if (line[0] == 'R' && words == 2) {
            put_rule(first, second);
        } else if (line[0] == 'D') {
            put_event(first, NULL);
        } else if (line[0] == 'X' && excepted_count < MOST_EXCEPTED) {
            excepted[excepted_count++] = icaltime_from_string(time);
        }
    }
    put("END:VCALENDAR");
    fclose(file);
}

static int is_excepted(struct icaltimetype local) {
    for (size_t i = 0; i < excepted_count; i++) {
        if (icaltime_compare(excepted[i], local) == 0) {
            return 1;
        }
    }
    return 0;
}

/* The instant of a local time, in seconds of Unix. */
static int64_t instant_of(struct icaltimetype local, icaltimezone *zone) {
    return icaltime_as_timet_with_zone(local, zone);
}

/* An event's first dose after an instant and before the best so far, else that one. */
static int64_t next_of(icalcomponent *event, icaltimezone *zone, int64_t from, int64_t best) {
    icalproperty *rule = icalcomponent_get_first_property(event, ICAL_RRULE_PROPERTY);
    icalproperty *start = icalcomponent_get_first_property(event, ICAL_DTSTART_PROPERTY);
    struct icaltimetype at = icalproperty_get_dtstart(start);
    if (rule == NULL) {
        int64_t instant = instant_of(at, zone);
        return from < instant && instant < best && !is_excepted(at) ? instant : best;
    }
    struct icalrecurrencetype recurrence = icalproperty_get_rrule(rule);
    icalrecur_iterator *each = icalrecur_iterator_new(recurrence, at);
    if (each == NULL) { /* it has looked through all years and found none */
        return best;
    }
    struct icaltimetype asked = icaltime_from_timet_with_zone((time_t)from, 0, zone);
    asked.zone = NULL;
    if (recurrence.count == 0 && icaltime_compare(asked, at) > 0) {
        icalrecur_iterator_set_start(each, asked); /* not from the start, which a COUNT needs */
    }
    for (at = icalrecur_iterator_next(each); !icaltime_is_null_time(at); at = icalrecur_iterator_next(each)) {
        int64_t instant = instant_of(at, zone);
        if (instant >= best) {
            break;
        }
        if (from < instant && !is_excepted(at)) {
            best = instant;
            break;
        }
    }
    icalrecur_iterator_free(each);
    return best;
}

int main(int argc, char **argv) {
    if (argc != 4) {
        fputs("usage: ical SHEET FROM TIMES\n", stderr);
        return 2;
    }
    write_calendar(argv[1]);
    int64_t best = INT64_MAX;
    for (int times = atoi(argv[3]); times > 0; times--) {
        icalcomponent *all = icalparser_parse_string(calendar);
        icaltimezone *zone = icaltimezone_new();
        icalcomponent *described = icalcomponent_get_first_component(all, ICAL_VTIMEZONE_COMPONENT);
        icaltimezone_set_component(zone, icalcomponent_new_clone(described));
        best = INT64_MAX;
        if (strcmp(argv[2], "load") != 0) {
            int64_t from = epoch + 60 * strtoll(argv[2], NULL, 10);
            icalcomponent *event = icalcomponent_get_first_component(all, ICAL_VEVENT_COMPONENT);
            for (; event != NULL; event = icalcomponent_get_next_component(all, ICAL_VEVENT_COMPONENT)) {
                best = next_of(event, zone, from, best);
            }
        }
        icaltimezone_free(zone, 1);
        icalcomponent_free(all);
    }
    if (best == INT64_MAX) {
        puts("none");
    } else {
        printf("%" PRId64 "\n", (best - epoch) / 60);
    }
    return 0;
}
