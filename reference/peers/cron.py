"""Compares cron lines with croniter: reference dump cron --seed S --times N | python3 cron.py

The first lines have every set of restricted fields among day of month, month and day of week, over two years; the others are random.

croniter joins day of month and day of week as POSIX does where both are restricted, but lets the month restrict always. Where it differs
from document 01 and T-04:
- It agrees, and is given the line as it stands, where the day of week is `*`; where day of month and month are; and where day of month and
  day of week are restricted and the month is `*`.
- It does not where month and day of week are both restricted: `0 0 * 6 1` are its Mondays of June, `0 0 13 6 5` its 13 June and Fridays of
  June. Such a line is given to it in two parts of which either suffices, and their times are joined here: month and day of month with the day
  of week `*`, and the day of week alone with both others `*`. So croniter says which days each part has, and T-04's "or" is this program's.
- It takes a day field that lists every day for `*`. By document 01 such a field is restricted; with the other day field restricted, the line
  is given in two parts likewise.
- Asked from within February it can pass over 1 March where days 30 or 31 are listed too, though asked from the last minute of February it
  finds it. So a list that differs is made again in small questions: from here and from the month's end, and for each part alone.
- It has no window, so its list ends with 2099, and it gives up where nothing is held for many years.
"""

import collections
import heapq
import itertools
import sys
from datetime import datetime, timedelta

from croniter import croniter
from croniter.croniter import CroniterBadDateError

DAYS = set(range(1, 32))
WEEKDAYS = set(range(0, 7))
MINUTE = timedelta(minutes=1)
END = datetime(2099, 12, 31, 23, 59)

AS_IT_STANDS = "as they stand"
MONTH = "in two parts for a restricted month"
FULL = "in two parts for a full day list"


def numbers(field):
    """The numbers of an element list."""
    found = set()
    for element in field.split(","):
        first, _, last = element.partition("-")
        found.update(range(int(first), int(last or first) + 1))
    return found


def is_joined(line):
    """Whether month or day of month is restricted and day of week is too."""
    _, _, day, month, weekday = line.split(" ")
    return (day != "*" or month != "*") and weekday != "*"


def way_to_ask(line):
    _, _, day, month, weekday = line.split(" ")
    if not is_joined(line):
        return AS_IT_STANDS
    if month != "*":
        return MONTH
    return FULL if numbers(day) == DAYS or numbers(weekday) == WEEKDAYS else AS_IT_STANDS


def parts_of(line):
    """The lines of which either suffices."""
    minute, hour, day, month, weekday = line.split(" ")
    if not is_joined(line):
        return [line]
    return [f"{minute} {hour} {day} {month} *", f"{minute} {hour} * * {weekday}"]


def listed(line, start):
    """The times of a line that croniter reads as it is meant."""
    schedule = croniter(line, start - MINUTE)
    while True:
        try:
            yield schedule.get_next(datetime)
        except CroniterBadDateError:
            return


def in_one_go(line, start):
    """The held times from the start on, as croniter lists them for the line or for its parts."""
    asked = [line] if way_to_ask(line) == AS_IT_STANDS else parts_of(line)
    moments = heapq.merge(*(listed(part, start) for part in asked))
    return (moment for moment, _ in itertools.groupby(moments))


def in_small_questions(line, start):
    """The same, each the least of what croniter finds for each part, from here and from the month's end."""
    here = start - MINUTE
    while here <= END:
        end = (here.replace(day=1, hour=0, minute=0) + timedelta(days=32)).replace(day=1) - MINUTE
        questions = [(part, asked) for part in parts_of(line) for asked in (here, max(here, end))]
        here = min(next_held(*question) for question in questions)
        yield here


def next_held(line, asked):
    try:
        return croniter(line, asked).get_next(datetime)
    except CroniterBadDateError:
        return datetime.max


def first_of(moments, most):
    moments = itertools.takewhile(lambda moment: moment <= END, moments)
    return [f"{moment:%Y%m%dT%H%M}" for moment in itertools.islice(moments, most)]


def main():
    ways, times, again, differ = collections.Counter(), 0, 0, 0
    for row in sys.stdin:
        line, start, rest, given = row.rstrip("\n").split("|")
        wanted = given.split()
        start = datetime.strptime(start, "%Y%m%dT%H%M")
        fields = line.partition(" ")[2]

        def agrees(way):
            found = first_of(way(fields, start), len(wanted) + 1)
            goes_on = len(found) > len(wanted)
            return found[: len(wanted)] == wanted and goes_on == (rest == "cut")

        ways[way_to_ask(fields)] += 1
        times += len(wanted)
        if not agrees(in_one_go):
            again += 1
            if not agrees(in_small_questions):
                differ += 1
                print(f"differs: {line} from {start}")
    lines = sum(ways.values())
    asked = ", ".join(f"{ways[way]} {way}" for way in (AS_IT_STANDS, MONTH, FULL))
    print(f"compared {lines} lines ({asked}; {again} again in small questions) with {times} times, {differ} differ")
    return 0 if differ == 0 and lines > 0 else 1


if __name__ == "__main__":
    sys.exit(main())
