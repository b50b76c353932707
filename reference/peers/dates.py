"""Compares the dump of all days with Python's datetime: reference dump dates | python3 dates.py"""

import sys
from datetime import date

EPOCH = date(1970, 1, 1).toordinal()


def wanted(day):
    """The dump's line for a day, by datetime alone."""
    that = date.fromordinal(day + EPOCH)
    year, week, weekday = that.isocalendar()
    back = date(that.year, that.month, that.day).toordinal() - EPOCH
    assert back == day and date.fromisocalendar(year, week, weekday) == that
    numbers = (day, that.year, that.month, that.day, year, week, weekday, that.isoweekday() % 7)
    return " ".join(map(str, numbers))


def main():
    first = date.min.toordinal() - EPOCH
    last = date.max.toordinal() - EPOCH
    compared = differ = 0
    for day, line in zip(range(first, last + 2), sys.stdin):
        compared += 1
        if day > last or line.rstrip("\n") != wanted(day):
            differ += 1
            if differ <= 20:
                print(f"differs: {line.rstrip()}")
    differ += abs(last - first + 1 - compared)
    print(f"compared {compared} days, {differ} differ")
    return 0 if differ == 0 and compared > 0 else 1


sys.exit(main())
