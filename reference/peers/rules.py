"""Compares rule lines with dateutil's rrule: reference dump rules --seed S --times N | python3 rules.py

Where dateutil differs from the documents: it joins plain and ordinal weekdays of one BYDAY by "and", so where
both are given each plain one is written as its five ordinals, which means the same; it has no window, so its
list ends with 2099. An ordinal in YEARLY without BYMONTH is one of the year there, and refused here.
"""

import sys
from datetime import datetime
from itertools import islice, takewhile

from dateutil import rrule

FREQUENCIES = {"DAILY": rrule.DAILY, "WEEKLY": rrule.WEEKLY, "MONTHLY": rrule.MONTHLY, "YEARLY": rrule.YEARLY}
WEEKDAYS = {str(day): day for day in (rrule.MO, rrule.TU, rrule.WE, rrule.TH, rrule.FR, rrule.SA, rrule.SU)}
END = datetime(2099, 12, 31, 23, 59)


def time(text):
    return datetime.strptime(text, "%Y%m%dT%H%M")


def weekdays(text):
    entries = [(entry[:-2], WEEKDAYS[entry[-2:]]) for entry in text.split(",")]
    mixed = any(ordinal for ordinal, _ in entries)
    found = []
    for ordinal, day in entries:
        if ordinal:
            found.append(day(int(ordinal)))
        elif mixed:
            found.extend(day(number) for number in range(1, 6))
        else:
            found.append(day)
    return found


def occurrences(line, week_start=rrule.MO):
    """The rule's times by dateutil."""
    _, start, parts = line.split(" ")
    options = {"dtstart": time(start), "wkst": week_start}
    for part in parts.split(";"):
        name, value = part.split("=")
        if name == "FREQ":
            options["freq"] = FREQUENCIES[value]
        elif name in ("INTERVAL", "COUNT"):
            options[name.lower()] = int(value)
        elif name == "UNTIL":
            options["until"] = time(value)
        elif name == "BYDAY":
            options["byweekday"] = weekdays(value)
        else:
            options[name.lower()] = [int(number) for number in value.split(",")]
    return takewhile(lambda moment: moment <= END, rrule.rrule(**options))


def main():
    rules = times = differ = 0
    for row in sys.stdin:
        line, _, rest, listed = row.rstrip("\n").split("|")
        wanted = listed.split()
        more = 1 if rest == "cut" else 0
        found = [f"{moment:%Y%m%dT%H%M}" for moment in islice(occurrences(line), len(wanted) + 1)]
        rules += 1
        times += len(wanted)
        if found[: len(wanted)] != wanted or len(found) != len(wanted) + more:
            differ += 1
            if differ <= 20:
                print(f"differs: {line}\n  reference: {wanted[:5]} {rest}\n  dateutil:  {found[:5]}")
    print(f"compared {rules} rules with {times} times, {differ} differ")
    return 0 if differ == 0 and rules > 0 else 1


if __name__ == "__main__":
    sys.exit(main())
