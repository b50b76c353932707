"""Compares a table of examples, as it is written, with a peer: python3 examples.py TABLE

Rules (../tables/rfc5545.txt) with dateutil; where the RFC's rule has WKST=SU, with weeks from Sunday as well as from Monday. Their
printed offsets are New York's (zoneinfo), and their weekdays the same, 28 years before.
Cron lines (../tables/crontab.txt) with croniter, from the first of the first printed month.
"""

import sys
from datetime import datetime
from itertools import islice
from zoneinfo import ZoneInfo

NEW_YORK = ZoneInfo("America/New_York")
MOVED = 28  # years


def paragraphs(path):
    with open(path) as table:
        kept = "".join(line for line in table if not line.startswith("#"))
    return [paragraph.splitlines() for paragraph in kept.strip("\n").split("\n\n")]


def moments(month):
    """The times of a line `2025-09 0900-0400 2-11 13`, each with its offset."""
    month, clock, *days = month.split(" ")
    for word in days:
        first, _, last = word.partition("-")
        for day in range(int(first), int(last or first) + 1):
            yield datetime.strptime(f"{month}-{day:02} {clock}", "%Y-%m-%d %H%M%z")


def is_as_printed(moment):
    """Whether it is New York's time with the same weekday in the RFC's own year."""
    printed = moment.replace(year=moment.year - MOVED, tzinfo=NEW_YORK)
    return printed.utcoffset() == moment.utcoffset() and printed.weekday() == moment.weekday()


def by_peers(title, line, first):
    """The line's times, as each way to ask the peer lists them."""
    if line.startswith("R "):
        import rules

        yield rules.occurrences(line)
        if "[WKST=SU]" in title:
            yield rules.occurrences(line, rules.rrule.SU)
    else:
        import cron

        yield cron.in_one_go(line[2:], first.replace(day=1, hour=0, minute=0))


def agrees(title, line, *months):
    """Whether all agree, and the number of printed times."""
    goes_on = "..." in months
    wanted = [moment for month in months if month != "..." for moment in moments(month)]
    local = [moment.replace(tzinfo=None) for moment in wanted]
    lists = [list(islice(found, len(local) + 1)) for found in by_peers(title, line, local[0])]
    same = all(found[: len(local)] == local and (len(found) > len(local)) == goes_on for found in lists)
    printed = all(map(is_as_printed, wanted)) if line.startswith("R ") else True
    return same and printed, len(local)


def main():
    (path,) = sys.argv[1:]
    examples = times = differ = 0
    for lines in paragraphs(path)[1:]:
        good, printed = agrees(*lines)
        examples += 1
        times += printed
        if not good:
            differ += 1
            print(f"differs: {lines[0]}")
    print(f"compared {examples} examples with {times} times, {differ} differ")
    return 0 if differ == 0 and examples > 0 else 1


sys.exit(main())
