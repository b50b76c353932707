"""Compares wall clock to instant with Python's zoneinfo: reference dump zones --seed S --times N | python3 zones.py

Each zone is written as a TZif file and read by zoneinfo. Its fold 0 is the first of a doubled hour, and in a gap
the offset before it, as document 01 and RFC 5545 3.3.5 want.
"""

import io
import struct
import sys
from datetime import datetime, timezone
from zoneinfo import ZoneInfo

START = datetime(2000, 1, 1)


def time(text):
    return datetime.strptime(text, "%Y%m%dT%H%M")


def offset(text):
    minutes = int(text[1:3]) * 60 + int(text[3:])
    return -minutes if text[0] == "-" else minutes


def header(transitions, types):
    return struct.pack(">4sc15x6l", b"TZif", b"2", 0, 0, 0, transitions, types, 4)


def zone(lines):
    """The zone of Z and T lines: one local time type for each line, none of them daylight saving."""
    words = [line.split(" ") for line in lines.split(";")]
    moments = [int(time(line[1]).replace(tzinfo=timezone.utc).timestamp()) for line in words[1:]]
    types = b"".join(struct.pack(">lbb", 60 * offset(line[-1]), 0, 0) for line in words)
    old_block = header(0, 1) + struct.pack(">lbb", 0, 0, 0) + b"LMT\0"
    new_block = header(len(moments), len(words))
    new_block += struct.pack(f">{len(moments)}q", *moments) + bytes(range(1, len(words))) + types + b"LMT\0"
    return ZoneInfo.from_file(io.BytesIO(old_block + new_block + b"\n\n"))


def main():
    zones = minutes = differ = 0
    for row in sys.stdin:
        lines, pairs = row.rstrip("\n").split("|")
        that = zone(lines)
        zones += 1
        for local, instant in (pair.split(" ") for pair in pairs.split(";")):
            shown = time(local).replace(tzinfo=that)
            found = (time(local) - shown.utcoffset() - START).total_seconds() / 60
            minutes += 1
            if found != int(instant):
                differ += 1
                if differ <= 20:
                    print(f"differs: {lines} {local}: {instant}, zoneinfo {found}")
    print(f"compared {minutes} local minutes in {zones} zones, {differ} differ")
    return 0 if differ == 0 and minutes > 0 else 1


sys.exit(main())
