#!/usr/bin/env python3
"""Writes large inputs for zoneq, the same at each run.

usage: tools/write_large_input.py mixed [FILE]     a zone line, then `at`, `wall` and `show` in turn, a million lines in all
       tools/write_large_input.py file [QUESTIONS] one TZif file as a `data` line, then QUESTIONS lines (0) near its changes

The zone of `mixed` is New York's by TZ string, or that of the TZif file FILE; the instants lie from 1900 to 2100. The TZif
file of `file` has version 2, 100,000 transitions and 1,000 leap second entries.
"""

import random
import struct
import sys
from datetime import datetime, timedelta
from pathlib import Path

EPOCH = datetime(1970, 1, 1)
FIRST, LAST = (int((datetime(year, 1, 1) - EPOCH).total_seconds()) for year in (1900, 2100))
LINES = 1_000_000
NANOS = [0, 250_000_000, 1_000, 999_999_999]

TRANSITIONS = 100_000
LEAP_SECONDS = 1_000
SHORTEST_MONTH = 28 * 86_400 - 1
TYPES = [(-17762, 0, 0), (-18000, 0, 4), (-14400, 1, 8), (3600, 0, 4), (-43200, 1, 8)]
NAMES = b"LMT\0EST\0EDT\0"


def question(kind, second, offset, nanos):
    """An `at`, `wall` or `show` line (kind 0, 1, 2) on a Unix time."""
    if kind == 0:
        return f"at {second}\n"
    if kind == 1:
        local = EPOCH + timedelta(seconds=second + offset)
        return f"wall {local.year} {local.month} {local.day} {local.hour} {local.minute} {local.second}\n"
    return f"show {second} {nanos}\n"


def mixed(chance, path):
    zone = "text EST5EDT,M3.2.0,M11.1.0" if path is None else f"data {path.read_bytes().hex()}"
    yield f"{zone}\n"
    for number in range(LINES - 1):
        yield question(number % 3, chance.randrange(FIRST, LAST), 0, chance.choice(NANOS))


def header(transitions, leap_seconds, types, names):
    """A version 2 header without indicators."""
    return b"TZif2" + bytes(15) + struct.pack(">6I", 0, 0, leap_seconds, transitions, types, names)


def large_file(chance):
    """The bytes of the file, and the times of its transitions."""
    entries, time, correction = [], 78_796_800, 0
    for _ in range(LEAP_SECONDS):
        correction += chance.choice([1, 1, 1, -1]) if entries else 1
        entries.append((time, correction))
        time += SHORTEST_MONTH + chance.choice([0, chance.randrange(86_400)])
    times, time = [], FIRST
    for _ in range(TRANSITIONS):
        times.append(time)
        time += chance.choice([1, 3_600, chance.randrange(1, 7_200), chance.randrange(1, 200_000)])
    records = b"".join(struct.pack(">iBB", *record) for record in TYPES)
    content = [header(0, 0, 1, len(NAMES)), records[:6], NAMES]
    content += [header(TRANSITIONS, LEAP_SECONDS, len(TYPES), len(NAMES))]
    content += [struct.pack(">q", time) for time in times]
    content += [bytes(chance.randrange(len(TYPES)) for _ in times), records, NAMES]
    content += [struct.pack(">qi", *entry) for entry in entries]
    return b"".join(content) + b"\n\n", times


def file(chance, questions):
    content, times = large_file(chance)
    yield f"data {content.hex()}\n"
    for number in range(questions):
        second = chance.choice(times) + chance.randrange(-LEAP_SECONDS, 2)
        yield question(number % 3, second, chance.choice(TYPES)[0], chance.choice(NANOS))


def main():
    what, *rest = sys.argv[1:] or [""]
    chance = random.Random(2026)
    if what == "mixed":
        lines = mixed(chance, Path(rest[0]) if rest else None)
    elif what == "file":
        lines = file(chance, int(rest[0]) if rest else 0)
    else:
        sys.exit(__doc__)
    sys.stdout.writelines(lines)


if __name__ == "__main__":
    main()
