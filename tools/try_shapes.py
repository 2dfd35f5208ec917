#!/usr/bin/env python3
"""Counts the instructions of the C library's calls for shapes of input that could be expensive.

usage: tools/try_shapes.py [--write] [WORD ..]

A shape is a zone with seconds to ask it about, or with a column. Valgrind's callgrind counts, so that neither the machine nor its load
matters. A call may take ten times what it takes in New York, a row of a column ten times what it takes there in a column of 10,000
rows, and a byte of a zone that is opened ten times what one of New York's file or TZ string takes. Where tools/shapes.txt has a
reason, a shape may take more. That file keeps the counts of New York, and must have each that is above three quarters of the limit:
none may grow to more than 1.3 of the kept one. With words, only shapes whose names have one of them are tried. --write writes the counts to keep,
with their reasons.

It needs crates/zoned_ffi/out/libzoned_ffi.a, which `rt lib` builds in crates/zoned_ffi, gcc, and a tz database in
/usr/share/zoneinfo; without valgrind and its header it counts nothing. It takes two minutes of a processor. The status is 1 if a
count is too high.
"""

import random
import re
import shutil
import struct
import subprocess
import sys
import tempfile
from concurrent.futures import ThreadPoolExecutor
from dataclasses import dataclass, field
from pathlib import Path

from kit import kit
from sources import DATABASE, TOP, needs

ARCHIVE, PROGRAM, KEPT = TOP / "crates/zoned_ffi/out/libzoned_ffi.a", TOP / "tools/count_calls.c", TOP / "tools/shapes.txt"
HEADER = Path("/usr/include/valgrind/callgrind.h")
MOST_TIMES, MOST_GROWTH, NEAR = 10, 1.3, 7.5
FILE, EXTENDED_STRING = 0, 2
DAY, YEAR = 86_400, 31_556_952
YEAR_1900, YEAR_2000, YEAR_2100 = -2_208_988_800, 946_684_800, 4_102_444_800
OLD_DATES = {"1900": YEAR_1900, "1753": -6_847_804_800, "1": -62_135_596_800}
LEAST, GREATEST = -(2**63), 2**63 - 1
QUESTIONS = 300
# What the others are compared with.
NEW_YORK, NEW_YORK_RULE, NEW_YORK_COLUMN = "New York, random", "EST5EDT,M3.2.0,M11.1.0, random", "New York: 10,000 rows"
RULES = [
    "EST5EDT,M3.2.0,M11.1.0",
    "XXX3EDT4,0/0,J365/23",
    "EST5EDT,0/0,J365/25",
    "AAA0BBB,J1/0,J365/25",
    "AAA0BBB,0/0,365/25",
    "AAA0BBB-1,J60/0,59/0",
    "AAA0BBB-1,J59/0,M2.5.0/0",
    "AAA0BBB-1,M2.5.0/0,J59/0",
    "AAA0BBB,J1/0,J1/0",
    "AAA0BBB0,J1/-167,J365/167",
    "AAA0BBB,M12.5.0/167,M1.1.0/-167",
    "AAA0BBB,59/0,J60/0",
]


@dataclass
class Shape:
    """A zone, and what it is asked: seconds, by each call, or a column's rows."""

    name: str
    kind: int
    content: bytes
    seconds: list = field(default_factory=list)
    rows: list = field(default_factory=list)

    def asked(self):
        """What tools/count_calls.c reads."""
        column = [len(self.rows), *self.rows] if self.rows else []
        head = [self.kind, len(self.content), len(self.seconds), bool(self.rows)]
        numbers = [*self.seconds, *column]
        return struct.pack("4q", *head) + self.content + struct.pack(f"{len(numbers)}q", *numbers)

    def ordinary(self, call):
        """The shape that a call is compared with."""
        if call == "open" and self.kind == EXTENDED_STRING:
            return NEW_YORK_RULE
        return NEW_YORK_COLUMN if self.rows and call != "open" else NEW_YORK

    def size(self, call):
        """How many bytes, rows or questions a call was counted for."""
        return len(self.content) if call == "open" else len(self.rows or self.seconds)


def tzif(times, indices, offsets, leaps=()):
    """A file of version 2, whose types have the DST flag by turns."""
    names = b"AAA\0BBB\0"

    def block(width, times, leaps):
        counts = struct.pack(">6I", 0, 0, len(leaps), len(times), len(offsets), len(names))
        records = b"".join(struct.pack(">iBB", offset, number % 2, number % 2 * 4) for number, offset in enumerate(offsets))
        entries = b"".join(struct.pack(f">{width}i", *leap) for leap in leaps)
        listed = struct.pack(f">{len(times)}{width}", *times) + bytes(indices[: len(times)])
        return b"TZif2" + bytes(15) + counts + listed + records + names + entries

    return block("l", [], []) + block("q", times, leaps) + b"\n\n"


def among(times, chance):
    """Groups of seconds: near random ones of these times, near the first and the last, and near both ends of 64 bits."""
    half = range(QUESTIONS // 2)
    return {
        "random": [chance.choice(times) + chance.randrange(-DAY, DAY) for _ in range(QUESTIONS)],
        "at its ends": [end + chance.randrange(-DAY, DAY) for end in (times[0], times[-1]) for _ in half],
        "at the ends of 64 bits": [end + side * chance.randrange(DAY) for end, side in ((LEAST, 1), (GREATEST, -1)) for _ in half],
    }


def between(first, last, chance):
    return [chance.randrange(first, last) for _ in range(QUESTIONS)]


def files(chance):
    """Files by their names, each with the groups of its seconds."""
    years = {"random": between(YEAR_1900, YEAR_2100, chance)}
    for name, path in (("New York", "America/New_York"), ("Tokyo", "Asia/Tokyo"), ("New York with leap seconds", "right/America/New_York")):
        yield name, (DATABASE / path).read_bytes(), years
    yield "a transition at -2^59", tzif([-(2**59), YEAR_1900, YEAR_2000], [1, 0, 1], [-18000, -14400]), years
    kinds = [
        ("types by turns, a second apart", 1, [0, 3600]),
        ("types by turns, two hours apart", 7200, [0, 3600]),
        ("types of 256, a second apart", 1, [chance.randrange(-DAY, DAY) for _ in range(256)]),
        ("types of 256 that fall, five minutes apart", 300, [DAY - 600 * number for number in range(256)]),
        ("types of 256 with offsets of 32 bits, a second apart", 1, [chance.randrange(1 - 2**31, 2**31) for _ in range(256)]),
    ]
    for count in (20_000, 200_000):
        idle = [YEAR_1900 + number for number in range(count)]
        yield f"{count:,} transitions that change nothing", tzif(idle, [0] * count, [0, 3600]), among(idle, chance)
        for name, gap, offsets in kinds:
            times = [YEAR_1900 + gap * number for number in range(count)]
            yield f"{count:,} {name}", tzif(times, [number % len(offsets) for number in range(count)], offsets), among(times, chance)
        for name, step in (("leap seconds", 1), ("negative leap seconds", -1)):
            leaps = [(28 * DAY * number, step * number) for number in range(1, count + 1)]
            content = tzif([0, 28 * DAY * (count + 2)], [1, 0], [0, 3600], leaps)
            yield f"{count:,} {name}", content, among([at for at, _ in leaps], chance)


def columns(chance):
    """Columns by their names, each with the zone's path."""
    for name, path in (("New York", "America/New_York"), ("Kolkata", "Asia/Kolkata")):
        new = [chance.randrange(YEAR_2000, YEAR_2000 + 20 * YEAR) for _ in range(100_000)]
        for count in (10, 100, 1_000, 2_000, 2_100, 10_000, 100_000):
            yield f"{name}: {count:,} rows", path, new[:count]
        yield f"{name}: 100,000 rows in order", path, sorted(new)
        for years in (1, 100, 400):
            yield f"{name}: 65,536 rows of {years} years", path, [chance.randrange(YEAR_2000, YEAR_2000 + years * YEAR) for _ in range(65_536)]
        for gap in (10, 100, 1_000):
            for year, old in OLD_DATES.items():
                mixed = [old if row % gap == 0 else at for row, at in enumerate(new[:65_536])]
                yield f"{name}: the year {year} in each {gap:,}th row", path, mixed


def shapes():
    chance = random.Random(1)
    for name, content, groups in files(chance):
        for group, seconds in groups.items():
            yield Shape(f"{name}, {group}", FILE, content, seconds)
    for rule in RULES:
        yield Shape(f"{rule}, random", EXTENDED_STRING, rule.encode(), between(YEAR_1900, YEAR_2100, chance))
        yield Shape(f"{rule}, anywhere", EXTENDED_STRING, rule.encode(), between(-(2**55), 2**55, chance))
    for name, path, rows in columns(chance):
        yield Shape(name, FILE, (DATABASE / path).read_bytes(), rows=rows)


def counted(program, folder, shape):
    """The instructions of each call, for one question, row or byte."""
    with tempfile.TemporaryDirectory(dir=folder) as room:
        asked = Path(room, "asked")
        asked.write_bytes(shape.asked())
        words = ["valgrind", "--tool=callgrind", "--collect-atstart=no", f"--callgrind-out-file={room}/counted", program, asked]
        ran = subprocess.run([*map(str, words)], capture_output=True, text=True)
        if ran.returncode or ran.stdout != "0\n":
            sys.exit(f"{shape.name}: the zone isn't opened: {ran.stdout.strip()}\n{ran.stderr[-500:]}")
        found = {}
        for part in map(Path.read_text, Path(room).glob("counted.*")):
            call = re.search(r"(?m)^desc: Trigger: Client Request: (.*)$", part)
            if call:
                found[call[1]] = int(re.search(r"(?m)^(?:summary|totals): (\d+)", part)[1]) / shape.size(call[1])
        return found


def kept():
    """The counts of tools/shapes.txt, and its reasons."""
    counts, reasons = {}, {}
    for line in KEPT.read_text().splitlines()[1:] if KEPT.exists() else []:
        name, call, count, *reason = line.split(" | ")
        counts[name, call] = float(count)
        reasons |= {(name, call): because for because in reason}
    return counts, reasons


def build(folder):
    program = folder / "count_calls"
    words = ["gcc", "-O2", "-Wall", "-Wextra", "-Werror", f"-I{TOP}/crates/zoned_ffi/include", "-o", program, PROGRAM, ARCHIVE, kit() / "c/liblibc_c.a"]
    subprocess.run([*map(str, words)], check=True)
    return program


def main():
    asked = [word for word in sys.argv[1:] if word != "--write"]
    needs("rt", "gcc", ARCHIVE, DATABASE)
    if not (shutil.which("valgrind") and HEADER.exists()):
        print("valgrind isn't installed: nothing is counted")
        return False
    always = {NEW_YORK, NEW_YORK_RULE, NEW_YORK_COLUMN}
    wanted = [shape for shape in shapes() if not asked or shape.name in always or any(word in shape.name for word in asked)]
    with tempfile.TemporaryDirectory() as folder, ThreadPoolExecutor(4) as lanes:
        program = build(Path(folder))
        found = dict(zip([shape.name for shape in wanted], lanes.map(lambda shape: counted(program, folder, shape), wanted)))
    before, reasons = kept()
    failures, tried, lines, opened = 0, 0, [], set()
    for shape in wanted:
        for call, count in sorted(found[shape.name].items()):
            if call == "open" and shape.content in opened:
                continue
            opened |= {shape.content} if call == "open" else set()
            row = shape.name, call
            times = count / found[shape.ordinary(call)][call]
            growth = count / before.get(row, count)
            if (times > MOST_TIMES and row not in reasons) or (times > NEAR and row not in before) or growth > MOST_GROWTH:
                failures += 1
                print(f"{shape.name}: {call}: {count:.0f}, {times:.1f} times the ordinary count, and {growth:.2f} times the kept one")
            tried += 1
            if times > NEAR or shape.name == shape.ordinary(call):
                lines.append(" | ".join([*row, f"{count:.1f}", *([reasons[row]] if row in reasons else [])]))
    print(f"{len(wanted)} shapes, {tried} counts, of which {failures} are too high")
    if "--write" in sys.argv:
        KEPT.write_text("\n".join(["# shape | call | instructions of a question, a row, or a byte of the zone | why they may be many", *lines]) + "\n")
    return failures > 0


if __name__ == "__main__":
    sys.exit(main())
