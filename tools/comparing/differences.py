"""Compares the differences of two tz databases with Python's zoneinfo: `zonedump --json --diff` of each pair of files of the same name,
from 1900 to 2037.

In each stretch that it prints, offset and abbreviation are zoneinfo's, second by second within a minute of both ends and at random
seconds between them. Outside of all stretches, within a minute of each and at random seconds, both zones have the same offset. It
takes a minute.
"""

import json
import random
import subprocess
from calendar import timegm
from collections import Counter
from io import BytesIO
from pathlib import Path
from zoneinfo import ZoneInfo

from comparing.database import TzFile
from comparing.days import instant
from sources import TOP, needs

YEARS = (1900, 2037)
AROUND = 60
DRAWN = 100


def type_at(zone, second):
    local = instant(second).astimezone(zone)
    return round(local.utcoffset().total_seconds()), local.tzname()


def differences(zonedump, old, new):
    """The differences that zonedump prints of two files."""
    first, last = YEARS
    call = [str(zonedump), "--json", "--from", str(first), "--to", str(last), "--diff", str(old), str(new)]
    ran = subprocess.run(call, capture_output=True, text=True)
    if ran.returncode not in (0, 1) or ran.stderr:
        raise ValueError(f"{call}: {ran.returncode}: {ran.stderr}")
    found = json.loads(ran.stdout)["differences"]
    if bool(found) != bool(ran.returncode):
        raise ValueError(f"{call}: status {ran.returncode}")
    return found


def compare_zone(name, found, old, new, counts):
    """Asks zoneinfo in each stretch, at its ends and outside of all."""
    first, last = timegm((YEARS[0], 1, 1, 0, 0, 0)), timegm((YEARS[1] + 1, 1, 1, 0, 0, 0))
    drawn = random.Random(str(name))

    def check(second, want, what):
        counts["seconds"] += 1
        got = (type_at(old, second), type_at(new, second))
        if not want(got):
            counts["wrong"] += 1
            print(f"{name}: {second} {what}: {got}")

    def pair(stretch):
        return tuple((side["offset"], side["name"]) for side in (stretch["old"], stretch["new"]))

    at = first
    for stretch in found:
        begin, end, want = stretch["from"], stretch["until"], pair(stretch)
        counts["stretches"] += 1
        counts["of another offset"] += want[0][0] != want[1][0]
        if not at <= begin < end <= last or stretch["moved"] != want[1][0] - want[0][0]:
            counts["wrong"] += 1
            print(f"{name}: {stretch}")
        near = {*range(begin, min(begin + AROUND, end)), *range(max(begin, end - AROUND), end)}
        for second in near | {drawn.randrange(begin, end) for _ in range(DRAWN)}:
            check(second, lambda got: got == want, f"in {begin} to {end}")
        if at < begin:
            near = {*range(at, min(at + AROUND, begin)), *range(max(at, begin - AROUND), begin)}
            for second in near | {drawn.randrange(at, begin) for _ in range(DRAWN)}:
                check(second, lambda got: got[0] == got[1], f"outside, before {begin}")
        at = end
    for second in {*range(at, min(at + AROUND, last)), *(drawn.randrange(at, last) for _ in range(DRAWN if at < last else 0))}:
        check(second, lambda got: got[0] == got[1], "outside, after all")


def main(old_folder, new_folder, zonedump=TOP / "crates/zonedump/out/zonedump"):
    needs(Path(zonedump))
    counts = Counter()
    for path in sorted(Path(old_folder).rglob("*")):
        name = path.relative_to(old_folder)
        other = Path(new_folder) / name
        if not path.is_file() or not other.is_file():
            continue
        contents = path.read_bytes(), other.read_bytes()
        if not all(c.startswith(b"TZif") and not TzFile(c).leap_seconds for c in contents):
            continue
        found = differences(zonedump, path, other)
        counts["files"] += 1
        counts["files that differ"] += bool(found)
        compare_zone(name, found, *(ZoneInfo.from_file(BytesIO(c)) for c in contents), counts)
    print(", ".join(f"{count:,} {what}" for what, count in counts.items()), f"{counts['wrong']} differences", sep="; ")
    return 1 if counts["wrong"] or not counts["files"] else 0
