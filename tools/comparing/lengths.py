"""Compares lengths of time in months, days and a rest with brute force over zoneinfo's offsets, in forty zones, from 1900 to 2100.

For each pair of seconds `calendar_since` returns months m, days d and a rest. The greatest local time that the stretches of one offset
show up to the later second must have reached m months after the earlier one, unclipped, and not m + 1. The first second at which they
show the local time m months, clipped, and d days later, or a later one, must not be after the later second, and that of d + 1 days must
be. The rest is what is left, and `checked_add_calendar` leads back. Any difference is printed.

dateutil's relativedelta counts the months and days between the two local times, and so does a Python form of java.time's
`Period.between`, with the time of day. Where they differ, the pair is counted by its reason:
  clipped: dateutil compares a month clipped, so 31 January to 28 February is a month
  changes: clocks were set between, and have passed or not yet reached the local time that is shown
Half of the seconds are near clock changes. The calls run in a test with no proof, as those of plans do.

usage: /usr/bin/python3 tools/compare.py lengths [--pairs N] [--zones N]

  --pairs N    pairs in each zone (25,000)
  --zones N    only the first N zones
"""

import argparse
import calendar
import random
import shutil
import sys
import tempfile
from bisect import bisect_right
from collections import Counter
from datetime import date, datetime, timedelta
from itertools import accumulate
from pathlib import Path
from zoneinfo import ZoneInfo

from comparing.database import FOLDER, TzFile
from comparing.days import FIRST, LAST, stretches
from kit import tried
from sources import TOP

ZONES = """America/New_York Pacific/Apia America/St_Johns Australia/Lord_Howe Pacific/Kwajalein Asia/Manila Europe/Dublin Africa/Casablanca
Africa/Cairo Africa/Johannesburg America/Bogota America/Havana America/Los_Angeles America/Nuuk America/Santiago America/Sao_Paulo
Antarctica/Troll Asia/Gaza Asia/Kathmandu Asia/Kolkata Asia/Tehran Asia/Tokyo Atlantic/Azores Australia/Adelaide Europe/Lisbon
Europe/London Europe/Moscow Europe/Paris Pacific/Auckland UTC America/Juneau Pacific/Kiritimati Pacific/Fakaofo Africa/Monrovia
America/Toronto Asia/Pyongyang Antarctica/Casey Europe/Istanbul Pacific/Chatham America/Caracas""".split()
DAY = 86_400
EPOCH = datetime(1970, 1, 1)


def local(second):
    return EPOCH + timedelta(seconds=second)


def number(at):
    return at.year * 12 + at.month - 1


def has_passed(start, months, reached):
    """Whether the local time has reached that many months after the other one, compared as they are."""
    to = (number(start) + months, start.day, start.time())
    return (number(reached), reached.day, reached.time()) >= to


def later(start, months, days):
    """The second of the local time that many months later, clipped, and then days."""
    year, month = divmod(number(start) + months, 12)
    day = min(start.day, calendar.monthrange(year, month + 1)[1])
    return (datetime.combine(date(year, month + 1, day), start.time()) - EPOCH) // timedelta(seconds=1) + days * DAY


class Zone:
    def __init__(self, name):
        content = (FOLDER / name).read_bytes()
        with open(FOLDER / name, "rb") as file:
            self.found = stretches(TzFile(content), ZoneInfo.from_file(file), FIRST, LAST)
        self.begins = [begin for begin, _ in self.found]
        ends = [*self.begins[1:], LAST]
        # the greatest local time of the stretches up to each one
        self.passed = [*accumulate((end - 1 + offset for (_, offset), end in zip(self.found, ends)), max)]

    def place(self, second):
        return bisect_right(self.begins, second) - 1

    def shown(self, second):
        return second + self.found[self.place(second)][1]

    def reached(self, second):
        place = self.place(second)
        return max(self.shown(second), self.passed[place - 1] if place else -(1 << 62))

    def first_at_or_after(self, wall):
        """The first second, in order of the stretches, at which the local time is shown or a later one."""
        place = max(self.place(wall - 2 * DAY), 0)
        while place and self.passed[place - 1] >= wall:
            place -= 1
        while True:
            begin, offset = self.found[place]
            end = self.begins[place + 1] if place + 1 < len(self.found) else LAST + 3 * 366 * DAY
            if wall - offset < end:
                return max(begin, wall - offset)
            place += 1

    def moved(self, start, months, days):
        return start if months == days == 0 else self.first_at_or_after(later(local(self.shown(start)), months, days))


def some_second(rng, zone):
    if rng.random() < 0.5 or len(zone.begins) < 2:
        return rng.randrange(FIRST + 3 * DAY, LAST - 800 * DAY)
    return min(max(rng.choice(zone.begins[1:]) + rng.randrange(-3 * DAY, 3 * DAY), FIRST + 3 * DAY), LAST - 800 * DAY)


def some_pair(rng, zone):
    start = some_second(rng, zone)
    if rng.random() < 0.5:
        return start, max(start, some_second(rng, zone)) if rng.random() < 0.5 else some_second(rng, zone)
    # about whole months and days later
    to = later(local(zone.shown(start)), rng.randrange(0, 14), rng.choice([0, 0, 1, 2, 30]))
    return start, min(zone.first_at_or_after(to) + rng.randrange(-7_200, 7_200), LAST - 400 * DAY)


def wrong(zone, start, end, answer):
    if answer == "none":
        return None if end < start else "no length"
    if end < start:
        return "a length back"
    months, days, rest, back = map(int, answer.split())
    first, reached = local(zone.shown(start)), local(zone.reached(end))
    if months > 0 and not has_passed(first, months, reached) or has_passed(first, months + 1, reached):
        return "months"
    at = zone.moved(start, months, days)
    if at > end or zone.moved(start, months, days + 1) <= end:
        return "days"
    if at + rest != end or rest < 0:
        return "rest"
    return None if back == end else "sum"


def period(first, last):
    """java.time's count between two local times: months as `has_passed` compares them, then days of the clipped date."""
    months = number(last) - number(first)
    if (last.day, last.time()) < (first.day, first.time()):
        months -= 1
    return months, (last - (EPOCH + timedelta(seconds=later(first, months, 0)))).days


def ours(pairs, names, folder):
    shutil.copytree(TOP / "crates", folder / "crates", ignore=shutil.ignore_patterns("out", "tests"))
    src = folder / "crates/tests/src"
    src.mkdir(parents=True)
    (src / "lib.rt").write_text("#![tactic(auto)]\n#[cfg(test)]\nmod lengths;\n")
    (src / "lengths.rt").write_text(Path(__file__).with_suffix(".txt").read_text().replace("FOLDER", str(folder)))
    (folder / "zones.txt").write_text("".join(f"{FOLDER / name}\n" for name in names))
    (folder / "pairs.txt").write_text("".join(f"{zone} {start} {end}\n" for zone, start, end in pairs))
    status, said = tried(src.parent, ["naive_base", "tz_info", "zoned_ref", "zoned_time"], "3600")
    if status != 0:
        sys.exit(said)
    return (folder / "lengths.txt").read_text().splitlines()


def main(*given):
    from dateutil.relativedelta import relativedelta

    parser = argparse.ArgumentParser(prog="tools/compare.py lengths")
    parser.add_argument("--pairs", type=int, default=25_000)
    parser.add_argument("--zones", type=int, default=len(ZONES))
    asked = parser.parse_args(given)
    names, counts, differ = ZONES[: asked.zones], Counter(), 0
    zones = [Zone(name) for name in names]
    pairs = []
    for place, zone in enumerate(zones):
        rng = random.Random(place)
        pairs += [(place, *some_pair(rng, zone)) for _ in range(asked.pairs)]
    with tempfile.TemporaryDirectory() as folder:
        answers = ours(pairs, names, Path(folder))
    if len(answers) != len(pairs):
        sys.exit(f"{len(answers)} answers to {len(pairs)} pairs")
    for (place, start, end), answer in zip(pairs, answers):
        zone = zones[place]
        what = wrong(zone, start, end, answer)
        if what:
            differ += 1
            if differ <= 20:
                print(f"{names[place]} {start} {end}: {answer}: {what}")
            continue
        if answer == "none":
            counts["no length"] += 1
            continue
        counts["lengths"] += 1
        months, days, rest, _ = map(int, answer.split())
        first, last = local(zone.shown(start)), local(zone.shown(end))
        if period(first, last) != (months, days):
            counts["Period.between: " + ("changes" if set_between(zone, start, end, months, days) else "no reason")] += 1
        delta = relativedelta(last, first)
        if (delta.years * 12 + delta.months, delta.days) != (months, days):
            clipped = period(first, last) == (months, days)
            counts["relativedelta: clipped" if clipped else "relativedelta: changes"] += 1
    print(f"{len(pairs):,} pairs in {len(names)} zones: {differ} differ; " + ", ".join(f"{count:,} {what}" for what, count in sorted(counts.items())))
    return 1 if differ or counts["Period.between: no reason"] else 0


def set_between(zone, start, end, months, days):
    """Whether clocks skip the local time that the instant is moved to, show it twice, or have been set back and haven't caught up."""
    to = later(local(zone.shown(start)), months, days)
    return zone.shown(end) != zone.reached(end) or zone.shown(zone.first_at_or_after(to)) != to or zone.reached(start) != zone.shown(start)
