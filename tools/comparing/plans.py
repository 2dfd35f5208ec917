"""Compares when plans fire with croniter and with dateutil's rrule, in thirty zones, from 1970 to 2069.

Crontab lines and rules of RFC 5545 that touch the hours at which clocks change are asked in all zones, and random ones in one zone
each. `ZonePlans::next_fire` and `previous_fire` list their fires in both directions. They must be

- the first seconds at which clocks show, by Python's zoneinfo, the local times that croniter or rrule lists, or later ones, each once;
- the instants that croniter and rrule themselves list in that zone, but for days on which clocks change at a local time of the plan.
  These are counted, by their reason:
  gap: clocks skip the local time. Here the plan fires at the gap's end, once for all that it skips. rrule has the instant that the
       offset before the gap gives, as late after the gap's end as the local time is after the gap's begin. croniter has the instant
       that the offset after the gap gives, an hour early, and returns it again and again: it is started again after the gap.
  fold: clocks show the local time twice. Here the plan fires on the first pass only, as rrule does. croniter has the second pass,
       or both.
  late: the first run after a clock change comes too early or too late by as much as clocks were set, and croniter passes over
       those between. croniter 1.3.5 adds to an instant what only times of pytz need, which keep the offset from before a change.

Any other difference is printed. A plan of all zones is asked itself in one of them; in the others it is the list of its local times. A
rule by seconds goes over the weeks in which most zones set their clocks, since dateutil passes through each of its seconds. The
plans run in a test with no proof, as tools/try_tests.py runs tests, which is slow: the compiler adds checks of memory. It needs
Debian's python3-croniter and python3-dateutil, so it is run by /usr/bin/python3.

usage: /usr/bin/python3 tools/compare.py plans [--random N] [--zones N] [--years FIRST LAST]

  --random N   that many random lines, and as many rules, for each zone (2)
  --zones N    only the first N zones
  --years ..   only these years (1970 2069); without random plans all years of all zones take eleven minutes of a processor, ten years two
"""

import argparse
import calendar
import multiprocessing
import random
import shutil
import sys
import tempfile
import time
from bisect import bisect_left
from collections import Counter
from concurrent.futures import ThreadPoolExecutor
from datetime import datetime, timedelta, timezone
from importlib.util import find_spec
from pathlib import Path
from zoneinfo import ZoneInfo

from comparing.database import FOLDER, TzFile
from comparing.days import stretches
from kit import tried
from sources import TOP, needs

ZONES = """America/New_York Pacific/Apia America/St_Johns Australia/Lord_Howe Europe/Dublin Africa/Casablanca Africa/Cairo
Africa/Johannesburg America/Bogota America/Havana America/Los_Angeles America/Nuuk America/Santiago America/Sao_Paulo Antarctica/Troll
Asia/Gaza Asia/Kathmandu Asia/Kolkata Asia/Manila Asia/Tehran Asia/Tokyo Atlantic/Azores Australia/Adelaide Europe/Lisbon Europe/London
Europe/Moscow Europe/Paris Pacific/Auckland Pacific/Kwajalein UTC""".split()
HOUR, DAY = 3_600, 86_400
EPOCH = datetime(1970, 1, 1)
LONGEST = "3600"
LINES = ["30 2 * 3,4,9,10,11 0", "0 0 * 3,4,9,10 0", "0,30 1-2 * 3,10 0", "59 23 31 12 *", "0 0 1 * *", "30 4 1,15 1 5"]
PARTS = ["month", "weekno", "yearday", "monthday", "day", "hour", "minute", "second", "setpos"]
RULES = [
    {"freq": 1, "day": [(6, -1)], "hour": [2], "minute": [30]},
    {"freq": 0, "month": [3, 10], "day": [(6, 0)], "hour": [0, 1, 2], "minute": [30]},
    {"freq": 1, "day": [(4, 0)], "monthday": [13]},
    {"freq": 2, "interval": 6, "day": [(1, 0), (6, 0)], "wkst": 6},
    {"freq": 0, "weekno": [1, 20, 53, -1], "day": [(0, 0), (3, 0)]},
    {"freq": 0, "interval": 3, "yearday": [1, 100, -1]},
    {"freq": 4, "interval": 5, "month": [3, 10], "monthday": [25, 26, 27, 28, 29, 30, 31]},
    {"freq": 5, "interval": 7, "month": [3, 10], "monthday": [-1], "hour": [1, 2]},
    {"freq": 1, "day": [(0, 0), (1, 0), (2, 0), (3, 0), (4, 0)], "hour": [2], "minute": [30], "setpos": [-2]},
    {"freq": 0, "month": [3, 10], "day": [(6, 0)], "hour": [1, 2], "setpos": [1, -1]},
    {"freq": 3, "interval": 5, "hour": [0, 1, 2], "minute": [0, 30], "setpos": [3]},
    {"freq": 6, "interval": 601, "hour": [0, 1, 2, 3], "start": datetime(2021, 3, 8), "until": datetime(2021, 4, 8)},
    {"freq": 6, "interval": 13, "hour": [0, 1, 2], "minute": [0, 30], "start": datetime(2021, 10, 20), "until": datetime(2021, 11, 10)},
]


def second(at):
    return (at - EPOCH) // timedelta(seconds=1)


def some(rng, low, high, most=3):
    return sorted(rng.sample(range(low, high + 1), rng.randint(1, min(most, high - low + 1))))


def a_line(rng):
    """A crontab line of some runs a month at most, in which croniter takes no list for `*`."""
    fields = [some(rng, 0, 59, 2), some(rng, 0, 23, 2), some(rng, 1, 31), some(rng, 1, 12, 6), some(rng, 0, 6)]
    texts = [",".join(map(str, field)) for field in fields]
    for place in rng.choice([(), (2,), (4,), (3,), (3, 2), (3, 4)]):
        texts[place] = "*"
    return " ".join(texts)


def a_rule(rng):
    """A rule that RFC 5545 allows, mostly of some ten runs a year, without what the two are known to read differently."""
    rule = {"freq": rng.randrange(4)}
    rule["interval"] = rng.choice([11, 30, 45] if rule["freq"] == 3 else [1, 1, 2, 3, 5])
    if rng.random() < 0.4:
        rule["month"] = some(rng, 1, 12, 6)
    if rule["freq"] != 2 and rng.random() < 0.4:
        rule["monthday"] = [day * rng.choice([1, -1]) for day in some(rng, 1, 31, 4)]
    if rng.random() < 0.5:
        numbers = [1, 2, -1, 5] if rule["freq"] < 2 and rng.random() < 0.5 else [0]
        rule["day"] = [(day, rng.choice(numbers)) for day in some(rng, 0, 6)]
    if rule["freq"] == 0 and "monthday" not in rule and rng.random() < 0.3:
        rule["yearday"] = [day * rng.choice([1, -1]) for day in some(rng, 1, 366, 6)]
    if rng.random() < 0.3:
        rule["hour"] = some(rng, 0, 23, 2)
    if rng.random() < 0.3:
        rule["minute"] = some(rng, 0, 59, 2)
    if rule["freq"] != 2 and any(part in rule for part in PARTS) and rng.random() < 0.4:
        rule["setpos"] = [place * rng.choice([1, -1]) for place in some(rng, 1, 4, 2)]
    return rule


def numbers_of_line(line):
    """The numbers that plans.txt reads of a crontab line."""
    made = []
    for field, (low, high) in zip(line.split(), [(0, 59), (0, 23), (1, 31), (1, 12), (0, 6)], strict=True):
        numbers = []
        for part in field.split(","):
            span, _, step = part.partition("/")
            first, _, last = (f"{low}-{high}" if span == "*" else span).partition("-")
            numbers += range(int(first), int(last or first) + 1, int(step or 1))
        made += [len(numbers), *numbers]
    days, weekdays = line.split()[2], line.split()[4]
    return [int("*" not in (days, weekdays)), *made]


def numbers_of_rule(rule, start, last):
    made = [rule["freq"], rule.get("interval", 1), rule.get("wkst", 0)]
    for part in PARTS:
        values = [number for entry in rule.get(part, []) for number in entry] if part == "day" else rule.get(part, [])
        made += [len(values), *values]
    return [*made, second(start), 2, last_of(rule, last)]


def last_of(rule, last):
    return second(rule["until"]) if "until" in rule else last + 2 * DAY


def runs_of_line(line, between, tz=timezone.utc):
    """The instants that croniter lists in a zone, from two days before the years to two days after them. In UTC they are the plan's
    local times.

    If croniter returns an instant again, or an earlier one, it is started again there, and if it stays there an hour later.
    """
    from croniter import croniter

    begin, made = between[0] - 2 * DAY, []
    while begin <= between[1] + 2 * DAY:
        for run in croniter(line, datetime.fromtimestamp(begin, tz), max_years_between_matches=9).all_next(datetime):
            at = int(run.timestamp())
            if at > between[1] + 2 * DAY:
                return made
            if made and at <= made[-1]:
                break
            made.append(at)
        begin = made[-1] if made and begin < made[-1] else begin + HOUR
    return made


def runs_of_rule(rule, start, last):
    """The local times that rrule lists. In a zone it lists the same with the zone's name."""
    from dateutil import rrule

    words = {f"by{part}": rule[part] for part in PARTS if part in rule and part != "day"}
    if "day" in rule:
        words["byweekday"] = [rrule.weekday(day, nth or None) for day, nth in rule["day"]]
    until = EPOCH + timedelta(seconds=last_of(rule, last))
    made = rrule.rrule(rule["freq"], dtstart=start, interval=rule.get("interval", 1), wkst=rule.get("wkst", 0), until=until, **words)
    return [second(run) for run in made]


def listed_by(plan, start, between):
    return runs_of_line(plan, between) if start is None else runs_of_rule(plan, start, between[1])


def in_zone(asked):
    """The instants that croniter or rrule lists in a zone, if it lists those local times in none."""
    name, plan, start, locals_, between = asked
    if start is None:
        return runs_of_line(plan, between, ZoneInfo(name))
    return [int((EPOCH + timedelta(seconds=at)).replace(tzinfo=ZoneInfo(name)).timestamp()) for at in locals_]


class Clock:
    """A zone's clock as zoneinfo has it: its stretches of one offset."""

    def __init__(self, path, name, between):
        self.first, self.last = between
        self.found = stretches(TzFile(path.read_bytes()), ZoneInfo(name), self.first - 7 * DAY, self.last + 7 * DAY)
        self.changes = [(at, before, after) for (_, before), (at, after) in zip(self.found, self.found[1:])]

    def is_inside(self, at):
        return self.first < at <= self.last

    def fires(self, locals_):
        """The first seconds at which clocks show each of these local times, which rise, or a later one: each once, within the years."""
        place, made = 0, []
        for local in locals_:
            while True:
                begin, offset = self.found[place]
                end = self.found[place + 1][0] if place + 1 < len(self.found) else self.last + 7 * DAY
                at = max(begin, local - offset)
                if at < end or place + 1 == len(self.found):
                    break
                place += 1
            if self.is_inside(at) and (not made or made[-1] != at):
                made.append(at)
        return made

    def reason(self, at, locals_):
        """`gap` or `fold`, if clocks are set within a day of that second and one of those local times is in that gap or fold."""
        for change, before, after in self.changes:
            if abs(at - change) <= DAY:
                place = bisect_left(locals_, change + min(before, after))
                if place < len(locals_) and locals_[place] < change + max(before, after):
                    return "gap" if before < after else "fold"
        return None

    def is_day_after_change(self, at):
        return any(0 <= at - change <= DAY for change, _, _ in self.changes)

    def shifts(self, fires):
        """The instants that croniter may have in place of a fire: each with the fire."""
        found, place = {}, 0
        for before, at in zip([*[self.first] * 3, *fires], fires):
            while place + 1 < len(self.found) and self.found[place + 1][0] <= at:
                place += 1
            there = place
            while there >= 0 and (there == place or self.found[there + 1][0] > before):
                if self.found[there][1] != self.found[place][1]:
                    found[at - self.found[place][1] + self.found[there][1]] = at
                there -= 1
        return found


def ours(plans, folder):
    """When each plan fires in each of its zones, and whether also backward."""
    shutil.copytree(TOP / "crates", folder / "crates", ignore=shutil.ignore_patterns("out", "tests"))
    src = folder / "crates/tests/src"
    src.mkdir(parents=True)
    (src / "lib.rt").write_text("#![tactic(auto)]\n#[cfg(test)]\nmod plans;\n")
    (src / "plans.rt").write_text(Path(__file__).with_suffix(".txt").read_text().replace("FOLDER", str(folder)))
    (folder / "zones.txt").write_text("".join(f"{FOLDER / name}\n" for name in ZONES))
    (folder / "plans.txt").write_text("".join(" ".join(map(str, plan)) + "\n" for plan in plans))
    status, said = tried(src.parent, ["naive_base", "naive_plans", "naive_rrule", "tz_info", "zoned_plans", "zoned_ref", "zoned_time"], LONGEST)
    if status != 0:
        sys.exit(said)
    made = []
    for line in (folder / "fires.txt").read_text().splitlines():
        if "|" not in line:
            sys.exit(f"a plan is rejected: {line}")
        fires, back = line.split("|")
        made.append(([int(at) for at in fires.split()], back.strip() == "same"))
    return made


def asked_plans(zones, random_plans):
    """Each plan with its start, if it is a rule, and the zones in which it is asked."""
    plans = []
    for number, plan in enumerate([*LINES, *RULES]):
        rng, turn = random.Random(plan if isinstance(plan, str) else number), number % len(zones)
        start = None if isinstance(plan, str) else plan.get("start", EPOCH + timedelta(seconds=rng.randrange(0, 4 * 365 * DAY, 900)))
        plans.append((plan, start, zones[turn:] + zones[:turn]))
    for number in zones:
        rng = random.Random(number)
        plans += [(a_line(rng), None, [number]) for _ in range(random_plans)]
        plans += [(a_rule(rng), EPOCH + timedelta(seconds=rng.randrange(0, 4 * 365 * DAY, 900)), [number]) for _ in range(random_plans)]
    return plans


def options(given):
    words = argparse.ArgumentParser(prog="tools/compare.py plans")
    words.add_argument("--random", type=int, default=2)
    words.add_argument("--zones", type=int, default=len(ZONES))
    words.add_argument("--years", type=int, nargs=2, default=(1970, 2069))
    chosen = words.parse_args(given)
    return chosen.random, chosen.zones, tuple(calendar.timegm((year, 1, 1, 0, 0, 0)) for year in (chosen.years[0], chosen.years[1] + 1))


def main(*given):
    needs("rt")
    for name in ("croniter", "dateutil"):
        if not find_spec(name):
            sys.exit(f"tools/compare.py plans needs {name}: apt-get install python3-{name}, and run it by /usr/bin/python3")
    random_plans, zones_used, between = options(given)
    plans, tally, begun = asked_plans(list(range(zones_used)), random_plans), Counter(), time.monotonic()
    numbers = []
    for plan, start, those in plans:
        own = numbers_of_line(plan) if start is None else numbers_of_rule(plan, start, between[1])
        numbers.append([int(start is not None), len(those), *those, *between, *own])
    with tempfile.TemporaryDirectory() as folder, ThreadPoolExecutor(1) as thread, multiprocessing.Pool(2) as pool:
        fired = thread.submit(ours, numbers, Path(folder))
        locals_ = pool.starmap(listed_by, [(plan, start, between) for plan, start, _ in plans], chunksize=1)
        asked = [(ZONES[at], plan, start, found, between) for (plan, start, those), found in zip(plans, locals_) for at in those]
        theirs = pool.map(in_zone, asked, chunksize=1)
        print(f"croniter and rrule: {time.monotonic() - begun:.0f} s", file=sys.stderr)
        all_fires = fired.result()
        print(f"the plans: {time.monotonic() - begun:.0f} s", file=sys.stderr)
    clocks = {name: Clock(FOLDER / name, name, between) for name in ZONES[:zones_used]}
    for (name, plan, start, found, _), listed, (fires, same) in zip(asked, theirs, all_fires, strict=True):
        clock, label, kind = clocks[name], f"{name} {plan} {start or ''}", "croniter" if start is None else "rrule"
        tally[f"plans of {kind} in a zone"] += 1
        tally[f"fires of {kind}"] += len(fires)
        if not same:
            tally["wrong"] += 1
            print("back differs:", label)
        want = clock.fires(found)
        if want != fires:
            tally["wrong"] += 1
            print(f"{kind} and zoneinfo differ:", label, sorted(set(want) ^ set(fires))[:5])
        listed, shifts = set(filter(clock.is_inside, listed)), clock.shifts(fires) if start is None else {}
        late = [(min(shifted, at), max(shifted, at)) for shifted, at in shifts.items() if shifted in listed]
        for at in sorted(listed ^ set(fires)):
            whose, reason = kind if at in listed else "the plan", clock.reason(at, found)
            if not reason and (any(first <= at <= last for first, last in late) or start is None and clock.is_day_after_change(at)):
                reason = "late"
            if reason:
                tally[f"instants that only {whose} has ({kind}, {reason})"] += 1
            else:
                tally["wrong"] += 1
                print(f"only {whose} has:", label, at, datetime.fromtimestamp(at, timezone.utc))
    counts = [f"{count:,} {what}" for what, count in sorted(tally.items()) if what != "wrong"]
    print(", ".join(counts), f"{tally['wrong']} differences", sep="; ")
    return 1 if tally["wrong"] or not plans else 0
