#!/usr/bin/env python3
"""Columns of time by this package and by pandas: time, memory and answers.

usage: python/bench/side_by_side.py [--rows N] [--write] [--part NAME ..]

Prints the tables of RESULTS.md, or with --write puts them there, all of them and only on an idle machine: with pandas 1
those of its first block, and with a later one those of the second. It takes five minutes. --part prints some of them:
ratios, sizes, steps, values, calls, memory, kinds; arrow, which needs pyarrow; and limits: what the library's call alone
takes of a call on 1,000 to 100,000 rows, and what a copy takes that is made an answer.
After tools/python_tests.sh this measures and writes them:

    PYTHONPATH=python/src /usr/bin/python3 python/bench/side_by_side.py --write

2,000,000 instants of the years 1970 to 2036, drawn evenly with a fixed seed, are asked for their
local time: in no order, sorted, all of one day (2021-07-01), all equal, and in no order with one
row in a thousand of the years 1850 to 1969. The local times, moved by up to an hour and a half at
random so that some are skipped or shown twice, are asked for their instants: gaps and folds become
NaT. pandas and this package get the same Series of datetime64[ns], by turns. The processor time of
the process counts, the least of 5 turns (2 to instants), so other work on the machine has little
effect.

A call about one value or one row is the mean of 500 calls, the least of 40 or 20 turns. Memory is what tracemalloc finds
at the peak of a call, less the answer, for each row. Answers are compared with pandas', whose zones
of a name are those of pytz, and with `zoneinfo`'s, one row after another. The last table has pandas
with the zones of zoneinfo and of dateutil too.
"""

import argparse
import os
import platform
import re
import subprocess
import time
import tracemalloc
from ctypes import byref, c_int64, c_size_t, c_void_p
from datetime import datetime, timezone
from pathlib import Path
from zoneinfo import ZoneInfo

import numpy as np
import pandas as pd

from sahvumbi import Zone
from sahvumbi._containers import index_of_times, series_of_times
from sahvumbi._library import BRIEF

PAGE = Path(__file__).resolve().parent / "RESULTS.md"
BEGIN, END = "<!-- what python/bench/side_by_side.py prints -->\n", "<!-- end -->\n"
BEGIN_LATER = "<!-- what it prints with pandas 2 and pyarrow -->\n"
ZONES = [
    "America/New_York",
    "Australia/Lord_Howe",
    "Africa/Casablanca",
    "Europe/Dublin",
    "Asia/Kolkata",
    "Pacific/Apia",
]
CALLS = "to_local", "offsets", "types", "localize", "start_of_day"
IS_LATER = not pd.__version__.startswith("1.")
PARTS = ["ratios", "sizes", "values", "arrow"] if IS_LATER else ["ratios", "sizes", "steps", "values", "calls", "memory", "kinds"]
# pandas 1 and 2 have each its own word.
HOUR = "H" if pd.__version__ < "2.2" else "h"
DAY = int(np.datetime64("2021-07-01", "s").astype(int))
PACKAGES = "python3-tz", "python3-dateutil", "tzdata"


def timed(asks, turns, clock=time.process_time, calls=1):
    """What each of them answers, and the least seconds of a call; they take turns."""
    answers, least = [None for _ in asks], [float("inf") for _ in asks]
    for _ in range(turns):
        for place, ask in enumerate(asks):
            answers[place] = None
            begun = clock()
            for _ in range(calls):
                answers[place] = ask()
            least[place] = min(least[place], (clock() - begun) / calls)
    return answers, least


def years(first, end, rows, seed):
    """Seconds between the beginnings of two years."""
    ends = (int(np.datetime64(str(year), "s").astype(int)) for year in (first, end))
    return np.random.default_rng(seed).integers(*ends, rows)


def instants_of(seconds):
    return pd.Series((seconds * 10**9).view("M8[ns]")).dt.tz_localize("UTC")


def local_times_of(zone, seconds, seed=3):
    """The local times of instants, moved so that some are skipped or shown twice."""
    moved = np.random.default_rng(seed).integers(-5_400, 5_400, seconds.size)
    return pd.Series(((zone.to_local(seconds) + moved) * 10**9).view("M8[ns]"))


def orders(rows):
    seconds = years(1970, 2037, rows, 1)
    yield "in no order", seconds
    yield "sorted", np.sort(seconds)
    yield "one day", DAY + np.random.default_rng(2).integers(0, 86_400, rows)
    yield "equal", np.full(rows, DAY + 43_200)
    yield "old among new", with_old_dates(rows)


def with_old_dates(rows):
    """Instants of 1970 to 2036 in no order, and one in a thousand of 1850 to 1969."""
    seconds = years(1970, 2037, rows, 1)
    seconds[::1_000] = years(1850, 1970, seconds[::1_000].size, 4)
    return seconds


# pandas


def pandas_local(instants, zone):
    return instants.dt.tz_convert(zone).dt.tz_localize(None)


def pandas_instants(local, zone):
    return local.dt.tz_localize(zone, ambiguous="NaT", nonexistent="NaT").dt.tz_convert("UTC")


def index_local(instants, zone):
    return instants.tz_convert(zone).tz_localize(None)


def index_instants(local, zone):
    return local.tz_localize(zone, ambiguous="NaT", nonexistent="NaT").tz_convert("UTC")


def differing(ours, theirs):
    """The rows in which two columns differ; NaT is like NaT."""
    ours, theirs = (each.to_numpy("M8[ns]").view(np.int64) for each in (ours, theirs))
    return np.flatnonzero(ours != theirs)


# Tables


def row(*cells):
    return f"| {' | '.join(str(cell) for cell in cells)} |"


def table(head, numbers, rows):
    return [row(*head), "|---" * (len(head) - numbers) + "|--:" * numbers + "|", *rows, ""]


def ratios(rows):
    """pandas' time divided by ours, and ours for a row, in each order."""
    names = [name for name, _ in orders(1)]
    for question in ("to local times", "to instants"):
        lines = []
        for name in ZONES:
            zone, cells = Zone(name), []
            for order, seconds in orders(rows):
                if question == "to local times":
                    column = instants_of(seconds)
                    asks = [lambda: zone.to_local(column), lambda: pandas_local(column, name)]
                else:
                    column = local_times_of(zone, seconds)
                    if order == "sorted":
                        column = column.sort_values(ignore_index=True)
                    asks = [
                        lambda: zone.localize(column, gap="nat", fold="nat"),
                        lambda: pandas_instants(column, name),
                    ]
                answers, times = timed(asks, 5 if question == "to local times" else 2)
                # Zones of pytz have local mean time in whole minutes, and no change before 1901.
                assert (seconds[differing(*answers)] < 0).all(), (name, order, question)
                ours, theirs = (1e9 * each / rows for each in times)
                cells.append(f"{theirs / ours:.1f} ({ours:.1f} ns of {theirs:.0f})")
            lines.append(row(name, *cells))
        yield f"### {question[0].upper()}{question[1:]}: pandas' time divided by ours\n"
        yield from table(["zone", *names], len(names), lines)


def pairs_of(form, rows, local):
    """Each zone and order, with the call here, pandas' and the column, a Series or an Index."""
    index = form == "a DatetimeIndex"
    for name in ZONES:
        zone = Zone(name)
        for order, seconds in orders(rows):
            column = instants_of(seconds) if local else local_times_of(zone, seconds)
            column = pd.DatetimeIndex(column) if index else column
            ours = zone.to_local if local else lambda each, zone=zone: zone.localize(each, gap="nat", fold="nat")
            theirs = (index_local if index else pandas_local) if local else (index_instants if index else pandas_instants)
            yield name, order, lambda: ours(column), lambda: theirs(column, name), column


def sizes():
    """pandas' time divided by ours for shorter columns: the least ratio of all orders, also with old dates among new ones."""
    lines = []
    for rows in (1_000, 10_000, 100_000):
        for form in ("a Series", "a DatetimeIndex"):
            cells = []
            for local in (True, False):
                found = {}
                for name, order, *asks, _ in pairs_of(form, rows, local):
                    _, times = timed(asks, 5, calls=max(1, 50_000 // rows))
                    found[times[1] / times[0]] = name, order
                ratio = min(found)
                cells += [f"{ratio:.1f} ({', '.join(found[ratio])})", f"{sorted(found)[len(found) // 2]:.1f}"]
            lines.append(row(f"{rows:,}, {form}", *cells))
    yield "### Shorter columns: pandas' time divided by ours\n"
    yield "The least of six zones and five orders, and the median.\n"
    yield from table(["rows", "to local times, least", "median", "to instants, least", "median"], 4, lines)


def limits():
    """What a call on a column may take at best: the library's call on an array that is there, and a copy of the column's rows,
    made a Series or a DatetimeIndex as an answer is."""
    lines, least = [], []
    for rows in (1_000, 10_000, 100_000):
        for form in ("a Series", "a DatetimeIndex"):
            found = []
            for name, order, ours, theirs, column in pairs_of(form, rows, True):
                values = column.to_numpy("M8[ns]").view(np.int64)
                asks = [ours, theirs, library_call(Zone(name)._native, values), lambda: copied(values, column)]
                _, times = timed(asks, 5, calls=max(1, 50_000 // rows))
                cells = [f"{1e6 * each:.1f} us" for each in times]
                ratios = [times[1] / times[place] for place in (0, 2, 3)]
                lines.append(row(f"{rows:,}, {form}", name, order, *cells, *(f"{each:.1f}" for each in ratios)))
                found.append((*ratios, f"{name}, {order}"))
            cells = [f"{each[place]:.1f} ({each[3]})" for place in range(3) for each in [min(found, key=lambda each: each[place])]]
            least.append(row(f"{rows:,}, {form}", *cells))
    yield "### To local times: what limits the ratio\n"
    head = ["here", "pandas", "the library's call", "a copy", "pandas' time divided by ours", "by the library's", "by the copy's"]
    yield from table(["rows", "zone", "order", *head], 7, lines)
    yield from table(["rows", "the least divided by ours", "by the library's", "by the copy's"], 3, least)


def library_call(native, values):
    """The call for the local times of numbers of nanoseconds."""
    answers, rows = np.empty(values.size, np.int64), c_size_t(values.size)
    words = native._zone, c_int64(10**9), *(each for array in (values, answers) for each in (c_void_p(array.ctypes.data), rows))
    # The arrays are kept with it.
    return lambda values=values, answers=answers: BRIEF.zoned_column_locals(*words, byref(rows))


def copied(values, column):
    """A copy of numbers, made what an answer to a column is."""
    if isinstance(column, pd.Index):
        return index_of_times(values.copy(), "ns", None, column)
    return series_of_times(values.copy(), "ns", None, column)


def steps(rows):
    """Offsets, days and hours: pandas' time divided by ours, and ours for a row."""
    name, lines = ZONES[0], {}
    zone = Zone(name)
    for order, seconds in list(orders(rows))[:3]:
        instants = instants_of(seconds)
        local = zone.to_local(instants)
        shown = {"ambiguous": "NaT", "nonexistent": "NaT"}
        asks = {
            "`offsets`": (lambda: zone.offsets(instants), lambda: pandas_local(instants, name) - instants.dt.tz_localize(None)),
            "`floor` to days": (lambda: zone.floor(instants, "D"), lambda: instants.dt.tz_convert(name).dt.floor("D", **shown)),
            "`floor` to hours": (lambda: zone.floor(instants, "h"), lambda: instants.dt.tz_convert(name).dt.floor(HOUR, **shown)),
            "`start_of_day`": (lambda: zone.start_of_day(local), lambda: pandas_instants(local.dt.floor("D"), name)),
        }
        for call, pair in asks.items():
            _, times = timed(pair, 3)
            ours, theirs = (1e9 * each / rows for each in times)
            lines.setdefault(call, []).append(f"{theirs / ours:.1f} ({ours:.1f} ns of {theirs:.0f})")
    yield f"### Offsets, days and hours in {name}: pandas' time divided by ours\n"
    yield from table(["call on a Series", "in no order", "sorted", "one day"], 3, [row(call, *cells) for call, cells in lines.items()])


def arrow(rows):
    """Columns of microseconds, as Arrow has them, by pandas, by pyarrow and by this package."""
    import pyarrow
    import pyarrow.compute

    zone, lines = Zone(ZONES[0]), []
    for order, seconds in list(orders(rows))[:2]:
        column = pyarrow.array(seconds * 10**6, pyarrow.timestamp("us", "UTC"))
        there, series = column.cast(pyarrow.timestamp("us", zone.key)), column.to_pandas()
        asks = [
            lambda: zone.to_local(column),
            lambda: pandas_local(series, zone.key),
            lambda: pyarrow.compute.local_timestamp(there),
        ]
        _, times = timed(asks, 5)
        lines.append(row("to local times", order, *(f"{1e9 * each / rows:.1f} ns" for each in times)))
        local = zone.to_local(column)
        naive = local.to_pandas()
        choices = {"ambiguous": "earliest", "nonexistent": "earliest"}
        asks = [
            lambda: zone.localize(local, gap="shift", fold="earliest"),
            lambda: pandas_instants(naive, zone.key),
            lambda: pyarrow.compute.assume_timezone(local, zone.key, **choices),
        ]
        _, times = timed(asks, 3)
        lines.append(row("to instants", order, *(f"{1e9 * each / rows:.1f} ns" for each in times)))
    yield f"### Arrow: {zone.key}, microseconds\n"
    yield from table(["question", "order", "here", "pandas", "pyarrow"], 3, lines)


def values():
    """Calls about one value."""
    zone, name, there, utc = Zone(ZONES[0]), ZONES[0], ZoneInfo(ZONES[0]), timezone.utc

    def of(moment, to, into):
        """A call of each kind by `to` and `into`, which give a moment the zone and a clock its instant."""
        clock = moment.replace(tzinfo=None)
        midnight = clock.replace(hour=0, minute=0, second=0)

        def type_of():
            shown = to(moment)
            return shown.utcoffset(), shown.dst(), shown.tzname()

        return clock, {
            "to_local": lambda: to(moment).replace(tzinfo=None),
            "offsets": lambda: to(moment).utcoffset(),
            "types": type_of,
            "localize": lambda: into(clock),
            "start_of_day": lambda: into(midnight),
        }

    def ours(moment, clock):
        asked = {call: clock if call in ("localize", "start_of_day") else moment for call in CALLS}
        return {call: lambda call=getattr(zone, call), value=value: call(value) for call, value in asked.items()}

    far, near = datetime(2021, 7, 1, 12, 30, tzinfo=utc), datetime(2021, 11, 8, 12, 30, tzinfo=utc)
    pairs = []
    for moment in (far, near):
        clock, theirs = of(moment, lambda each: each.astimezone(there), lambda each: each.replace(tzinfo=there).astimezone(utc))
        pairs.append((ours(moment, clock), theirs))
    clock, theirs = of(pd.Timestamp(far), lambda each: each.tz_convert(name), lambda each: each.tz_localize(name).tz_convert("UTC"))
    theirs["to_local"] = lambda moment=pd.Timestamp(far): moment.tz_convert(name).tz_localize(None)
    pairs.append((ours(pd.Timestamp(far), clock), theirs))
    _, times = timed([ask[call] for call in CALLS for pair in pairs for ask in pair], 40, calls=500)
    lines = []
    for place, call in enumerate(CALLS):
        found = times[6 * place : 6 * place + 6]
        cells = [f"{other / own:.2g} ({1e6 * own:.1f} us of {1e6 * other:.1f})" for own, other in zip(found[::2], found[1::2])]
        lines.append(row(f"`{call}`", *cells))
    yield "### One value: zoneinfo's time, or pandas', divided by ours\n"
    yield "The moments are 2021-07-01 12:30 UTC, and 2021-11-08, the day after a clock change.\n"
    yield from table(["call", "a datetime", "a datetime near a change", "a Timestamp, by pandas"], 3, lines)


def calls():
    """Calls on one row."""
    zone, name = Zone(ZONES[0]), ZONES[0]
    instants, local = (pd.DatetimeIndex(["2021-07-01"], tz=tz) for tz in ("UTC", None))
    shown = {
        "a DatetimeIndex": pd.Index,
        "a Series": pd.Series,
        "an array": lambda each: each.to_numpy("M8[ns]"),
    }
    asks = []
    for form, made in shown.items():
        a, b = made(instants), made(local)
        asks.append((form, lambda a=a: zone.to_local(a), lambda b=b: zone.localize(b, "nat", "nat")))
        if form == "an array":
            continue
        a, b = (getattr(each, "dt", each) for each in (a, b))
        asks.append((
            f"{form}, by pandas",
            lambda a=a: a.tz_convert(name).tz_localize(None) if isinstance(a, pd.Index) else a.tz_convert(name).dt.tz_localize(None),
            lambda b=b: pandas_one(b, name),
        ))
    _, times = timed([ask for _, *both in asks for ask in both], 20, calls=500)
    lines = [
        row(form, *(f"{1e6 * each:.1f} us" for each in times[2 * place : 2 * place + 2]))
        for place, (form, *_) in enumerate(asks)
    ]
    yield "### Calls on one row\n"
    yield from table(["of", "to local times", "to instants"], 2, lines)


def pandas_one(local, name):
    found = local.tz_localize(name, ambiguous="NaT", nonexistent="NaT")
    return getattr(found, "dt", found).tz_convert("UTC")


def peak(ask, answer_bytes, rows):
    """The bytes that a call holds for each row at its peak, above its answer."""
    ask()
    tracemalloc.start()
    answer = ask()
    _, most = tracemalloc.get_traced_memory()
    tracemalloc.stop()
    del answer
    return (most - answer_bytes * rows) / rows


def memory(rows):
    zone = Zone(ZONES[0])
    seconds = DAY - 900 * np.arange(rows)[::-1]
    instants = instants_of(seconds)
    local = pd.Series((zone.to_local(seconds) * 10**9).view("M8[ns]"))
    asks = [
        ("to_local", lambda: zone.to_local(instants), 8, lambda: pandas_local(instants, zone.key)),
        ("localize", lambda: zone.localize(local, "nat", "nat"), 8, lambda: pandas_instants(local, zone.key)),
        ("localize with fold='infer'", lambda: zone.localize(local, "nat", "infer"), 8, None),
        ("explain", lambda: zone.explain(local), 1 + 4 * 8, None),
        ("types", lambda: zone.types(instants), 8 + 1 + 8, None),
        ("start_of_day", lambda: zone.start_of_day(local), 8, None),
        ("floor to hours", lambda: zone.floor(instants, "h"), 8, None),
    ]
    lines = []
    for name, ours, size, theirs in asks:
        of_pandas = "" if theirs is None else f"{peak(theirs, size, rows):.1f}"
        lines.append(row(f"`{name}`", f"{peak(ours, size, rows):.1f}", of_pandas))
    yield "### Bytes for each row, above question and answer\n"
    yield from table(["call on a Series", "here", "pandas"], 2, lines)


def by_zoneinfo(zone, instants):
    """The local times of instants, one after another."""
    moments = [datetime.fromtimestamp(each, timezone.utc) for each in instants.tolist()]
    return np.array([each.astimezone(zone).replace(tzinfo=None) for each in moments], "M8[s]").view(np.int64)


def kinds(rows):
    """pandas with the zones of three libraries, in the years 1900 to 2099."""
    lines = []
    seconds = years(1900, 2100, rows, 2)
    for name in ZONES:
        zone = Zone(name)
        assert (zone.to_local(seconds[:20_000]) == by_zoneinfo(ZoneInfo(name), seconds[:20_000])).all()
        for question in ("to local times", "to instants"):
            local = question == "to local times"
            column = instants_of(seconds) if local else local_times_of(zone, seconds)
            theirs = pandas_local if local else pandas_instants
            ours = zone.to_local if local else lambda each: zone.localize(each, "nat", "nat")
            zones = name, ZoneInfo(name), f"dateutil/{name}"
            asks = [lambda kind=kind: theirs(column, kind) for kind in zones]
            answers, times = timed([*asks, lambda: ours(column)], 2)
            shown = [f"{1e9 * each / rows:.1f} ns" for each in times]
            wrong = [f"{differing(each, answers[-1]).size:,}" for each in answers[:-1]]
            lines.append(row(question, name, *shown, *wrong))
    yield "### Answers of pandas that differ\n"
    yield "The years 1900 to 2099. pandas has the zones of three libraries.\n"
    names = ["pytz", "ZoneInfo", "dateutil"]
    differ = [f"{each} differs" for each in names]
    yield from table(["question", "zone", *names, "Sahvumbi", *differ], 7, lines)


def machine(rows):
    model = re.search(r"model name\s*: (.*)", Path("/proc/cpuinfo").read_text())[1]
    found = subprocess.run(["dpkg-query", "-W", *PACKAGES], capture_output=True, text=True).stdout
    load = Path("/proc/loadavg").read_text().split()[0]
    versions = [f"Python {platform.python_version()}"]
    versions += [f"{each.__name__} {each.__version__}" for each in (np, pd)]
    # dpkg may print the name alone of a package that isn't installed.
    versions += [line.replace("\t", " ") for line in found.splitlines() if not line.endswith("\t")]
    return (
        f"{datetime.now():%Y-%m-%d}, {model}, a load of {load} at the start. {rows:,} rows. "
        f"{', '.join(versions)}.\n"
    )


def main():
    parser = argparse.ArgumentParser(description=__doc__.split("\n")[0])
    parser.add_argument("--rows", type=int, default=2_000_000)
    parser.add_argument("--write", action="store_true", help="put the tables into RESULTS.md")
    parser.add_argument("--part", nargs="+", default=PARTS)
    given = parser.parse_args()
    if given.write and (os.getloadavg()[0] >= 1 or given.part != PARTS):
        parser.error(f"--write takes all parts and a load below 1, and not {os.getloadavg()[0]}")
    lines = [machine(given.rows)]
    print(lines[0])
    parts = {
        "ratios": lambda: ratios(given.rows),
        "sizes": sizes,
        "limits": limits,
        "steps": lambda: steps(given.rows),
        "values": values,
        "calls": calls,
        "memory": lambda: memory(given.rows),
        "kinds": lambda: kinds(min(given.rows, 200_000)),
        "arrow": lambda: arrow(given.rows),
    }
    for part in given.part:
        for line in parts[part]():
            lines.append(line)
            print(line, flush=True)
    if given.write:
        begin = BEGIN_LATER if IS_LATER else BEGIN
        head, rest = PAGE.read_text().split(begin)
        PAGE.write_text(head + begin + "\n" + "\n".join(lines) + END + rest.split(END, 1)[1])


main()
