#!/usr/bin/env python3
"""Times when plans fire next: `ZonePlans::next_fire` of crontab lines in a kept zone, and croniter's get_next with Python's zoneinfo.

usage: /usr/bin/python3 bench/time_fires.py     (it needs Debian's python3-croniter)

Both go from run to run of each line in New York from 2021 on. Of each run the least time in PASSES passes counts, so that what other
processes took doesn't show. The library runs as tests run: compiled with AddressSanitizer, so much slower than in a built program. How
much is seen by `with_timezone`, whose time in a built program docs/SPEED.md has (BUILT): the nanoseconds of a built program are
estimated by that ratio. It prints a row for each line: nanoseconds for a run, and how many of croniter's instants the plan has too
(tools/compare.py plans says why some differ).
"""

import re
import shutil
import sys
import tempfile
import time
from datetime import datetime
from pathlib import Path
from zoneinfo import ZoneInfo

sys.path.insert(0, str(Path(__file__).resolve().parent.parent / "tools"))
from comparing.plans import numbers_of_line
from kit import tried
from sources import DATABASE, TOP, needs

ZONE, START = "America/New_York", 1_609_477_200
LINES = ["*/15 * * * *", "0 9 * * 1-5", "0 9 1 * *", "59 23 31 12 *"]
RUNS, PASSES = 200, 12
# Nanoseconds of `with_timezone` in a built program.
BUILT = 7.7
SIZES = {"minutes": 60, "hours": 24, "days": 32, "months": 13, "weekdays": 7}
PROGRAM = """//! Times plans.

use naive_plans::Cron;
use std::fs;
use std::test::Fail;
use std::time::Instant;
use zoned_plans::ZonePlans;
use zoned_ref::KeptZone;
use zoned_time::{DateTime, Utc};

fn plan(line: usize) -> Cron {
    let mut cron = Cron {
        minutes: [false; 60],
        hours: [false; 24],
        days: [false; 32],
        months: [false; 13],
        weekdays: [false; 7],
        either: false,
    };
LISTED    cron
}

fn start() -> DateTime<Utc> {
    match DateTime::<Utc>::from_timestamp(START, 0) {
        Some(start) => start,
        None => unreachable!(),
    }
}

// The fires of a plan, one after the other, and the nanoseconds for each if they are less than before.
fn fires(rt: &HostRuntime, zone: &KeptZone, cron: &Cron, least: &mut [u128]) -> Result<Vec<i64>, Fail> {
    let mut found = Vec::with_capacity(rt.alloc(), RUNS)?;
    let mut at = start();
    for place in 0..RUNS {
        let begun = Instant::now(rt)?;
        let next = zone.next_fire(cron, &at);
        let took = begun.elapsed(rt)?.as_nanos();
        least[place] = least[place].min(took);
        if let Some(next) = next {
            found.push(next.timestamp())?;
            at = next.to_utc();
        }
    }
    Ok(found)
}

// The least nanoseconds for a hundred times `with_timezone`, and a sum, so that no compiler leaves them out.
fn yardstick(rt: &HostRuntime, zone: &KeptZone) -> Result<(u128, i64), Fail> {
    let at = start();
    let (mut least, mut sum) = (u128::MAX, 0i64);
    for _ in 0..RUNS {
        let begun = Instant::now(rt)?;
        for _ in 0..100 {
            sum = sum.wrapping_add(at.with_timezone(zone).timestamp());
        }
        least = least.min(begun.elapsed(rt)?.as_nanos());
    }
    Ok((least, sum))
}

#[test]
fn run(rt: HostRuntime) -> Result<(), Fail> {
    let bytes = fs::read(&rt, "ZONE")?;
    let zone = KeptZone::keep(rt.alloc(), tz_info::TimeZone::from_tz_data(rt.alloc(), &bytes)?)?;
    let (hundred, sum) = yardstick(&rt, &zone)?;
    let mut out = format!(in rt.alloc(); "{sum} | {hundred}\\n")?;
    for line in 0..COUNT {
        let cron = plan(line);
        let mut least = [u128::MAX; RUNS];
        let mut found = fires(&rt, &zone, &cron, &mut least)?;
        for _ in 1..PASSES {
            found = fires(&rt, &zone, &cron, &mut least)?;
        }
        for at in &found {
            let text = format!(in rt.alloc(); "{at} ")?;
            out.push_str(text.as_str())?;
        }
        let text = format!(in rt.alloc(); "| {}\\n", least.iter().sum::<u128>())?;
        out.push_str(text.as_str())?;
    }
    fs::write(&rt, "OUT", out.as_str().as_bytes())?;
    Ok(())
}
"""


def listed():
    """The statements that set the fields of each line's plan."""
    made = []
    for number, line in enumerate(LINES):
        (either, *numbers), text = numbers_of_line(line), ""
        for field in SIZES:
            count, *numbers = numbers
            text += "".join(f"        cron.{field}[{at}] = true;\n" for at in numbers[:count])
            numbers = numbers[count:]
        made.append(f"    if line == {number} {{\n        cron.either = {'true' if either else 'false'};\n{text}    }}\n")
    return "".join(made)


def ours():
    """The nanoseconds of the yardstick, and for each line its fires and the nanoseconds for all of them."""
    with tempfile.TemporaryDirectory() as room:
        folder = Path(room)
        shutil.copytree(TOP / "crates", folder / "crates", ignore=shutil.ignore_patterns("out", "tests"))
        src = folder / "crates/tests/src"
        src.mkdir(parents=True)
        (src / "lib.rt").write_text("#![tactic(auto)]\n#[cfg(test)]\nmod fires;\n")
        words = {"LISTED": listed(), "ZONE": DATABASE / ZONE, "OUT": folder / "out"}
        words |= {"COUNT": len(LINES), "PASSES": PASSES, "RUNS": RUNS, "START": START}
        (src / "fires.rt").write_text(re.sub("|".join(words), lambda word: str(words[word[0]]), PROGRAM))
        status, said = tried(src.parent, ["naive_base", "naive_plans", "tz_info", "zoned_plans", "zoned_ref", "zoned_time"], "1200")
        if status != 0:
            sys.exit(said)
        rows = [line.split("|") for line in (folder / "out").read_text().splitlines()]
    return [([int(at) for at in fires.split()], int(least)) for fires, least in rows]


def theirs(line):
    from croniter import croniter

    start, passes = datetime.fromtimestamp(START, ZoneInfo(ZONE)), []
    for _ in range(PASSES):
        runs, found, took = croniter(line, start), [], []
        for _ in range(RUNS):
            begun = time.perf_counter_ns()
            found.append(runs.get_next(datetime))
            took.append(time.perf_counter_ns() - begun)
        passes.append(took)
    return [int(at.timestamp()) for at in found], sum(map(min, zip(*passes)))


def main():
    needs("rt", DATABASE / ZONE)
    (_, hundred), *rows = ours()
    slower = hundred / 100 / BUILT
    print(f"with_timezone: {hundred / 100:,.0f} ns as tests run, {slower:,.0f} times as long as in a built program")
    for line, (fires, took) in zip(LINES, rows, strict=True):
        found, there = theirs(line)
        built = took / RUNS / slower
        times = f"next_fire {took / RUNS:,.0f} ns, about {built:,.0f} ns in a built program; croniter {there / RUNS:,.0f} ns"
        print(f"{line:15} {times}; {len({*fires} & {*found})} of {RUNS} the same", flush=True)


if __name__ == "__main__":
    main()
