#!/usr/bin/env python3
"""Times instants of a kept zone and of a borrowed one: `bench_instants` over New York's file.

usage: bench/time_instants.py [ZONE_FILE]

It prints a table with a row for each question: the processor's time for a question, the least of five runs, less that of a run
without a question. `rt run` in crates/bench_instants builds the program.
"""

import resource
import subprocess
import sys
from pathlib import Path

PROGRAM = Path(__file__).resolve().parent.parent / "crates/bench_instants/out/bench_instants"
FILE = "/usr/share/zoneinfo/America/New_York"
QUESTIONS = 5_000_000
RUNS = 5


def processor_time(words):
    """The least time of some runs, and what the program printed."""
    least, printed = float("inf"), None
    for _ in range(RUNS):
        before = resource.getrusage(resource.RUSAGE_CHILDREN)
        printed = subprocess.run([PROGRAM, *words], capture_output=True, check=True).stdout
        after = resource.getrusage(resource.RUSAGE_CHILDREN)
        least = min(least, after.ru_utime - before.ru_utime + after.ru_stime - before.ru_stime)
    return least, printed


def main():
    path = sys.argv[1] if len(sys.argv) > 1 else FILE
    print("\n### Instants of a kept zone, compared with a borrowed one\n\n| question | borrowed | kept |\n|---|--:|--:|")
    questions = (
        ("instant", "an instant, and its offset"),
        ("wall", "a wall clock, and its instants"),
        ("gap", "a local time in a gap, shifted"),
    )
    for question, name in questions:
        times, sums = [], set()
        for zone in ("borrowed", "kept"):
            idle, _ = processor_time([zone, path, question, "0"])
            busy, printed = processor_time([zone, path, question, str(QUESTIONS)])
            times.append((busy - idle) * 1e9 / QUESTIONS)
            sums.add(printed)
        if len(sums) != 1:
            sys.exit(f"the answers differ: {sums}")
        print(f"| {name} | {times[0]:.1f} ns | {times[1]:.1f} ns |")


main()
