#!/usr/bin/env python3
"""Runs crates/bench_instants over New York and London: what programs do with instants, by this library.

usage: bench/time_work.py INPUTS OUTPUTS

It prints a line for each question and writes the answers, as drivers/work.h says. `rt run` in crates/bench_instants builds the
program, which reads the clock by itself: PROCESSOR_CLOCK is drivers/processor_clock.c, built, by which that is the processor's
time.
"""

import os
import subprocess
import sys
from pathlib import Path

PROGRAM = Path(__file__).resolve().parent.parent / "crates/bench_instants/out/bench_instants"
ANSWERS = "100000"


def main():
    inputs, outputs = Path(sys.argv[1]), Path(sys.argv[2])
    zones = [inputs / "zones/New_York", inputs / "zones/London"]
    clock = os.environ | {"LD_PRELOAD": os.environ["PROCESSOR_CLOCK"]}
    times = subprocess.run([PROGRAM, "times", *zones], capture_output=True, text=True, check=True, env=clock).stdout
    for line in times.splitlines():
        question, nanoseconds, count, _ = line.split("\t")
        each = int(nanoseconds) / int(count)
        print("sahvumbi", "New_York", question, "near", f"{each:.2f}", count, sep="\t", flush=True)
    with (outputs / "sahvumbi.answers").open("w") as answers:
        subprocess.run([PROGRAM, "answers", *zones, ANSWERS], stdout=answers, check=True)


main()
