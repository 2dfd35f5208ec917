#!/usr/bin/env python3
"""Counts what a question costs: instructions and misses of a simulated cache, by the number of a zone's transitions; and the
instructions of a question by one call and in an array, for each zone.

usage: bench/count_misses.py ASK INPUTS     ASK is drivers/ask.cc, built; INPUTS the folder of make_inputs.py

Valgrind's cachegrind counts, with a first-level data cache of 32 KiB and a last-level one of 8 MiB. A run with few questions is
taken off. The counts are of a simulation, and no times; they are the same on a busy machine.
"""

import re
import subprocess
import sys
from pathlib import Path

QUESTIONS = {"at": "an instant", "wall": "a wall clock"}
YEARS = {"wide": "1900 to 2099", "near": "2020 to 2029"}
# The first of them fill the caches, and are taken off.
FEW, MANY = 20_000, 120_000
# Where instructions alone are counted.
SOME, MORE = 1_000, 21_000
CACHES = ["--cache-sim=yes", "--I1=32768,8,64", "--D1=32768,8,64", "--LL=8388608,16,64"]
COUNTS = {"I +refs": "instructions", "D1 +misses": "first-level misses", "LLd +misses": "last-level misses"}


def counted(command, flags, names):
    """What cachegrind counts in a run."""
    valgrind = ["valgrind", "--tool=cachegrind", "--cachegrind-out-file=/dev/null", *flags]
    said = subprocess.run([*valgrind, *command], capture_output=True, text=True, check=True).stderr
    return [int(re.search(rf"{name}:\s+([\d,]+)", said).group(1).replace(",", "")) for name in names]


def of_a_question(command, few, many, flags, names):
    """The same of one question."""
    runs = [counted([*command, str(count)], flags, names) for count in (few, many)]
    return [(after - before) / (many - few) for before, after in zip(*runs)]


def print_misses(ask, inputs):
    for question, words in QUESTIONS.items():
        print(f"\n### Cache misses of {words}, by the number of transitions\n")
        print("| transitions | " + " | ".join(COUNTS.values()) + " |")
        print("|--:|" + "--:|" * len(COUNTS))
        for zone in (inputs / "names").read_text().split():
            command = [ask, inputs / "zones" / zone, inputs / f"{question}_wide.i64", question]
            each = of_a_question(command, FEW, MANY, CACHES, COUNTS)
            print(f"| {int(zone):,} | {each[0]:.0f} | {each[1]:.2f} | {each[2]:.2f} |", flush=True)


def print_calls(ask, inputs):
    print("\n### Instructions of a question, by one call each and in an array\n")
    print("| zone | years | an instant by one call | in an array | ratio | a wall clock by one call | in an array | ratio |")
    print("|---|---|" + "--:|" * 6)
    for zone in (inputs / "names").read_text().split():
        for years, words in YEARS.items():
            cells = []
            for question in QUESTIONS:
                start = [ask, inputs / "zones" / zone, inputs / f"{question}_{years}.i64"]
                ways = ([*start, f"{question}_{way}"] for way in ("each", "array"))
                one, array = (of_a_question(way, SOME, MORE, ["--cache-sim=no"], ["I +refs"])[0] for way in ways)
                cells += [f"{one:.0f}", f"{array:.0f}", f"{one / array:.2f}"]
            print(f"| {zone} | {words} | " + " | ".join(cells) + " |", flush=True)


def main():
    ask, inputs = Path(sys.argv[1]), Path(sys.argv[2])
    print_calls(ask, inputs)
    print_misses(ask, inputs / "growth")


main()
