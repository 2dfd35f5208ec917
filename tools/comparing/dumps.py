"""Compares what zonedump prints of each file of a tz database with zdump: `--zdump` byte for byte, and the table's lines with the
changes that zdump prints. Prints the counts, and the first lines that differ.
"""

import subprocess
import time
from collections import Counter
from pathlib import Path

from comparing.database import FOLDER, changes_by_zdump, tzif_files, zdump
from sources import TOP, needs

YEARS = (1900, 2038)


def offset_words(offset):
    sign, rest = "-" if offset < 0 else "+", abs(offset)
    words = f"{sign}{rest // 3600:02}:{rest // 60 % 60:02}"
    return words + (f":{rest % 60:02}" if rest % 60 else "")


def printed(second):
    return "{:04}-{:02}-{:02} {:02}:{:02}:{:02}".format(*time.gmtime(second)[:6])


def side_words(at, side):
    return f"{printed(at + side.offset)} {offset_words(side.offset)} {'dst' if side.is_dst else 'std'} {side.name}"


def table_line(change):
    step = change.after.offset - change.before.offset
    words = f"gap of {step} s" if step > 0 else f"fold of {-step} s" if step else "no step"
    before, after = side_words(change.at, change.before), side_words(change.at, change.after)
    return f"{printed(change.at)} UTC  {before} -> {after}  {words} at {change.at}"


def without_leap_seconds(text):
    """zdump's lines without the pairs of leap seconds, which zonedump doesn't print."""
    lines = text.splitlines(keepends=True)
    leaps = [place for place, line in enumerate(lines) if ":60 " in line]
    return "".join(line for place, line in enumerate(lines) if place not in leaps and place - 1 not in leaps)


def output(*command):
    return subprocess.run(command, capture_output=True, text=True, check=True).stdout


def main(program=TOP / "crates/zonedump/out/zonedump", folder=FOLDER):
    needs("zdump", Path(program))
    counts = Counter()
    for path, _ in tzif_files(folder):
        table, lines, due = output(program, path), output(program, "--zdump", path), zdump(path, YEARS)
        leaps = "leap second:" in table
        pairs = {
            "table": ([line for line in table.splitlines() if " UTC  " in line], list(map(table_line, changes_by_zdump(path, YEARS)))),
            "--zdump": (lines.splitlines(), (without_leap_seconds(due) if leaps else due).splitlines()),
        }
        for what, (given, wanted) in pairs.items():
            counts[f"{what}, {'' if leaps else 'no '}leap seconds", given == wanted] += 1
            if given != wanted:
                print(f"{what}:", path, *sorted(set(given) ^ set(wanted))[:2], sep="\n    ")
    for (what, same), count in sorted(counts.items()):
        print(f"{what}: {count} {'the same' if same else 'differ'}")
    return 0 if counts and all(same for _, same in counts) else 1
