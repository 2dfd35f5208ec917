#!/usr/bin/env python3
"""Prints the figures and the answers of a run as tables, to be kept in bench/results/.

usage: bench/print_tables.py INPUTS OUTPUTS

OUTPUTS/figures has the lines of every driver, also of several runs: of each figure the least counts. The answers of each peer
are compared with those of this library, number by number. Those of the growing zones are in the folder growth of both, and
those of instants at work in OUTPUTS/work (drivers/work.h says how they are spelled).
"""

import os
import re
import subprocess
import sys
from array import array
from datetime import datetime, timedelta, timezone
from functools import lru_cache
from pathlib import Path

OURS = "sahvumbi"
PEERS = {
    OURS: "Sahvumbi",
    "cctz": "cctz",
    "hinnant": "date",
    "standard": "libc++",
    "java": "java.time",
    "go": "Go",
    "glibc": "glibc",
    "cpython": "CPython",
    "pandas": "pandas",
    "chrono": "chrono",
    "chrono_tz": "chrono-tz",
}
# The packages of Debian whose versions the heads of the tables have.
PACKAGES = {
    "cctz": "libabsl-dev",
    "hinnant": "libhowardhinnant-date-dev",
    "standard": "libc++-22-dev",
    "java": "openjdk-17-jdk-headless",
    "go": "golang-go",
    "glibc": "libc6",
    "pandas": "python3-pandas",
    "chrono": "librust-chrono-dev",
    "chrono_tz": "librust-chrono-tz-dev",
}
TABLES = {
    ("at", "wide"): "An instant, 1900 to 2099",
    ("at", "near"): "An instant, 2020 to 2029",
    ("wall", "wide"): "A wall clock, 1900 to 2099",
    ("wall", "near"): "A wall clock, 2020 to 2029",
    ("read", "-"): "Reading a zone",
    ("next", "near"): "The next clock change, 2020 to 2029",
    ("span", "near"): "A span, 2020 to 2029",
    ("gap", "near"): "The instant of a local time in a gap, 2020 to 2029",
}
GROWTH = {
    "at": "An instant, by the number of transitions",
    "wall": "A wall clock, by the number of transitions",
}
WORK = {
    "fields_at": "from a Unix time: date and time of day",
    "fields": "from an instant: date and time of day",
    "from_fields": "from date and time of day: an instant",
    "month_later": "a month later",
    "day_later": "a day later",
    "at_nine": "`with_hour(9)`",
    "five_minutes": "cut to five minutes",
    "whole_day": "cut to a day",
    "difference": "seconds between two",
    "order": "which of two is earlier",
    "sort": "sort a million, for each",
    "print": "print",
    "elsewhere": "`with_timezone`",
    "resolve": "`resolve`",
    "in_gap": "`resolve`, in gaps",
    "daily": "a daily series, for each day",
}
# The same of dates and local date-times, without a time zone.
DATES = {
    "date_fields": "year, month and day of a date",
    "date_weekday": "day of the week",
    "date_ordinal": "day of the year",
    "date_iso_week": "ISO week",
    "date_month_later": "a month later",
    "date_in_june": "`with_month(6)`",
    "date_of_month": "from year, month and day",
    "date_of_year": "from year and day of the year",
    "date_of_week": "from ISO week and day of the week",
    "local_fields": "date and time of day of a `NaiveDateTime`",
    "local_month_later": "a month later, of a `NaiveDateTime`",
}
LINES = {
    "lines": {"zoneq": "`zoneq`", "mawk": "`mawk '{print NF}'`, which only counts words"},
    "lines_at": {"zoneq": "`zoneq`", "mawk": "`mawk` by `strftime`", "GNU date": "GNU `date -f`"},
    "dumps": {"zonedump": "`zonedump --zdump`", "zdump": "`zdump -v`"},
}
LINE_KINDS = {
    "lines": "a `wall` line answered",
    "lines_at": "an instant printed (`show`)",
    "dumps": "a zone's clock changes of 1900 to 2037, of each zone of the tz database",
}
ASKED = {"at": "an instant", "wall": "a wall clock", "next": "the next change", "span": "a span", "gap": "a gap"}
# How many instants an answer has.
SIZES = {"daily": 28}
GOAL = 0.5
# The answer of this library if a wall clock shows no time, or several, or a month has no such day.
NO_INSTANT = str(-(1 << 63))
# The peers whose answers are of another kind than the question's: mktime and time.Date answer one instant, whatever the wall clock
# shows.
NO_ANSWER = {("glibc", "wall"), ("go", "wall")}
# How many numbers the answer to a question is, if not one.
NUMBERS = {"wall": 3, "span": 2}
# A peer's loop over a column that keeps the span of a row.
KEPT = "+kept"
# What a driver prints in place of a time if the peer rejects the zone.
REFUSED = -1
SHOWN = ["never", "once", "several times"]
EPOCH = datetime(1970, 1, 1, tzinfo=timezone.utc)


def read_figures(path):
    """The least time of each peer, zone, question and years; and the zones in their order."""
    figures, zones = {}, []
    for line in path.read_text().splitlines():
        peer, zone, question, years, took, _ = line.split("\t")
        key = (question, years, zone, peer)
        figures[key] = min(float(took), figures.get(key, float("inf")))
        if zone not in zones:
            zones.append(zone)
    return figures, zones


class Answers:
    def __init__(self, inputs, outputs):
        self.inputs, self.outputs = inputs, outputs

    def numbers(self, peer, zone, question, years):
        return array("i", (self.outputs / f"{peer}.{zone}.{question}.{years}").read_bytes())

    def difference(self, peer, zone, question, years):
        """How many answers differ from this library's, of how many, in which years, and one of them; None where none does."""
        theirs = self.numbers(peer, zone, question, years)
        ours = self.numbers(OURS, zone, question, years)
        size = NUMBERS.get(question, 1)
        count = len(theirs) // size
        places = [i for i in range(count) if theirs[size * i : size * (i + 1)] != ours[size * i : size * (i + 1)]]
        if not places:
            return None
        drawn = {"next": "at", "span": "at"}.get(question, question)
        asked = array("q", (self.inputs / f"{drawn}_{years}.i64").read_bytes())
        when = [EPOCH + timedelta(seconds=asked[i]) for i in places]
        i = places[0]
        told = [self.words(question, numbers[size * i : size * (i + 1)]) for numbers in (theirs, ours)]
        return len(places), count, (min(when).year, max(when).year), when[0], *told

    @staticmethod
    def words(question, numbers):
        if question == "span":
            return f"{numbers[0]} to {numbers[1]}"
        if question != "wall":
            return str(numbers[0])
        shown, first, last = numbers
        return SHOWN[0] if shown == 0 else f"{SHOWN[min(shown, 2)]}, {first}" + (f" and {last}" if shown > 1 else "")


def spelled(nanoseconds):
    if nanoseconds == REFUSED:
        return "rejected"
    if nanoseconds < 1e4:
        return f"{nanoseconds:.1f} ns"
    return f"{nanoseconds / 1e3:.1f} µs" if nanoseconds < 1e6 else f"{nanoseconds / 1e6:.1f} ms"


def cell(figures, wrong, key):
    if key not in figures:
        return "-"
    question, _, _, peer = key
    mark = " ¹" if (peer, question) in NO_ANSWER else " ≠" if key in wrong else ""
    return spelled(figures[key]) + mark


def best_peer(figures, wrong, question, years, zone):
    """The least time of a peer whose answers are ours, and the peer; None if there isn't one."""
    times = [
        (figures[key], peer)
        for peer in PEERS
        if peer != OURS
        and (key := (question, years, zone, peer)) in figures
        and figures[key] > 0
        and key not in wrong
        and (peer, question) not in NO_ANSWER
    ]
    return min(times) if times else None


def ratio(figures, wrong, question, years, zone):
    """Our time divided by that of the best peer, and its name."""
    ours = figures.get((question, years, zone, OURS))
    best = best_peer(figures, wrong, question, years, zone)
    return (ours / best[0], PEERS[best[1]]) if ours and best else None


def behind(figures, wrong, zones):
    """The rows in which we take more than the goal of the best peer's time; with more than all of it, in bold."""
    for (question, years), title in TABLES.items():
        found = [(zone, ratio(figures, wrong, question, years, zone)) for zone in zones]
        rows = [f"{zone} {above(by)}" for zone, by in found if by and by[0] > GOAL]
        if rows:
            yield f"- {title}: {', '.join(rows)}"


def above(by):
    number = f"{by[0]:.2f} ({by[1]})"
    return f"**{number}**" if by[0] > 1 else number


def differences(figures, answers):
    """Of each figure whose answers differ from this library's, what Answers.difference returns."""
    wrong = {}
    for question, years, zone, peer in figures:
        if question in ("read", *LINES) or peer == OURS or (peer, question) in NO_ANSWER:
            continue
        found = answers.difference(peer, zone, question, years)
        if found:
            wrong[question, years, zone, peer] = found
    return wrong


def print_growth(inputs, outputs):
    """A table for each question: a row for each zone, which is named for the number of its transitions."""
    if not (outputs / "figures").exists():
        return
    figures, zones = read_figures(outputs / "figures")
    wrong = differences(figures, Answers(inputs, outputs))
    peers = [peer for peer in PEERS if any(key[3] == peer for key in figures)]
    for question, title in GROWTH.items():
        print(f"\n### {title}\n")
        print(f"| transitions | {heads(peers)} |")
        print("|--:|" + "--:|" * len(peers))
        for zone in sorted(zones, key=int):
            cells = [cell(figures, wrong, (question, "wide", zone, peer)) for peer in peers]
            print(f"| {int(zone):,} | " + " | ".join(cells) + " |")


def answers_at_work(outputs, peer):
    """The answers of a peer to each question, as texts; those to `print` are what it printed."""
    told = {}
    for path in outputs.glob(f"{peer}.answers*"):
        with path.open() as lines:
            for line in lines:
                question, _, answer = line.rstrip("\n").partition("\t")
                told.setdefault(question, []).append(answer)
    if "text" in told:
        told["print"] = told.pop("text")
    return told


def differences_at_work(outputs, peers):
    """Of each question and peer how many answers differ, of how many, and one of them; and of how many we say that there is none."""
    ours, wrong = answers_at_work(outputs, OURS), {}
    for peer in peers:
        for question, theirs in answers_at_work(outputs, peer).items():
            if question not in ours:
                continue
            pairs = [(one, other) for one, other in zip(theirs, ours[question]) if other != NO_INSTANT]
            unlike = [pair for pair in pairs if pair[0] != pair[1]]
            if unlike or len(theirs) != len(ours[question]):
                wrong[question, "near", "New_York", peer] = len(unlike), len(theirs), *unlike[0]
    none = {question: told.count(NO_INSTANT) for question, told in ours.items() if NO_INSTANT in told}
    return wrong, none


def print_work(outputs):
    """A row for each thing that is done to instants of New York, and one for each that is done to dates."""
    if not (outputs / "figures").exists():
        return
    read, _ = read_figures(outputs / "figures")
    figures = {key: took / SIZES.get(key[0], 1) for key, took in read.items()}
    peers = {key[3] for key in figures} - {OURS}
    wrong, none = differences_at_work(outputs, [peer for peer in PEERS if peer in peers])
    print_questions("Instants at work", WORK, figures, wrong)
    for question, count in none.items():
        print(f"- {title_of(question)}: of {count:,} of 100,000 this library says that there is no answer, or that there are two.")
    for (question, _, _, peer), (differ, count, theirs, ours) in wrong.items():
        print(f"- {title_of(question)}: {PEERS[peer]} answers {differ:,} of {count:,} otherwise: {theirs} for {ours}.")
    print_questions("Dates without a time zone", DATES, figures, wrong)


def title_of(question):
    return WORK.get(question) or f"dates: {DATES[question]}"


def print_questions(title, questions, figures, wrong):
    peers = [peer for peer in PEERS if any(key[0] in questions and key[3] == peer for key in figures)]
    if OURS not in peers:
        return
    print(f"\n### {title}\n")
    print(f"| question | {heads(peers)} | ratio |")
    print("|---|" + "--:|" * (len(peers) + 1))
    rows = []
    for question, words in questions.items():
        cells = [cell(figures, wrong, (question, "near", "New_York", peer)) for peer in peers]
        by = ratio(figures, wrong, question, "near", "New_York")
        cells.append(f"{by[0]:.2f} ({by[1]})" if by else "-")
        print(f"| {words} | " + " | ".join(cells) + " |")
        if by and by[0] > GOAL:
            rows.append(f"{words} {above(by)}")
    print(f"\nMore than half of the best peer's time: {', '.join(rows) or 'nowhere'}.\n")


def print_columns(path):
    """A row for each column: the time of a row, by one call of this library, and by the faster loop over each of the others, which
    is the one that counts; then the times of each loop."""
    if not path.exists():
        return
    figures, wrong = {}, set()
    for line in path.read_text().splitlines():
        way, zone, rows, took, _, differ = line.split("\t")
        key = ("column", rows, zone, way)
        figures[key] = min(float(took), figures.get(key, float("inf")))
        if differ != "0":
            wrong.add(key)
    peers = [peer for peer in PEERS if any(key[3] == peer for key in figures)]
    columns = list(dict.fromkeys(key[1:3] for key in figures))
    slowest_first = sorted(figures, key=figures.get, reverse=True)
    best = {(*key[:3], key[3].removesuffix(KEPT)): key for key in slowest_first if key[3] != OURS + KEPT}
    print("\n### Columns of instants\n")
    print(f"| zone | rows | {heads(peers)} | ratio |")
    print("| --- | --- |" + " --: |" * (len(peers) + 1))
    for rows, zone in columns:
        found = {peer: best[key] for peer in peers if (key := ("column", rows, zone, peer)) in best}
        cells = [cell(figures, wrong, found[peer]) + " ²" * found[peer][3].endswith(KEPT) if peer in found else "-" for peer in peers]
        times = {("column", rows, zone, peer): figures[key] for peer, key in found.items()}
        by = ratio(times, {(*key[:3], peer) for peer, key in found.items() if key in wrong}, "column", rows, zone)
        cells.append(f"{by[0]:.2f} ({by[1]})" if by else "-")
        print(f"| {zone} | {rows} | " + " | ".join(cells) + " |")
    ways = [peer for peer in peers if any(key[3] == peer + KEPT for key in figures)]
    print("\n### Columns of instants, by each loop\n")
    print("| zone | rows | " + " | ".join(f"{heads([peer])} | its span kept" for peer in ways) + " |")
    print("| --- | --- |" + " --: |" * 2 * len(ways))
    for rows, zone in columns:
        cells = [cell(figures, wrong, ("column", rows, zone, peer + way)) for peer in ways for way in ("", KEPT)]
        print(f"| {zone} | {rows} | " + " | ".join(cells) + " |")


def command(*words):
    try:
        said = subprocess.run(words, capture_output=True, text=True)
    except OSError:
        return ""
    return (said.stdout or said.stderr).strip()


def machine():
    lines = dict(line.split(":", 1) for line in command("lscpu").splitlines() if ":" in line)
    name = lines.get("Model name", "an unknown processor").strip()
    return f"{name}, {os.cpu_count()} processors, {lines.get('Architecture', '').strip()}"


@lru_cache(maxsize=None)
def packages():
    """The version of each package."""
    named = [*PACKAGES.values(), "tzdata", "g++", "cargo"]
    said = command("dpkg-query", "-W", "-f", "${Package} ${Version}\n", *named).splitlines()
    return dict(line.split(" ", 1) for line in said if re.match(r"[\w.+-]+ \S+$", line))


def heads(peers):
    """The peers' names, each with its version."""

    def head(peer):
        version = packages().get(PACKAGES.get(peer), "")
        if peer == "cpython":
            version = sys.version.split()[0]
        elif peer == "go":
            version = command("go", "env", "GOVERSION").removeprefix("go")
        return f"{PEERS[peer]} {re.split(r'[-+~]', version.split(':')[-1])[0]}".strip()

    return " | ".join(map(head, peers))


def load(outputs):
    """How much else ran, by the mean of the minute before."""
    return f"Load before: {(outputs / 'load').read_text().strip()}"


def versions():
    found = [f"{package} {version}" for package, version in packages().items()]
    return ", ".join([*found, "CPython " + sys.version.split()[0]])


def print_lines(figures):
    """What the two programs take, compared with others."""
    found = {(question, program): took for (question, _, _, program), took in figures.items() if question in LINES}
    if not found:
        return
    print("\n### The programs\n")
    print("| work | program | processor's time for each | ours divided by it |")
    print("|---|---|--:|--:|")
    for question, programs in LINES.items():
        ours = found.get((question, next(iter(programs))))
        for program, words in programs.items():
            if took := found.get((question, program)):
                print(f"| {LINE_KINDS[question]} | {words} | {spelled(took)} | {ours / took:.2g} |")


def main():
    inputs, outputs = Path(sys.argv[1]), Path(sys.argv[2])
    figures, zones = read_figures(outputs / "figures")
    wrong = differences(figures, Answers(inputs, outputs))
    print(f"{datetime.now(timezone.utc):%Y-%m-%d}, {machine()}. {command('uname', '-sr')}. {load(outputs)}. {versions()}.")
    for (question, years), title in TABLES.items():
        print(f"\n### {title}\n")
        peers = [peer for peer in PEERS if any(key[::3] == (question, peer) for key in figures)]
        print(f"| zone | {heads(peers)} | ratio |")
        print("|---|" + "--:|" * (len(peers) + 1))
        for zone in zones:
            if not any((question, years, zone, peer) in figures for peer in peers):
                continue
            cells = [cell(figures, wrong, (question, years, zone, peer)) for peer in peers]
            by = ratio(figures, wrong, question, years, zone)
            cells.append(f"{by[0]:.2f} ({by[1]})" if by else "-")
            print(f"| {zone} | " + " | ".join(cells) + " |")
    print("\n### Where Sahvumbi takes more than half of the best peer's time\n")
    print("In bold: where it takes more than all of it.\n")
    print("\n".join(behind(figures, wrong, zones)) or "Nowhere in these tables.")
    print_work(outputs / "work")
    print_growth(inputs / "growth", outputs / "growth")
    print_lines(figures)
    print_columns(outputs / "columns" / "figures")
    print("\n### Answers that differ\n")
    print("| peer | zone | question | differ | in the years | one of them | the peer | Sahvumbi |")
    print("|---|---|---|--:|---|---|---|---|")
    for (question, years, zone, peer), (differ, count, when_years, when, theirs, ours) in wrong.items():
        first, end = ("1900", "2099") if years == "wide" else ("2020", "2029")
        asked = f"{ASKED[question]}, {first} to {end}"
        shown = f"{when:%Y-%m-%d %H:%M:%S}" + ("" if question in ("wall", "gap") else " UTC")
        told = f"{when_years[0]} to {when_years[1]} | {shown} | {theirs} | {ours}"
        print(f"| {PEERS[peer]} | {zone} | {asked} | {differ:,} of {count:,} | {told} |")


main()
