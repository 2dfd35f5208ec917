#!/usr/bin/env python3
"""Puts the tables of a run into docs/SPEED.md and README.md, and draws docs/speed.svg.

usage: bench/write_speed.py [RESULTS]     RESULTS is a file of bench/results/, else the latest one

Between `<!-- NAME -->` and `<!-- end -->` of both documents is what is written: `parts` says what. The rows of a table with ratios
begin with the greatest. tools/check_documents.py checks that it is that of the latest file.
"""

import re
import subprocess
import sys
from pathlib import Path

from draw import ONE_CALL, measured, tables

TOP = Path(__file__).resolve().parent.parent
README, SPEED, PICTURE = TOP / "README.md", TOP / "docs/SPEED.md", TOP / "docs/speed.svg"
AT, WALL = "An instant, 1900 to 2099", "A wall clock, 1900 to 2099"
LOOKUPS = {"by instant": [AT, "An instant, 2020 to 2029"], "by local time": [WALL, "A wall clock, 2020 to 2029"]}
CHANGES = {
    "the next clock change": "The next clock change, 2020 to 2029",
    "the span of an instant": "A span, 2020 to 2029",
    "the instant of a local time in a gap": "The instant of a local time in a gap, 2020 to 2029",
}
PARSING, WORK, DATES, COLUMNS = "Reading a zone", "Instants at work", "Dates without a time zone", "Columns of instants"
DIFFER = "Answers that differ"
WORDS = {"Sahvumbi": "Sahvumbi's", "the peer": "its answer", "peer": "library", "one of them": "for example", "in the years": "in"}


# Rows that are slower than the fastest library, each with the table, a pattern for its question or zone, words for it, and why.
SLOWER = [
    (
        WORK,
        "from an instant",
        "fields of an instant",
        "A `ZonedDateTime` of java.time keeps its local date and time. This library keeps the UTC date-time and the offset, and computes "
        "the local date-time for each of six fields.",
    ),
    (
        WORK,
        "seconds between",
        "seconds between two instants",
        "A `TimeDelta` is seconds and nanoseconds, computed from both parts of two date-times with a test for leap seconds; date and cctz "
        "subtract one count from another.",
    ),
    (
        WORK,
        "which of two|sort a million",
        "the earlier of two instants; sorting a million",
        "An instant has 32 bytes, since it refers to its zone and to the type in force; one of chrono's `Local` has 16.",
    ),
    (
        DATES,
        ".*",
        "dates and local date-times without a time zone",
        "A date is kept as the number of its day, and a local date-time as a count of seconds: each field is computed from it. chrono keeps "
        "the year, the day of the year and what kind of year it is.",
    ),
    (
        COLUMNS,
        ".*",
        "columns in the order of time, or in a zone whose clocks never change",
        "A loop that keeps a span is compiled into the caller: two comparisons and a sum for each row. `zoned_column_locals` also checks "
        "that each local time fits into 64 bits, and takes rows in any order and unit. The same loop over `zoned_zone_span` takes as long "
        "as over the other libraries; the file of each date has it.",
    ),
    (
        PARSING,
        "Text",
        "parsing a TZ string",
        "The moments of all kinds of year are computed when the rule is made. chrono and date only parse the string.",
    ),
    (
        PARSING,
        ".*",
        "parsing a zone",
        "The file is checked and indexed before the first question. chrono's reader checks it and has no index; glibc does neither. Of a "
        "zone with leap seconds the transitions are kept by Unix time too. (The gate counts the instructions for each byte of a zone that "
        "is opened: `tools/try_shapes.py`.)",
    ),
]


def latest():
    return sorted((TOP / "bench/results").glob("*.md"))[-1]


def ratio_of(row):
    """A row's ratio, or None if it has none."""
    return float(row["ratio"].split()[0]) if "(" in row.get("ratio", "") else None


def table(rows):
    """A table as it was printed, but with the greatest ratios first; rows without one are the last."""
    heads, rows = list(rows[0]), sorted(rows, key=lambda row: -(ratio_of(row) or 0))
    numbers = [all(re.match(r"-?(\d[\d.,]*( .*)?)?$", row[head]) for row in rows) for head in heads]
    lines = [heads, ["--:" if number else "---" for number in numbers], *(list(row.values()) for row in rows)]
    return "\n".join("| " + " | ".join(line) + " |" for line in lines)


def ratios(found, titles):
    """The least and the greatest ratio of some tables."""
    return spread(ratio for title in titles for row in found[title] if (ratio := ratio_of(row)) is not None)


def spread(numbers):
    """The least and the greatest of some numbers, or the only one."""
    least, *_, greatest = [f"{ratio:.2f}" for ratio in sorted(numbers) * 2]
    return least if least == greatest else f"{least} to {greatest}"


def headline(found):
    kinds = {f"a lookup {words}, also in 2020 to 2029": titles for words, titles in LOOKUPS.items()} | {
        "work with instants": [WORK],
        "clock changes, spans and gaps": list(CHANGES.values()),
        "columns": [COLUMNS],
        "dates without a time zone": [DATES],
        "parsing a zone": [PARSING],
    }
    rows = [f"| {words} | {ratios(found, of)} |" for words, of in kinds.items() if all(title in found for title in of)]
    return "\n".join(["| question | ratio |", "| --- | --- |", *rows])


def slower_rows(found):
    """Each row that is slower than the fastest library: the table, its question or zone, and the ratio."""
    titles = [*LOOKUPS["by instant"], *LOOKUPS["by local time"], WORK, *CHANGES.values(), COLUMNS, DATES, PARSING]
    for title in titles:
        for row in found.get(title, []):
            if (ratio := ratio_of(row)) and ratio > 1:
                yield title, ", ".join([next(iter(row.values())), *([row["rows"]] if "rows" in row else [])]), ratio


def reason(title, name):
    """The words for a row that is slower, and why."""
    for of_title, pattern, words, why in SLOWER:
        if of_title == title and re.match(pattern, name):
            return words, why
    return f"{title}: {name}", "not known yet"


def slower(found):
    """A table of these rows, the greatest ratio first, with the reason of each."""
    ratios_of = {}
    for title, name, ratio in slower_rows(found):
        ratios_of.setdefault(reason(title, name), []).append(ratio)
    rows = sorted(ratios_of.items(), key=lambda item: -max(item[1]))
    lines = ["| row | ratio | why |", "| --- | --- | --- |", *(f"| {words} | {spread(numbers)} | {why} |" for (words, why), numbers in rows)]
    return "\n".join(lines)


def differences(found):
    """The answers that differ by instant of all years; those to other questions have the same reasons."""
    rows = [row for row in found[DIFFER] if row["question"] == "an instant, 1900 to 2099"]
    return table([{WORDS.get(head, head): cell for head, cell in row.items() if head != "question"} for row in rows])


def lookup_of_new_york(found):
    """README's sentences: this library's times in New York, and those of the fastest other one with the same answers."""
    ours, theirs = [], []
    for words, titles in LOOKUPS.items():
        row = next(row for row in found[titles[0]] if row["zone"] == "New_York")
        fastest = re.search(r"\((.*)\)", row["ratio"])[1]
        ours.append(f"{row['Sahvumbi']} {words}")
        theirs.append(f"{next(time for library, time in row.items() if library.startswith(fastest + ' '))} ({fastest})")
    return (
        f"One lookup in New York's zone, at random in 1900 to 2099, takes {' and '.join(ours)}. "
        f"The fastest other library with the same answers takes {' and '.join(theirs)}."
    )


# Where the figures of that day come from.
BUSY = ", on a busy machine"


def conditions(text, results):
    """When and where the figures were measured."""
    line = re.search(r"(?m)^\d{4}-\d\d-\d\d, .*$", text)[0]
    by_the_clock = " These are times by the clock, taken while up to ten provers ran; chrono-tz was not measured." if ONE_CALL in text else ""
    return f"{line}{by_the_clock} [All tables](../bench/results/{results.name})."


def at_once(text):
    """How many programs ran at a time, if the file says so."""
    found = re.search(r"Up to \w+ programs ran at a time[^.]*\.", text)
    return f" {found[0]}" if found else ""


def parts(results):
    """What each place of the documents has, by its name; those that need a table which wasn't measured stay as they are."""
    text = results.read_text()
    found = tables(text)
    made = {
        "headline": lambda: headline(found),
        "by instant": lambda: table(found[AT]),
        "by local time": lambda: table(found[WALL]),
        "at work": lambda: table(found[WORK]),
        "columns": lambda: table([row for row in found[COLUMNS] if row["rows"] in ("in order", "at random")]),
        "slower": lambda: slower(found),
        "differ": lambda: differences(found),
        "measured": lambda: conditions(text, results),
        "New York": lambda: f"{lookup_of_new_york(found)} ({measured(text)}{BUSY if ONE_CALL in text else ''}.{at_once(text)})",
    }
    for name, part in made.items():
        try:
            yield name, part()
        except KeyError:
            continue


def written(document, results):
    """The document with these parts."""
    text = document.read_text()
    for name, part in parts(results):
        text = re.sub(rf"(?s)(<!-- {name} -->\n).*?(<!-- end -->)", lambda found: found[1] + part + "\n" + found[2], text)
    return text


def main():
    results = Path(sys.argv[1]) if len(sys.argv) > 1 else latest()
    for document in (README, SPEED):
        document.write_text(written(document, results))
    subprocess.run([sys.executable, TOP / "bench/draw.py", results, PICTURE], check=True)
    rows = [(ratio, title, name) for title, name, ratio in slower_rows(tables(results.read_text()))]
    print("slower than the fastest:", *(f"{ratio:.2f} {title}: {name}" for ratio, title, name in sorted(rows, reverse=True)), sep="\n  ")
    lacking = sorted({f"{title}: {name}" for _, title, name in rows if reason(title, name)[1] == "not known yet"})
    if lacking:
        sys.exit("SLOWER has no reason for: " + "; ".join(lacking))


if __name__ == "__main__":
    main()
