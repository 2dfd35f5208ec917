"""Compares zoneq's answers with rows of other projects' tests (the tables of tools/comparing/peers, each with its source and its licence).

usage: tools/compare.py peers

Reads the zones that the rows name from the tz database. Prints how many rows of each project agree, and each row that differs without
a reason in KNOWN. A row of KNOWN that agrees is an error too. Ends with status 1 if there is an error.
"""

import struct
import subprocess
from datetime import datetime, timedelta
from pathlib import Path

from sources import DATABASE, TOP, needs

TABLES = Path(__file__).parent / "peers"
ZONEQ = TOP / "crates/zoneq/out/zoneq"
EPOCH = datetime(1970, 1, 1)

A_DAY = "an offset of 24 hours or more is rejected, as chrono rejects it (POSIX allows 24)"
ONE_DIGIT = "minutes and seconds of one digit are read, as POSIX's grammar has them"
SHORT_NAMES = "names of one letter are rejected: POSIX has three letters at least"
NEW_YEAR = "Go ends each span at the new year in UTC; no clock changes then"
YEAR_9999 = "jiff has no changes outside the years -9999 to 9999"
# The checks whose rows name a zone of the tz database; those of the others have a TZ string, and rows of EITHER have one or the other.
OF_THE_DATABASE = ("change", "type", "offset", "never", "twice")
EITHER = ("wall", "instant", "previous", "next")
# How far a change is looked for if a row says that none comes, and at how many seconds at most.
A_CENTURY, SAMPLES = 36_525 * 86_400, 500
# The rows that are known to differ, with the reason: the project's file, and the lines of its test.
KNOWN = {
    "cpython": {
        A_DAY: [*range(1011, 1020), *range(1031, 1035)],
        ONE_DIGIT: [1100, 1102, 1105, 1107, 1146, 1148, 1151, 1153],
    },
    "go": {NEW_YEAR: [268, 272, 273]},
    "jiff": {A_DAY: [3489, 3495], YEAR_9999: [3689, 3711, 3727, 3780, 3792, 3806, 3849, 3861, 3875]},
    "jiff_core": {A_DAY: [3363, 3386, 3721, 3729]},
    "tzinfo": {SHORT_NAMES: [48, 80]},
}


def zone_line(check, zone):
    """The line of zoneq that makes this the zone: a file of the database, or a file with the TZ string as its footer."""
    if check in OF_THE_DATABASE or check in EITHER and (DATABASE / zone).is_file():
        return f"data {(DATABASE / zone).read_bytes().hex()}"
    header = b"TZif3" + bytes(15) + struct.pack(">6l", 0, 0, 0, 0, 1, 4)
    return f"data {(2 * (header + bytes(6) + b'UTC' + bytes(1)) + b'%c%s%c' % (10, zone.encode(), 10)).hex()}"


class Asked:
    """A program zoneq that holds a dialogue."""

    def __init__(self):
        self.process = subprocess.Popen([ZONEQ], stdin=subprocess.PIPE, stdout=subprocess.PIPE, text=True, bufsize=1)

    def ask(self, line):
        self.process.stdin.write(line + "\n")
        self.process.stdin.flush()
        return self.process.stdout.readline().rstrip("\n")

    def at(self, second):
        return typed(self.ask(f"at {second}"))

    def wall(self, local):
        """The types at which the local time is shown: none, one, or the first and the last."""
        word, _, types = self.ask(f"wall {local:%Y %m %d %H %M %S}").partition(" ")
        return [] if word == "none" else [typed(each) for each in types.split(", ")]

    def around_gap(self, local):
        """The types before and after the gap in which the local time lies."""
        date, time, _ = self.ask(f"wall {local:%Y %m %d %H %M %S} shift/refuse").split(" ")
        moved = datetime.fromisoformat(f"{date} {time}") - local
        after = next(each for each in self.wall(local + moved))
        before = after[0] - int(moved.total_seconds())
        return [self.at(seconds(local) - after[0]), self.at(seconds(local) - before)]


def typed(text):
    offset, flag, name = text.split(" ")
    return int(offset), flag, name


def seconds(local):
    return int((local - EPOCH).total_seconds())


def change(zoneq, local, before, name_before, after, name_after):
    """Whether clocks change there: the types on both sides, and what is shown at the ends of the gap or fold."""
    local, before, after = datetime.fromisoformat(local), int(before), int(after)
    second, step = seconds(local) - before, timedelta(seconds=abs(after - before))
    sides = [zoneq.at(each)[::2] for each in (second - 1, second)]
    last = timedelta(seconds=1)
    shown = {
        -1: lambda: [[2, 2, 1], [len(zoneq.wall(each)) for each in (local - step, local - last, local)]],
        0: lambda: [[1], [len(zoneq.wall(local))]],
        1: lambda: [[0, 0, 1], [len(zoneq.wall(each)) for each in (local, local + step - last, local + step)]],
    }[(after > before) - (after < before)]()
    return sides == [(before, name_before), (after, name_after)] and shown[0] == shown[1]


def shown(zoneq, local, fold, offset, name):
    """Whether the local time has this offset by PEP 495: with fold 0 the first one, or that before the gap, with fold 1 the other one."""
    local = datetime.fromisoformat(local)
    types = zoneq.wall(local) or zoneq.around_gap(local)
    return types[-int(fold)][::2] == (int(offset), name)


def kind(zoneq, local, offset, flag, name):
    """Whether the instant that shows the local time with this offset has this type."""
    found = zoneq.at(seconds(datetime.fromisoformat(local)) - int(offset))
    return found[0] == int(offset) and flag in (found[1], "any") and name in (found[2], "-")


def span(zoneq, second, name, offset, flag, first, until):
    """Whether the type is in force from the first second until the last, and neither just before nor just after."""
    wanted = (int(offset), flag, name)
    inside = [second, first, str(int(until) - 1) if until != "-" else "-"]
    outside = [str(int(first) - 1) if first != "-" else "-", until]
    return all(zoneq.at(each) == wanted for each in inside if each != "-") and all(zoneq.at(each) != wanted for each in outside if each != "-")


def wall(zoneq, local, kind, *offsets):
    """Whether the local time is shown once, or lies in a gap or a fold, with these offsets."""
    local = datetime.fromisoformat(local)
    found = zoneq.wall(local)
    types = found or zoneq.around_gap(local)
    return kind == ("gap", "once", "fold")[len(found)] and offsets == tuple(str(each[0]) for each in types)


def instant(zoneq, second, offset, name, local):
    """Whether clocks show that local time then, with this offset and abbreviation."""
    found = zoneq.at(second)
    shown = zoneq.ask(f"show {second} 0").rpartition(" ")[0]
    return found[0] == int(offset) and name in (found[2], "-") and shown == local.replace("T", " ")


def stays(zoneq, first, last):
    """Whether one type is in force at seconds from the first to the last, a day apart or more."""
    step = max(86_400, (last - first) // SAMPLES)
    return len({zoneq.at(second) for second in (*range(first, last, step), last)}) == 1


def previous_change(zoneq, given, found):
    """Whether the last change before that second is the one found, or none comes."""
    first, last = int(found) if found != "-" else int(given) - A_CENTURY, int(given) - 1
    return stays(zoneq, first, last) and (found == "-" or zoneq.at(first - 1) != zoneq.at(first))


def next_change(zoneq, given, found):
    """Whether the first change after that second is the one found, or none comes."""
    first, last = int(given), int(found) - 1 if found != "-" else int(given) + A_CENTURY
    return stays(zoneq, first, last) and (found == "-" or zoneq.at(last) != zoneq.at(last + 1))


CHECKS = {
    "wall": wall,
    "instant": instant,
    "previous": previous_change,
    "next": next_change,
    "change": change,
    "shown": shown,
    "type": kind,
    "span": span,
    "offset": lambda zoneq, second, offset: zoneq.at(second)[0] == int(offset),
    "never": lambda zoneq, local: not zoneq.wall(datetime.fromisoformat(local)),
    "twice": lambda zoneq, local: len(zoneq.wall(datetime.fromisoformat(local))) == 2,
    "valid": lambda zoneq: True,
}


def agrees(zoneq, check, zone, values):
    is_read = zoneq.ask(zone_line(check, zone)).startswith("ok ")
    return not is_read if check == "invalid" else is_read and CHECKS[check](zoneq, *values)


def main():
    needs(ZONEQ, DATABASE)
    zoneq, errors = Asked(), 0
    for table in sorted(TABLES.glob("*.txt")):
        reasons = {line: reason for reason, lines in KNOWN.get(table.stem, {}).items() for line in lines}
        rows = [row.split("\t") for row in table.read_text().splitlines() if row[:1].isdigit()]
        differ = {int(line) for line, check, zone, *values in rows if not agrees(zoneq, check, zone, values)}
        for line in sorted(differ ^ reasons.keys()):
            errors += 1
            row = next("\t".join(row) for row in rows if row[0] == str(line))
            print(f"{table.stem}, line {line}: {'differs' if line in differ else 'agrees, though KNOWN has it'}: {row}")
        print(f"{table.stem}: {len(rows)} rows, {len(rows) - len(differ)} agree, {len(differ & reasons.keys())} differ for a reason that is known")
    return bool(errors)
