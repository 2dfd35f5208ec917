"""A tz database as the comparisons read it: its TZif files, and what zdump prints of one."""

import calendar
import re
import struct
import subprocess
import time
from collections import namedtuple
from pathlib import Path

FOLDER = Path("/usr/share/zoneinfo")
HEADER = 44
LINE = re.compile(r"  \w{3} (\w{3} +\d+) ([\d:]{8}) (\d+) UT = .* (\S+) isdst=([01]) gmtoff=(-?\d+)$")

# A local time type, and a clock change: its first second and the types before and after it.
Type = namedtuple("Type", "offset is_dst name")
Change = namedtuple("Change", "at before after")


def tzif_files(folder):
    """The paths of a folder's TZif files with their bytes, in order."""
    for path in sorted(path for path in Path(folder).rglob("*") if path.is_file()):
        content = path.read_bytes()
        if content.startswith(b"TZif"):
            yield path, content


class TzFile:
    """What a TZif file says of itself: version, number of leap seconds, times of transitions, TZ string of the footer."""

    def __init__(self, content):
        self.content = content
        self.version = 1 if content[4] == 0 else int(content[4:5])
        start, size = (0, 4) if self.version == 1 else (self.end_of_block(0, 4), 8)
        _, _, self.leap_seconds, count, _, _ = self.counts(start)
        self.transitions = struct.unpack_from(f">{count}{'i' if size == 4 else 'q'}", content, start + HEADER)
        self.footer = "" if self.version == 1 else content[:-1].rsplit(b"\n", 1)[1].decode("ascii")

    def counts(self, start):
        """The counts of the header at `start`: UT/local, standard/wall, leap seconds, transitions, types, designations."""
        return struct.unpack_from(">6I", self.content, start + 20)

    def end_of_block(self, start, size):
        ut, standard, leap_seconds, transitions, types, designations = self.counts(start)
        records = transitions * (size + 1) + types * 6 + designations + leap_seconds * (size + 4)
        return start + HEADER + records + standard + ut


def zdump(path, years):
    """What `zdump -v` prints of a file for the years from the first and before the second."""
    command = ["zdump", "-v", "-c", "{},{}".format(*years), str(path)]
    return subprocess.run(command, capture_output=True, text=True, check=True).stdout


def lines_of(printed, name):
    """For each second that zdump prints: the second, as it prints in UTC, and the type then."""
    for line in printed.splitlines():
        if line.endswith("= NULL"):
            continue
        read = LINE.fullmatch(line.removeprefix(str(name)))
        if read is None:
            raise ValueError(f"zdump's line isn't read: {line}")
        day, clock, year, designation, is_dst, offset = read.groups()
        yield (day, clock, year), Type(int(offset), int(is_dst), designation)


def unix_second(day, clock, year):
    return calendar.timegm(time.strptime(f"{day} {clock} {year}", "%b %d %H:%M:%S %Y"))


def changes_by_zdump(path, years):
    """The clock changes that zdump prints: two lines for each, for the second before it and for its first second. It also prints
    two lines for each leap second, at which no type changes."""
    lines = list(lines_of(zdump(path, years), path))
    for (earlier, before), (later, after) in zip(lines[::2], lines[1::2], strict=True):
        at, in_leap_second = unix_second(*later), earlier[1].endswith(":60")
        # A leap second is the second before the midnight that ends it.
        if not in_leap_second and unix_second(*earlier) != at - 1:
            raise ValueError(f"zdump's two lines of {at} aren't of two seconds in a row")
        if before != after:
            yield Change(at, before, after)
        elif not in_leap_second:
            raise ValueError(f"zdump's two lines of {at} change nothing")
