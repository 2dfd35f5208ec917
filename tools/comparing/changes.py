"""Lists the clock changes of every TZif file of a tz database by the C library, in both directions, and compares them with zdump.

For each zone, once for all files with the same bytes:

- `zoned_zone_next_change` lists the changes from 1900 on and before 2037, each from the one before it, and
  `zoned_zone_previous_change` the same backwards. Both must be zdump's: second, offset, DST flag and abbreviation.
- From the year 1 to 2500 one call's list must be the other's in reverse. `zoned_zone_types` checks them by the definition: at
  each change the type differs from that of the second before, both are the change's, and at random seconds up to the next
  change the type is the one after it. So it is before the first change and after the last.

It takes half a minute and needs gcc. Prints the counts, and each difference.
"""

import calendar
import ctypes
import random
import tempfile
from collections import Counter
from ctypes import POINTER, byref, c_char, c_int32, c_int64, c_size_t
from pathlib import Path

from comparing.database import FOLDER, Change, Type, changes_by_zdump, tzif_files
from comparing.library import ARCHIVE, FILE, OK, Handle, loaded
from sources import needs

YEARS = (1900, 2037)
WIDE_YEARS = (1, 2500)
DRAWN = 3
NO_CHANGE = 35


class WrittenType(ctypes.Structure):
    _fields_ = [("offset", c_int32), ("is_dst", c_int32), ("abbreviation", c_char * 8)]

    def read(self):
        return Type(self.offset, self.is_dst, self.abbreviation.decode())


class WrittenChange(ctypes.Structure):
    _fields_ = [("at", c_int64), ("before", WrittenType), ("after", WrittenType)]

    def read(self):
        return Change(self.at, self.before.read(), self.after.read())


QUESTIONS = {
    "zoned_zone_types": [POINTER(c_int64), c_size_t, POINTER(WrittenType), c_size_t],
    "zoned_zone_next_change": [c_int64, POINTER(WrittenChange)],
    "zoned_zone_previous_change": [c_int64, POINTER(WrittenChange)],
}


class Zone:
    """A zone that the library has open, asked by its calls."""

    def __init__(self, library, content):
        self.library, self.handle = library, Handle()
        number = library.zoned_open(FILE, content, len(content), byref(self.handle))
        if number != OK:
            raise ValueError(f"the file is refused: {number}")

    def __enter__(self):
        return self

    def __exit__(self, *_):
        self.library.zoned_close(byref(self.handle))

    def asked(self, call, second):
        change = WrittenChange()
        number = call(byref(self.handle), second, byref(change))
        if number not in (OK, NO_CHANGE):
            raise ValueError(f"{call.__name__}: {number}")
        return change.read() if number == OK else None

    def forwards(self, first, end):
        """The changes from the second `first` on and before `end`."""
        found, last = [], first - 1
        while (change := self.asked(self.library.zoned_zone_next_change, last)) and change.at < end:
            found.append(change)
            last = change.at
        return found

    def backwards(self, first, end):
        """The same, the last one first."""
        found, last = [], end - 1
        while (change := self.asked(self.library.zoned_zone_previous_change, last)) and change.at >= first:
            found.append(change)
            last = change.at - 1
        return found

    def types(self, seconds):
        asked, told = (c_int64 * len(seconds))(*seconds), (WrittenType * len(seconds))()
        number = self.library.zoned_zone_types(byref(self.handle), asked, len(seconds), told, len(seconds))
        if number != OK:
            raise ValueError(f"zoned_zone_types: {number}")
        return [each.read() for each in told]


def new_year(year):
    return calendar.timegm((year, 1, 1, 0, 0, 0))


def stretches(changes, first, end):
    """The seconds between one change and the next, with the type that the changes have for them."""
    starts = [first, *(change.at for change in changes)]
    ends = [*(change.at for change in changes), end]
    types = [changes[0].before if changes else None, *(change.after for change in changes)]
    return [stretch for stretch in zip(starts, ends, types, strict=True) if stretch[0] < stretch[1]]


def by_definition(zone, changes, first, end, chance):
    """What is wrong about the changes by the types in force, and how many seconds were asked."""
    for one, other in zip(changes, changes[1:]):
        if one.at >= other.at or one.after != other.before:
            yield f"{one} and then {other}"
    for change in changes:
        if change.before == change.after:
            yield f"{change} changes nothing"
    expected = {}
    for start, stop, told in stretches(changes, first, end):
        seconds = {start, stop - 1, *(chance.randrange(start, stop) for _ in range(DRAWN))}
        if told is None:
            told = zone.types([start])[0]
        expected.update(dict.fromkeys(seconds, told))
    for second, found in zip(expected, zone.types(list(expected)), strict=True):
        if found != expected[second]:
            yield f"at {second} the type is {found}, and not {expected[second]}"
    yield len(expected)


def compared(zone, path, counts, chance):
    """What differs."""
    first, end = map(new_year, YEARS)
    wanted = list(changes_by_zdump(path, YEARS))
    for way, found in ("next", zone.forwards(first, end)), ("previous", zone.backwards(first, end)[::-1]):
        if found != wanted:
            yield f"{way}: {sorted(set(found) ^ set(wanted))[:3]}"
    counts["changes that zdump lists"] += len(wanted)
    first, end = map(new_year, WIDE_YEARS)
    changes = zone.forwards(first, end)
    if zone.backwards(first, end)[::-1] != changes:
        yield "the calls list different changes"
    counts["changes from the year {} to {}".format(*WIDE_YEARS)] += len(changes)
    *wrong, asked = by_definition(zone, changes, first, end, chance)
    yield from wrong
    counts["seconds asked for their type"] += asked


def main(folder=FOLDER, archive=ARCHIVE):
    needs("zdump", "gcc", Path(archive))
    chance = random.Random(20_260_728)
    counts, seen, differences = Counter(), set(), 0
    with tempfile.TemporaryDirectory() as made:
        library = loaded(archive, made, QUESTIONS)
        for path, content in tzif_files(folder):
            counts["files"] += 1
            if content in seen:
                continue
            seen.add(content)
            counts["zones"] += 1
            with Zone(library, content) as zone:
                for difference in compared(zone, path, counts, chance):
                    differences += 1
                    print(f"{path}: {difference}")
    print(", ".join(f"{count:,} {what}" for what, count in counts.items()), f"{differences} differences", sep="; ")
    return 1 if differences or not seen else 0
