"""Compares the starts of days with Python's zoneinfo: each day from 1900 to 2100 of every TZif file of a tz database without leap
seconds, once for all files with the same bytes.

`zoned_zone_first_at_or_after` of the static library returns the first second at which clocks show midnight or a later local time. It
must be the one that zoneinfo's offsets give: in order, the first stretch of one offset that has a second at which the local time is
midnight or later. It also counts the days that don't start at midnight, are empty, or don't have 24 hours. `zoned_zone_reached` must be
the greatest local time of the seconds so far, by the same stretches: at seconds around each change of the offset and in the day after
it. It needs gcc, and takes some minutes.
"""

import ctypes
import tempfile
from calendar import timegm
from collections import Counter
from ctypes import POINTER, byref, c_int32, c_int64, c_uint32
from datetime import datetime, timedelta, timezone
from io import BytesIO
from zoneinfo import ZoneInfo

from comparing.database import FOLDER, TzFile, tzif_files
from comparing.library import ARCHIVE, FILE, OK, Handle, loaded

EPOCH = datetime(1970, 1, 1, tzinfo=timezone.utc)
DAY = 86_400
# Offsets are compared this often, and at each transition of the file; between two that differ halving finds the change.
STEP = 12 * 3_600
FIRST = timegm((1900, 1, 1, 0, 0, 0))
LAST = timegm((2101, 1, 1, 0, 0, 0))


class Resolved(ctypes.Structure):
    _fields_ = [("number", c_uint32), ("offset", c_int32), ("instant", c_int64)]


def instant(second):
    return EPOCH + timedelta(seconds=second)


def offset_at(zone, second):
    return round(instant(second).astimezone(zone).utcoffset().total_seconds())


def stretches(file, zone, first, last):
    """The stretches of one offset from one second to before another: where each begins, and the offset."""
    seconds = sorted({*range(first, last, STEP), last - 1, *(t for t in file.transitions if first < t < last)})
    found, before = [(first, offset_at(zone, first))], first
    for second in seconds:
        offset = offset_at(zone, second)
        if offset != found[-1][1]:
            low, high = before, second
            while high - low > 1:
                middle = (low + high) // 2
                if offset_at(zone, middle) == found[-1][1]:
                    low = middle
                else:
                    high = middle
            found.append((high, offset_at(zone, high)))
            if found[-1][1] != offset:
                raise ValueError(f"two changes between {before} and {second}")
        before = second
    return found


def starts(found, midnights, last):
    """The first second at which local time is each midnight or later; both in order."""
    at = 0
    for midnight in midnights:
        while True:
            begin, offset = found[at]
            end = found[at + 1][0] if at + 1 < len(found) else last
            second = max(begin, midnight - offset)
            if second < end:
                break
            at += 1
        yield second, second + offset


def last_shown(found, last):
    """The last local time shown so far, at the first and the last seconds of each stretch and at some after clocks are set."""
    latest = -(1 << 63)
    for (begin, offset), (end, _) in zip(found, [*found[1:], (last, None)]):
        for second in sorted({begin, begin + 1, begin + 1_799, begin + 3_600, begin + 7_200, begin + DAY, end - 1}):
            if begin <= second < end:
                yield second, max(latest, second + offset)
        latest = max(latest, end - 1 + offset)


def main(folder=FOLDER, archive=ARCHIVE):
    counts, seen = Counter(), set()
    with tempfile.TemporaryDirectory() as made:
        asked = {"zoned_zone_first_at_or_after": [c_int64, POINTER(Resolved)], "zoned_zone_reached": [c_int64, POINTER(c_int64)]}
        library = loaded(archive, made, asked)
        # A week wider, so that no midnight lies outside.
        midnights = range(FIRST, LAST + 1, DAY)
        for name, content in tzif_files(folder):
            if content in seen or TzFile(content).leap_seconds:
                continue
            seen.add(content)
            zone = ZoneInfo.from_file(BytesIO(content))
            found = stretches(TzFile(content), zone, FIRST - 7 * DAY, LAST + 7 * DAY)
            handle, reached = Handle(), Resolved()
            number = library.zoned_open(FILE, content, len(content), byref(handle))
            if number != OK:
                raise ValueError(f"{name} is rejected: {number}")
            handle_at, reached_at, before = byref(handle), byref(reached), None
            for midnight, (second, local) in zip(midnights, starts(found, midnights, LAST + 7 * DAY)):
                library.zoned_zone_first_at_or_after(handle_at, midnight, reached_at)
                if (reached.number, reached.instant, reached.instant + reached.offset) != (OK, second, local):
                    counts["wrong"] += 1
                    print(f"{name}: {midnight}: {reached.number} {reached.instant} {reached.offset}, zoneinfo {second} {local - second}")
                counts["start after midnight"] += local != midnight
                if before is not None:
                    counts["of no second"] += second == before
                    counts["not of 24 hours"] += second - before != DAY
                before = second
            shown = c_int64()
            for second, local in last_shown(found, LAST + 7 * DAY):
                number = library.zoned_zone_reached(handle_at, second, byref(shown))
                if second >= FIRST and (number, shown.value) != (OK, local):
                    counts["wrong"] += 1
                    print(f"{name}: {second}: {number} {shown.value}, zoneinfo {local}")
                counts["last local times"] += second >= FIRST
            counts["days"] += len(midnights) - 1
            counts["zones"] += 1
            library.zoned_close(handle_at)
    print(", ".join(f"{count:,} {what}" for what, count in counts.items()), f"{counts['wrong']} differences", sep="; ")
    return 1 if counts["wrong"] or not seen else 0
