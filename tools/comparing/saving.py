"""Compares amounts of daylight saving time with the column SAVE of the tz database's source, for all zones of `tzdata.zi`.

The source is compiled again by zic, with SAVE for each abbreviation: so zic says which SAVE is in force at an instant. For each span of
daylight saving time of the database's own files that begins before 2038, `zoned_zone_standard_offset` must return that amount, at the
first second and at the last one; and 0 for each span of standard time. A difference has one of two reasons: standard time before and
after allows two amounts, or it allows only another one. Both are known of the years of war in Monaco and Paris, and nowhere else. It
needs gcc and zic.
"""

import ctypes
import subprocess
import tempfile
from calendar import timegm
from collections import Counter
from ctypes import POINTER, byref, c_char, c_int32, c_int64
from pathlib import Path

from comparing.database import FOLDER
from comparing.library import ARCHIVE, FILE, OK, Handle, loaded
from sources import needs

END = timegm((2038, 1, 1, 0, 0, 0))
LEAST = -(2**63)
KNOWN = {"Europe/Monaco", "Europe/Paris"}
SINCE = timegm((1970, 1, 1, 0, 0, 0))


class LocalType(ctypes.Structure):
    _fields_ = [("offset", c_int32), ("is_dst", c_int32), ("abbreviation", c_char * 8)]


class Span(ctypes.Structure):
    _fields_ = [("begin", c_int64), ("until", c_int64), ("local_type", LocalType)]


class Saving(ctypes.Structure):
    _fields_ = [("standard_offset", c_int64), ("amount", c_int64)]


def seconds(save):
    """The seconds of SAVE, such as 1, 0:30 or -1:00, after which s or d may give the DST flag."""
    hours, *parts = save.rstrip("sd").lstrip("-").split(":")
    count = int(hours) * 3600 + sum(int(part) * 60 ** (1 - place) for place, part in enumerate(parts))
    return -count if save.startswith("-") else count


def marked(source):
    """The source with SAVE, in seconds, for each abbreviation."""
    is_continued = False
    for line in source.splitlines():
        fields = line.split("#")[0].split()
        if not fields or fields[0] == "L":
            yield line
        elif fields[0] == "R" and not is_continued:
            yield " ".join([*fields[:9], f"{seconds(fields[8]):+06d}"])
        else:
            place = 0 if is_continued else 2
            rules = fields[place + 1]
            if rules == "-" or rules[0].isdigit() or rules[0] == "-":
                fields[place + 2] = f"{0 if rules == '-' else seconds(rules):+06d}"
            else:
                fields[place + 2] = "%s"
            is_continued = len(fields) > place + 3
            yield " ".join(fields)


def spans(library, zone):
    """The spans of a zone that begin before 2038."""
    found, at = Span(), LEAST
    while True:
        if library.zoned_zone_span(zone, at, found) != OK:
            raise ValueError(f"no type at {at}")
        yield Span.from_buffer_copy(found)
        if found.until >= END:
            return
        at = found.until


def differences(library, zone, source):
    """The spans of a zone, and for each that of daylight saving time whose amount is another one: its amount, that of the source,
    and those that standard time before and after allows."""
    listed, wrong, kind, saving = list(spans(library, zone)), [], LocalType(), Saving()
    standard = [place for place, span in enumerate(listed) if not span.local_type.is_dst]
    for place, span in enumerate(listed):
        for at in span.begin, min(span.until, END) - 1:
            if library.zoned_zone_type(source, at, kind) or library.zoned_zone_standard_offset(zone, at, saving):
                raise ValueError(f"no answer at {at}")
            if (kind.offset, kind.is_dst) != (span.local_type.offset, span.local_type.is_dst):
                raise ValueError(f"the file is not of this source: {at}")
            if saving.amount + saving.standard_offset != kind.offset:
                raise ValueError(f"not the parts of the offset at {at}")
            if saving.amount != int(kind.abbreviation):
                sides = [near[0] for near in ([p for p in standard[::-1] if p < place], [p for p in standard if p > place]) if near]
                allowed = {span.local_type.offset - listed[side].local_type.offset for side in sides}
                wrong.append((span.begin, saving.amount, int(kind.abbreviation), allowed))
                break
    return listed, wrong


def opened(library, path):
    handle, content = Handle(), path.read_bytes()
    if library.zoned_open(FILE, content, len(content), byref(handle)) != OK:
        raise ValueError(f"{path} is rejected")
    return handle


def main(folder=FOLDER, archive=ARCHIVE):
    needs("zic")
    source = (Path(folder) / "tzdata.zi").read_text()
    names = [line.split()[1] for line in source.splitlines() if line.startswith("Z ")]
    counts, unknown = Counter(), 0
    with tempfile.TemporaryDirectory() as made:
        questions = {"zoned_zone_span": Span, "zoned_zone_type": LocalType, "zoned_zone_standard_offset": Saving}
        library = loaded(archive, made, {name: [c_int64, POINTER(answer)] for name, answer in questions.items()})
        (Path(made) / "marked.zi").write_text("\n".join(marked(source)) + "\n")
        subprocess.run(["zic", "-b", "fat", "-d", f"{made}/marked", f"{made}/marked.zi"], check=True, capture_output=True)
        for name in names:
            zone, by_source = opened(library, Path(folder) / name), opened(library, Path(made) / "marked" / name)
            listed, wrong = differences(library, zone, by_source)
            counts["spans"] += len(listed)
            counts["of daylight saving time"] += sum(span.local_type.is_dst for span in listed)
            for begin, amount, save, allowed in wrong:
                counts["with another amount, of two that are allowed" if save in allowed else "with an amount that isn't allowed"] += 1
                unknown += name not in KNOWN or begin >= SINCE
                print(f"{name}: from {begin} on: {amount}, SAVE {save}; allowed: {sorted(allowed)}")
            library.zoned_close(byref(zone))
            library.zoned_close(byref(by_source))
    print(f"{source.splitlines()[0].lstrip('# ')}: {len(names)} zones", *(f"{count:,} {what}" for what, count in counts.items()), sep="; ")
    return 1 if unknown or not counts["of daylight saving time"] else 0
