#!/usr/bin/env python3
"""Says what a TZif file means when one of its bytes is changed: a second reader of RFC 8536, to compare with the library's.

usage: tools/crafted_files.py [--check]

For each file of crates/zoned_vectors/src/vectors.rt, and for each of the bytes 0x00, 0x7f, 0x80 and 0xff, each byte of the
file is replaced by that byte in turn. Prints a constant of crates/zoned_vectors/tests/answers.txt for each of these rows: a
letter for each place, `.` for a zone, and else the number of the error, from 10 on as a letter (`a` for 10). With
--check, compares them with that file, and ends with status 1 if they differ.

The reader is written from RFC 8536 and from what the library says of its numbers and of the order of its checks, in another
language, and shares no code with it. So if both agree, a mistake would have to be made twice.
"""

import re
import struct
import sys
from datetime import date
from pathlib import Path

TOP = Path(__file__).resolve().parent.parent
VECTORS = TOP / "crates/zoned_vectors/src/vectors.rt"
ANSWERS = TOP / "crates/zoned_vectors/tests/answers.txt"
OTHERS = [0x00, 0x7F, 0x80, 0xFF]
LETTERS = ".123456789abcdefgh"
EPOCH = date(1970, 1, 1).toordinal()
I64 = range(-(2**63), 2**63)
RULE_YEARS = range(-(2**31) + 2, 2**31 - 2)
NAME = re.compile(rb"[A-Za-z0-9+-]{3,7}")
# The largest offset, day time, month, week, weekday and day number that a text's digits may spell.
OFFSET_DIGITS, DATE_DIGITS, DAY_DIGITS = 2**31 - 1, 255, 65535


class Refused(Exception):
    """The input is refused with this number."""


def need(holds, number):
    if not holds:
        raise Refused(number)


class Bytes:
    """Bytes that are taken from the front."""

    def __init__(self, content):
        self.content, self.place = content, 0

    def rest(self):
        return self.content[self.place :]

    def take(self, count):
        need(len(self.rest()) >= count, 7)
        self.place += count
        return self.content[self.place - count : self.place]

    def take_run(self, of):
        run = re.match(of, self.rest()).group()
        self.place += len(run)
        return run

    def follows(self, byte):
        if self.rest()[:1] != byte:
            return False
        self.place += 1
        return True

    def expect(self, byte):
        need(self.rest(), 7)
        need(self.follows(byte), 8)


# The text of a rule.


def take_number(text, most):
    digits = text.take_run(rb"[0-9]*")
    need(digits and int(digits) <= most, 10)
    return int(digits)


def take_clock(text, signed):
    """Hours, minutes and seconds, and the sign before them."""
    sign = 1
    if signed and text.rest()[:1] in (b"+", b"-"):
        sign = -1 if text.take(1) == b"-" else 1
    clock = [take_number(text, OFFSET_DIGITS), 0, 0]
    for part in (1, 2):
        if not text.follows(b":"):
            break
        clock[part] = take_number(text, OFFSET_DIGITS)
    return sign, clock


def seconds(sign, clock, hours):
    need(clock[0] <= hours and clock[1] <= 59 and clock[2] <= 59, 6)
    return sign * (clock[0] * 3600 + clock[1] * 60 + clock[2])


def take_name(text):
    if not text.follows(b"<"):
        return text.take_run(rb"[A-Za-z]*")
    quoted, end, _ = text.rest().partition(b">")
    need(end, 7)
    text.take(len(quoted) + 1)
    return quoted


def take_offset(text):
    return -seconds(*take_clock(text, signed=True), hours=23)


def take_day(text, extended):
    """A day of the year and the second of that day."""
    if text.follows(b"M"):
        month = take_number(text, DATE_DIGITS)
        text.expect(b".")
        week = take_number(text, DATE_DIGITS)
        text.expect(b".")
        weekday = take_number(text, DATE_DIGITS)
        need(1 <= month <= 12 and 1 <= week <= 5 and weekday <= 6, 13)
        day = ("M", month, week, weekday)
    elif text.follows(b"J"):
        day = ("J", take_number(text, DAY_DIGITS))
        need(1 <= day[1] <= 365, 13)
    else:
        day = ("0", take_number(text, DAY_DIGITS))
        need(day[1] <= 365, 13)
    if not text.follows(b"/"):
        return day, 7200
    return day, seconds(*take_clock(text, signed=extended), hours=167 if extended else 24)


def checked_name(name):
    need(NAME.fullmatch(name), 3)
    return name


def read_rule(content, extended):
    """The type of a fixed rule, or both types of one that alternates with the days on which they end."""
    text = Bytes(content)
    std_name = take_name(text)
    std_offset = take_offset(text)
    if not text.rest():
        return [(std_offset, 0, checked_name(std_name))], []
    dst_name = take_name(text)
    need(text.rest(), 15)
    if text.rest()[:1] == b",":
        dst_offset = std_offset + 3600
        need(dst_offset <= 86399, 6)
    else:
        dst_offset = take_offset(text)
        need(text.rest(), 15)
    text.expect(b",")
    start = take_day(text, extended)
    text.expect(b",")
    end = take_day(text, extended)
    need(not text.rest(), 6)
    types = [(std_offset, 0, checked_name(std_name)), (dst_offset, 1, checked_name(dst_name))]
    return types, [start, end]


# A rule's type at a second.


def year_start(year):
    """The day of 1 January, for any year: the calendar comes again every 400 years."""
    cycle, there = divmod(year, 400)
    return date(there + 400, 1, 1).toordinal() - EPOCH + (cycle - 1) * 146097


def is_leap(year):
    return year % 4 == 0 and (year % 100 != 0 or year % 400 == 0)


def day_in_year(year, day):
    first = year_start(year)
    if day[0] == "0":
        return first + day[1]
    if day[0] == "J":
        return first + day[1] - 1 + (is_leap(year) and day[1] >= 60)
    _, month, week, weekday = day
    like = year % 400 + 400
    begins = date(like, month, 1)
    ends = date(like + 1, 1, 1) if month == 12 else date(like, month + 1, 1)
    days = [n for n in range(begins.toordinal(), ends.toordinal()) if n % 7 == weekday]
    chosen = days[-1] if week == 5 else days[week - 1]
    return first + chosen - date(like, 1, 1).toordinal()


def year_of(second):
    day = second // 86400
    year = 1970 + day * 400 // 146097
    while year_start(year) > day:
        year -= 1
    while year_start(year + 1) <= day:
        year += 1
    return year


def type_by_rule(rule, second):
    types, days = rule
    if not days:
        return types[0]
    std, dst = types
    (start_day, start_time), (end_day, end_time) = days
    year = year_of(second)
    need(year in RULE_YEARS, 9)

    def starts(y):
        return 86400 * day_in_year(y, start_day) + start_time - std[0]

    def ends(y):
        return 86400 * day_in_year(y, end_day) + end_time - dst[0]

    near = range(year - 2, year + 3)
    if starts(year) <= ends(year):
        return dst if any(starts(y) <= second < ends(y) for y in near) else std
    return std if any(ends(y) <= second < starts(y) for y in near) else dst


# The file.


def take_header(file, second):
    need(file.take(4) == b"TZif", 5)
    version = file.take(1)
    need(version in (b"\0", b"2", b"3"), 14)
    need(not (second and version == b"\0"), 5)
    counts = struct.unpack(">15x6I", file.take(39))
    ut, standard, _, _, types, names = counts
    need(types and names and ut in (0, types) and standard in (0, types), 5)
    return version, counts


def take_block(file, counts, width):
    ut, standard, leaps, transitions, types, names = counts
    sizes = [transitions * width, transitions, types * 6, names, leaps * (width + 4), standard, ut]
    return [file.take(size) for size in sizes]


def read_types(records, names):
    types = []
    for offset, dst, place in struct.iter_unpack(">iBB", records):
        need(dst <= 1 and place < len(names), 5)
        name, end, _ = names[place:].partition(b"\0")
        need(end, 5)
        need(offset != -(2**31), 3)
        types.append((offset, dst, checked_name(name) if name else None))
    return types


def read_footer(footer, version):
    try:
        footer.decode()
    except UnicodeDecodeError:
        raise Refused(16) from None
    need(footer[:1] == b"\n" and footer[-1:] == b"\n", 5)
    text = footer.strip(b" \t\n\x0c\r")
    need(not text.startswith(b":") and b"\0" not in text, 5)
    return read_rule(text, version == b"3") if text else None


def check_leap_seconds(leaps):
    before = None
    for when, correction in leaps:
        if before is None:
            need(when >= 0 and correction in (1, -1), 12)
        else:
            need(when - before[0] >= 2419199 and abs(correction - before[1]) == 1, 12)
        before = (when, correction)


def unix_time(leaps, when):
    need(when != -(2**63), 12)
    corrections = [0] + [correction for start, correction in leaps if start < when]
    need(when - corrections[-1] in I64, 12)
    return when - corrections[-1]


def check_zone(times, indices, types, leaps, rule):
    need(all(index < len(types) for index in indices), 12)
    need(all(a < b for a, b in zip(times, times[1:])), 12)
    check_leap_seconds(leaps)
    if rule and times:
        try:
            ruled = type_by_rule(rule, unix_time(leaps, times[-1]))
        except Refused:
            raise Refused(12) from None
        need(ruled == types[indices[-1]], 12)


def read_file(content):
    file = Bytes(content)
    version, counts = take_header(file, second=False)
    block = take_block(file, counts, 4)
    letter = "i"
    if version == b"\0":
        need(not file.rest(), 5)
    else:
        version, counts = take_header(file, second=True)
        block = take_block(file, counts, 8)
        letter = "q"
    times, indices, records, names, leaps, standard, ut = block
    times = [time for (time,) in struct.iter_unpack(">" + letter, times)]
    leaps = list(struct.iter_unpack(f">{letter}i", leaps))
    types = read_types(records, names)
    for k in range(len(types)):
        pair = (standard[k] if standard else 0, ut[k] if ut else 0)
        need(pair != (0, 1), 5)
    rule = None if letter == "i" else read_footer(file.rest(), version)
    check_zone(times, list(indices), types, leaps, rule)


# The table.


def letter_of(content):
    try:
        read_file(content)
        return "."
    except Refused as refused:
        return LETTERS[refused.args[0]]


def changed(content, place, other):
    return content[:place] + bytes([other]) + content[place + 1 :]


def vectors():
    """The files of the vectors by name: string constants that begin with the magic bytes."""
    source = re.sub(r"\\\n\s*", "", VECTORS.read_text())
    found = {name: bytes.fromhex(digits) for name, digits in re.findall(r'const (\w+): &str = "([0-9a-f]+)"', source)}
    return {name: content for name, content in found.items() if letter_of(content) == "."}


def constant(name, other, answers):
    rows = [answers[k : k + 64] for k in range(0, len(answers), 64)]
    return f'pub const {name}_{other:02X}: &str = "' + "\\\n    ".join(rows) + '";\n'


def main():
    constants = [
        constant(name, other, "".join(letter_of(changed(content, k, other)) for k in range(len(content))))
        for name, content in vectors().items()
        for other in OTHERS
    ]
    if "--check" not in sys.argv[1:]:
        print("\n".join(constants), end="")
        return 0
    kept = ANSWERS.read_text()
    missing = [text.split(":")[0] for text in constants if text not in kept]
    for name in missing:
        print(f"{ANSWERS.name} differs in {name}")
    print(f"{len(constants)} rows, {len(missing)} differ")
    return 1 if missing or len(constants) != 12 else 0


if __name__ == "__main__":
    sys.exit(main())
