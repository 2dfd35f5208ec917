"""Reads mutated TZ strings and TZif files by readers of its own, written from POSIX.1 and RFC 8536 and this repository's list of
errors, and compares the number of each error, and where it is, with those of `TransitionRule::parse_tz_string`,
`TimeZone::parse_extended_tz`, `TimeZone::parse_tz_data` and, for strings in white space, `TimeZone::parse_posix_tz`.

A string or a file is a real one in which one to three bytes are put in, left out or replaced, or whose end is cut off. COUNT of
both together are made from SEED, half of them files. The library reads them in a program that is run and not proved. Prints how
many are rejected, and the first that differ. Whether a rule agrees with the last transition is left to the library; if it says
no, the fault must be at the TZ string.
"""

import random
import re
import struct
import sys
import tempfile
from pathlib import Path

import try_tests
from kit import run_unproved

CRATE = "mutated"
# So many at a time: a program that is tried may write 1,048,576 bytes at most.
BATCH = 40_000
PROGRAM = """//! Reads TZ strings and files, each after a byte that says how it is read and two bytes of its length,
//! and writes three bytes for each: the number of its error, and where it is in two digits to base 64,
//! each with 32 added; three spaces if it is accepted.
#![tactic(auto)]

use std::alloc::Global;
use std::io::{BufWriter, Write};
use std::str;
use tz_info::{ParseError, TimeZone, TransitionRule};

fn fault(alloc: Global, kind: u8, bytes: &[u8]) -> Option<ParseError> {
    match kind {
        b'0' => TransitionRule::parse_tz_string(bytes, false).err(),
        b'1' => TransitionRule::parse_tz_string(bytes, true).err(),
        b'2' => TimeZone::parse_posix_tz(alloc, str::from_utf8(bytes).ok()?).err(),
        b'3' => TimeZone::parse_extended_tz(alloc, bytes).err(),
        _ => TimeZone::parse_tz_data(alloc, bytes).err(),
    }
}

fn main(rt: HostRuntime) {
    let Ok(bytes) = zoned_files::read_all(rt.alloc(), rt.stdin()) else {
        return;
    };
    let Ok(mut out) = BufWriter::with_capacity(rt.alloc(), 65536, rt.stdout()) else {
        return;
    };
    let mut left = bytes.as_slice();
    while left.len() >= 3 {
        let (head, behind) = left.split_at(3);
        let (given, rest) = behind.split_at(256 * head[1] as usize + head[2] as usize);
        left = rest;
        let (number, place) = match fault(rt.alloc(), head[0], given) {
            None => (0, 0),
            Some(e) => (e.error.number(), e.position.unwrap_or(4095)),
        };
        let _ = out.write_all(&[32 + number, 32 + (place / 64).min(63) as u8, 32 + (place % 64) as u8]);
    }
    let _ = out.flush();
}
"""
ANSWER = 3
REAL = [
    b"EST5EDT,M3.2.0,M11.1.0", b"HST10", b"UTC0", b"CET-1CEST,M3.5.0,M10.5.0/3", b"<-03>3<-02>,M3.5.0/-2,M10.5.0/-1",
    b"<+0330>-3:30", b"IST-2IDT,M3.4.4/26,M10.5.0", b"NZST-12NZDT,M9.5.0,M4.1.0/3", b"EST5EDT4:30:15,J60/1:59:59,J300/23:00",
    b"AAA-23:30BBB,59/0,365/24", b"abcdefg+001:2:3", b"WGT3WGST,M3.5.0/-167,M10.5.0/+167:59:59", b"EET-2EEST,M3.5.4/24,M10.5.4/24",
]
BYTES = b"0123456789" * 3 + b"+-:/,.<>MJ" * 4 + b"ABCXYZabcxyz ;=\x00\x7f\xc3\xff"
DIGITS, LETTERS = re.compile(rb"\d+"), re.compile(rb"[A-Za-z]*")
NAME = re.compile(rb"[A-Za-z0-9+-]{3,7}")

TYPE, FILE, STRING, END, TAG, NUMBER, LISTS, RULE, OTHER_VERSION, UNSUPPORTED, UTF_8 = 3, 5, 6, 7, 8, 10, 12, 13, 14, 15, 16
# How a string is read: as a rule, or as a zone, with extensions or without. White space around a zone's string is skipped.
PLAIN, EXTENDED, ZONE, EXTENDED_ZONE, BINARY = b"0", b"1", b"2", b"3", b"4"
SPACE = b" \t\f\r"
LEAST = -2**31


class Fault(Exception):
    pass


class Reader:
    """What comes at each place of a string."""

    def __init__(self, text, extended):
        self.text, self.extended, self.place = text, extended, 0

    def next_is(self, byte):
        if self.text[self.place:self.place + 1] == byte:
            self.place += 1
            return True
        return False

    def must_be(self, byte):
        if not self.next_is(byte):
            raise Fault(END if self.place == len(self.text) else TAG, self.place)

    def number(self, most):
        found = DIGITS.match(self.text, self.place)
        if not found or int(found[0]) > most:
            raise Fault(NUMBER, self.place)
        self.place = found.end()
        return int(found[0])

    def name(self):
        begins = self.place
        if self.next_is(b"<"):
            ends = self.text.find(b">", self.place)
            if ends < 0:
                raise Fault(END, len(self.text))
            name, self.place = self.text[self.place:ends], ends + 1
        else:
            found = LETTERS.match(self.text, self.place)
            name, self.place = found[0], found.end()
        return begins, name

    def sign(self):
        return not self.next_is(b"+") and self.next_is(b"-")

    def clock(self, hours):
        begins, numbers = self.place, [self.number(2**31 - 1)]
        while len(numbers) < 3 and self.next_is(b":"):
            numbers.append(self.number(2**31 - 1))
        h, m, s = (numbers + [0, 0])[:3]
        if h > hours or m > 59 or s > 59:
            raise Fault(STRING, begins)
        return 3600 * h + 60 * m + s

    def offset(self):
        east = self.sign()
        seconds = self.clock(23)
        return seconds if east else -seconds

    def day(self):
        if self.next_is(b"M"):
            limits, places = [(1, 12), (1, 5), (0, 6)], []
            for k, limit in enumerate(limits):
                if k > 0:
                    self.must_be(b".")
                places.append((self.place, self.number(255), limit))
        else:
            first = 1 if self.next_is(b"J") else 0
            places = [(self.place, self.number(65535), (first, 365))]
        for place, number, (least, most) in places:
            if not least <= number <= most:
                raise Fault(RULE, place)
        if self.next_is(b"/"):
            if self.extended:
                self.sign()
            self.clock(167 if self.extended else 24)

    def whole(self):
        names = [self.name()]
        standard = self.offset()
        if self.place < len(self.text):
            names.append(self.name())
            comma = self.place
            if self.next_is(b","):
                if standard + 3600 > 86399:
                    raise Fault(STRING, comma)
            else:
                self.rest()
                self.offset()
                self.rest()
                self.must_be(b",")
            self.day()
            self.must_be(b",")
            self.day()
            if self.place < len(self.text):
                raise Fault(STRING, self.place)
        for place, name in names:
            if not NAME.fullmatch(name):
                raise Fault(TYPE, place)

    def rest(self):
        if self.place == len(self.text):
            raise Fault(UNSUPPORTED, self.place)


class FileReader:
    """A file from its first byte to its last (RFC 8536 section 3)."""

    def __init__(self, data):
        self.data, self.end, self.version = data, 0, 0

    def must_have(self, end):
        if len(self.data) < end:
            raise Fault(END, len(self.data))

    def header(self, at, first):
        self.must_have(at + 4)
        if self.data[at:at + 4] != b"TZif":
            raise Fault(FILE, at)
        self.must_have(at + 5)
        self.version = self.data[at + 4]
        if self.version == 0 and not first:
            raise Fault(FILE, at + 4)
        if self.version not in b"\x0023":
            raise Fault(OTHER_VERSION, at + 4)
        self.must_have(at + 44)
        ut, wall, leaps, times, types, names = struct.unpack_from(">6L", self.data, at + 20)
        for bad, place in ((types == 0, 36), (names == 0, 40), (ut not in (0, types), 20), (wall not in (0, types), 24)):
            if bad:
                raise Fault(FILE, at + place)
        return ut, wall, leaps, times, types, names

    def block(self, at, first):
        """The begins of the block's parts and how many records each has, and its end."""
        ut, wall, leaps, times, types, names = self.header(at, first)
        size, place, parts = 4 if first else 8, at + 44, []
        for count, width in ((times, size), (times, 1), (types, 6), (names, 1), (leaps, size + 4), (wall, 1), (ut, 1)):
            parts.append((place, count))
            place += count * width
        self.must_have(place)
        self.end = place
        return size, parts

    def whole(self):
        """Returns the places at which a rule would be at fault that doesn't agree with the last transition."""
        size, parts = self.block(0, True)
        if self.version == 0:
            if self.end < len(self.data):
                raise Fault(FILE, self.end)
        else:
            size, parts = self.block(self.end, False)
        (times, count), (indexes, _), (types, type_count), names, leaps, wall, ut = parts
        for k in range(type_count):
            self.type(types + 6 * k, *names)
        for k in range(ut[1]):
            if self.data[ut[0] + k] == 1 and (k >= wall[1] or self.data[wall[0] + k] == 0):
                raise Fault(FILE, ut[0] + k)
        rule = self.footer() if self.version else None
        for k in range(count):
            if self.data[indexes + k] >= type_count:
                raise Fault(LISTS, indexes + k)
        for k in range(1, count):
            if self.time(size, times, size, k) <= self.time(size, times, size, k - 1):
                raise Fault(LISTS, times + k * size)
        before, last = None, 0
        for k in range(leaps[1]):
            time, correction = self.time(size, leaps[0], size + 4, k), self.number(leaps[0] + k * (size + 4) + size, ">l")
            if abs(correction - last) != 1 or (time < 0 if before is None else time < before + 2419199):
                raise Fault(LISTS, leaps[0] + k * (size + 4))
            before, last = time, correction
        return [rule] if rule is not None and count > 0 else []

    def number(self, at, form):
        return struct.unpack_from(form, self.data, at)[0]

    def time(self, size, begin, step, k):
        return self.number(begin + k * step, ">l" if size == 4 else ">q")

    def type(self, at, names, size):
        offset, dst, place = struct.unpack_from(">lBB", self.data, at)
        if dst > 1:
            raise Fault(FILE, at + 4)
        end = self.data.find(b"\0", names + place, names + size) if place < size else -1
        if end < 0:
            raise Fault(FILE, at + 5)
        if offset == LEAST:
            raise Fault(TYPE, at)
        name = self.data[names + place:end]
        if name and not NAME.fullmatch(name):
            raise Fault(TYPE, at + 5)

    def footer(self):
        footer = self.data[self.end:]
        try:
            footer.decode()
        except UnicodeDecodeError as error:
            raise Fault(UTF_8, self.end + error.start) from error
        if not footer.startswith(b"\n"):
            raise Fault(FILE, self.end)
        if not footer.endswith(b"\n"):
            raise Fault(FILE, len(self.data))
        text = footer.strip(SPACE + b"\n")
        begin = self.end + len(footer) - len(footer.lstrip(SPACE + b"\n"))
        if text[:1] == b":":
            raise Fault(FILE, begin)
        if b"\0" in text:
            raise Fault(FILE, begin + text.index(b"\0"))
        if not text:
            return None
        try:
            Reader(text, self.version == ord("3")).whole()
        except Fault as fault:
            number, place = fault.args
            raise Fault(number, begin + place) from fault
        return begin


def due_of_file(data):
    """What may be answered of a file: the number and the place of its fault."""
    try:
        return [(0, 0)] + [(LISTS, place) for place in FileReader(data).whole()]
    except Fault as fault:
        return [fault.args]


def due(kind, data):
    return due_of_file(data) if kind == BINARY else [read(kind, data)]


def read(kind, text):
    """The number and the place of the string's fault, read as a string of that kind."""
    front = len(text) - len(text.lstrip(SPACE)) if kind == ZONE else 0
    string = text.strip(SPACE) if kind == ZONE else text
    if kind == ZONE and not text:
        return 0, 0
    try:
        Reader(string, kind in (EXTENDED, EXTENDED_ZONE)).whole()
    except Fault as fault:
        number, place = fault.args
        return number, front + place
    return 0, 0


def real_files():
    """Small files of the tz database, and files that are made here: of versions 1 to 3, with leap seconds and indicators."""
    found = [path.read_bytes() for name in ("Africa/Abidjan", "Asia/Kolkata", "Etc/GMT+5", "Pacific/Guam", "America/Panama")
             if (path := Path("/usr/share/zoneinfo") / name).exists()]
    files = [data for data in found if len(data) < 700]
    for version, footer in ((b"\0", None), (b"2", b"\nEST5EDT,M3.2.0,M11.1.0\n"), (b"3", b"\n<-03>3<-02>,M3.5.0/-2,M10.5.0/-1\n"), (b"2", b"\n \n")):
        names = b"EST\0EDT\0A1B2C3D\0"
        types = b"".join(struct.pack(">lBB", *each) for each in ((-18000, 0, 0), (-14400, 1, 4), (3600, 0, 8), (0, 0, 15)))

        def block(size, form):
            times = [k * 15768000 for k in range(1, 6)]
            leaps = [(78796800, 1), (94694401, 2), (126230402, 1)]
            return (b"TZif" + version + bytes(15) + struct.pack(">6L", 4, 4, len(leaps), len(times), 4, len(names))
                    + b"".join(struct.pack(form, time) for time in times) + bytes((1, 0, 1, 2, 0)) + types + names
                    + b"".join(struct.pack(form + "l", *each) for each in leaps) + bytes((0, 1, 1, 0)) + bytes((0, 1, 0, 0)))
        files.append(block(4, ">l") + (block(8, ">q") + footer if footer is not None else b""))
    return files


def mutated_file(chance, files):
    data = bytearray(chance.choice(files))
    second = data.find(b"TZif", 4)
    for _ in range(chance.randint(1, 3)):
        last = chance.random() < 0.7 and second > 0
        place = chance.randrange(min(second, len(data)) if last else 0, len(data) + 1)
        kind = chance.randrange(16)
        if kind == 0:
            del data[place:]
        elif kind == 1:
            del data[place:place + 1]
        elif kind == 2:
            data.insert(place, chance.choice((0, 1, 2, 10, 255)))
        elif kind < 6:
            data[place:place + 1] = bytes([chance.randrange(256)])
        elif kind < 9 and data:
            place = chance.randrange(max(len(data) - 45, 0), len(data))
            data[place:place + 1] = bytes([chance.choice(BYTES)])
        elif kind < 12:
            data[place:place + 1] = bytes([chance.choice((0, 1, 2, 3, 4, 9, 127, 128, 255))])
        else:
            data[place:place + 4] = struct.pack(">L", chance.choice((0, 1, 3, 4, 5, 2**31, 2**32 - 1)))
    return bytes(data)


def mutated(chance):
    text = bytearray(chance.choice(REAL))
    for _ in range(chance.randint(1, 3)):
        place = chance.randrange(len(text) + 1)
        kind = chance.randrange(8)
        if kind == 0:
            del text[place:]
        elif kind < 3:
            del text[place:place + 1]
        elif kind < 5:
            text.insert(place, chance.choice(BYTES))
        else:
            text[place:place + 1] = bytes([chance.choice(BYTES)])
    return bytes(text).replace(b"\n", b"")


def line_of(chance, files):
    """A kind, and a file or a string of it, in white space if that is skipped. A zone's string is UTF-8."""
    if chance.random() < 0.5:
        return BINARY + mutated_file(chance, files)
    kind, text = chance.choice((PLAIN, EXTENDED, ZONE, EXTENDED_ZONE)), mutated(chance)
    if kind == ZONE:
        front, back = (bytes(chance.choices(SPACE, k=chance.choice((0, 0, 1, 3)))) for _ in range(2))
        text = (front + text + back).replace(b"\xc3", b"").replace(b"\xff", b"")
    return kind + text


def answers(lines):
    """What the library says of each line."""
    with tempfile.TemporaryDirectory() as top:
        try_tests.repository(Path(top), [])
        crate = Path(top) / "crates" / CRATE
        (crate / "src").mkdir(parents=True)
        (crate / "src/main.rt").write_text(PROGRAM)
        given = Path(top) / "strings"
        given.write_bytes(b"".join(line[:1] + struct.pack(">H", len(line) - 1) + line[1:] for line in lines))
        _, said = run_unproved(crate, ["tz_info", "zoned_files"], "1200", ["src/main.rt"], given)
    written = re.match(r"[ -~]{%d}" % (ANSWER * len(lines)), said)
    if not written:
        sys.exit(f"no answers to {len(lines)} strings and files\n{said[-2000:]}")
    places = [ord(byte) - 32 for byte in said[:ANSWER * len(lines)]]
    return [(number, 64 * high + low) for number, high, low in zip(places[::3], places[1::3], places[2::3])]


def main(count="1000000", seed="0"):
    chance, files = random.Random(int(seed)), real_files()
    lines = [line_of(chance, files) for _ in range(int(count))]
    wrong = rejected = 0
    said = [answer for k in range(0, len(lines), BATCH) for answer in answers(lines[k:k + BATCH])]
    for line, answer in zip(lines, said):
        allowed = due(line[:1], line[1:])
        rejected += answer != (0, 0)
        if answer not in allowed:
            wrong += 1
            if wrong <= 10:
                print(f"{line[1:]!r} of kind {line[:1].decode()}: error {answer[0]} at {answer[1]}, due {allowed}")
    print(f"{len(lines)} strings and files, {rejected} are rejected, {wrong} differ")
    return 1 if wrong or not rejected else 0
