"""What the clocks of a zone show, and when: `zones.c` in Python, with arrays. From the top of the repository, after `rt lib` in
crates/zoned_ffi:

  gcc -shared -o ./libzoned_ffi.so -Wl,--whole-archive crates/zoned_ffi/out/libzoned_ffi.a -Wl,--no-whole-archive,--exclude-libs,liblibc_c.a "$(dirname "$(rt doc)")/c/liblibc_c.a"
  python3 examples/zones.py ./libzoned_ffi.so /usr/share/zoneinfo/America/New_York 1615705200 1615689000 1636248600
"""

import ctypes
import sys
from ctypes import POINTER, byref, c_char, c_char_p, c_int32, c_int64, c_size_t, c_uint32, c_void_p
from pathlib import Path

FILE = 0
SHIFT_FORWARD = 1
EARLIEST = 1
NO_OFFSET = -(2**31)


class Handle(ctypes.Structure):
    """What zoned_ffi.h says of its struct zoned_zone."""

    _fields_ = [("zone", c_void_p)]


class LocalType(ctypes.Structure):
    """What it says of its struct zoned_local_type."""

    _fields_ = [("offset", c_int32), ("is_dst", c_int32), ("abbreviation", c_char * 8)]

    def __str__(self):
        if self.offset == NO_OFFSET:
            return "no offset"
        return f"{self.offset} {self.abbreviation.decode()}{' dst' if self.is_dst else ''}"


class WallClock(ctypes.Structure):
    """What it says of its struct zoned_wall_clock."""

    _fields_ = [
        ("shown", c_int32),
        ("first_offset", c_int32),
        ("last_offset", c_int32),
        ("first", c_int64),
        ("last", c_int64),
    ]

    def __str__(self):
        if self.shown == 0:
            return "never"
        if self.shown == 1:
            return f"once, at {self.first} ({self.first_offset})"
        if self.shown == 2:
            return f"several times, first at {self.first} ({self.first_offset}) and last at {self.last} ({self.last_offset})"
        return "out of range"


class Resolved(ctypes.Structure):
    """What it says of its struct zoned_resolved."""

    _fields_ = [("number", c_uint32), ("offset", c_int32), ("instant", c_int64)]


class Refused(Exception):
    """The number of an error, and what it means."""


class Zones:
    """The shared library."""

    def __init__(self, path):
        self._library = library = ctypes.CDLL(path)
        library.zoned_open.argtypes = [c_uint32, c_char_p, c_size_t, POINTER(Handle)]
        library.zoned_close.argtypes = [POINTER(Handle)]
        library.zoned_close.restype = None
        library.zoned_error_text.argtypes = [c_uint32, c_char_p, c_size_t]
        library.zoned_error_text.restype = c_size_t
        self.types = self._question(library.zoned_zone_types, [], LocalType)
        self.wall_clocks = self._question(library.zoned_zone_wall_clocks, [], WallClock)
        self.instants = self._question(library.zoned_zone_instants, [c_uint32, c_uint32], Resolved)

    def _question(self, function, before, answer):
        function.argtypes = [POINTER(Handle), *before, POINTER(c_int64), c_size_t, POINTER(answer), c_size_t]
        function.restype = c_uint32

        def ask(handle, *given):
            *choice, seconds = given
            count = len(seconds)
            answers = (answer * count)()
            self.expect_ok(function(byref(handle), *choice, (c_int64 * count)(*seconds), count, answers, count))
            return list(answers)

        return ask

    def expect_ok(self, number):
        if number:
            text = ctypes.create_string_buffer(128)
            self._library.zoned_error_text(number, text, len(text))
            raise Refused(f"{number}, {text.value.decode()}")

    def open(self, file):
        """The zone of a TZif file's bytes, for a `with` statement."""
        return Zone(self, self._library, file)


class Zone:
    """A zone that is open. One call at a time may have it."""

    def __init__(self, zones, library, file):
        self._zones, self._library, self._handle = zones, library, Handle()
        zones.expect_ok(library.zoned_open(FILE, file, len(file), byref(self._handle)))

    def __enter__(self):
        return self

    def __exit__(self, *_):
        self._library.zoned_close(byref(self._handle))

    def types(self, instants):
        """What is in force at each Unix second."""
        return self._zones.types(self._handle, instants)

    def wall_clocks(self, locals_):
        """When the zone's clocks show each local time."""
        return self._zones.wall_clocks(self._handle, locals_)

    def instants(self, locals_):
        """The instant of each local time: shifted forward in a gap, the earliest in a fold."""
        return self._zones.instants(self._handle, SHIFT_FORWARD, EARLIEST, locals_)


def main():
    if len(sys.argv) < 3:
        sys.exit(f"usage: {sys.argv[0]} LIBRARY FILE NUMBER ..")
    zones, path = Zones(sys.argv[1]), sys.argv[2]
    file, seconds = Path(path).read_bytes(), [int(number) for number in sys.argv[3:]]
    try:
        with zones.open(file) as zone:
            answers = zip(seconds, zone.types(seconds), zone.wall_clocks(seconds), zone.instants(seconds))
    except Refused as refused:
        sys.exit(f"{path} is rejected: {refused}")
    for second, local_type, clock, taken in answers:
        print(f"instant {second}: {local_type}")
        print(f"wall clock {second}: {clock}")
        if taken.number == 0:
            print(f"taken {second}: {taken.instant} ({taken.offset})")


if __name__ == "__main__":
    main()
