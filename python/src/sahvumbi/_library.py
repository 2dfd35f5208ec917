"""The library: it is loaded here, with its structs, the types of its calls, and its words for errors.

What the calls promise is in crates/zoned_ffi/include/zoned_ffi.h. tests/test_header.py holds the structs,
types and numbers here against that header.
"""

from __future__ import annotations

import ctypes
import platform
from ctypes import c_char, c_char_p, c_int32, c_int64, c_size_t, c_uint32, c_void_p
from pathlib import Path
from typing import Any, Optional

import numpy as np

# Numbers of the header, without `ZONED_` before their names.

#: How bytes are read: `zoned_kind`.
FILE, TEXT, EXTENDED_STRING = range(3)
#: How often a local time is shown: `zoned_shown`.
NEVER, ONCE, SEVERAL_TIMES, OUT_OF_RANGE = range(4)
#: What is taken for a local time in a gap, `zoned_gap`, and for one in a fold, `zoned_fold`.
GAP_REFUSE, GAP_SHIFT_FORWARD, GAP_END, GAP_SHIFT_BACKWARD, GAP_NO_TIME = range(5)
FOLD_REFUSE, FOLD_EARLIEST, FOLD_LATEST, FOLD_NO_TIME = range(4)
#: What calls return: `zoned_number`.
IN_GAP, IN_FOLD, INSTANT_OUT_OF_RANGE = 21, 22, 23
NO_CHANGE = 35
NO_LOCAL_TIME = 37
WIDE_ZONE = 40
#: The offset of an instant at which the zone has none.
NO_OFFSET = -(2**31)

# Structs. A field that is a word of Python has `_` after its name.


class Handle(ctypes.Structure):
    """`zoned_zone`: what the calls keep of an open zone. It is closed with the last reference to it."""

    _fields_ = [("zone", c_void_p)]


class LocalType(ctypes.Structure):
    """`zoned_local_type`: what is in force at an instant."""

    _fields_ = [("offset", c_int32), ("is_dst", c_int32), ("abbreviation", c_char * 8)]


class Change(ctypes.Structure):
    """`zoned_change`: a change from one local time type to another."""

    _fields_ = [("at", c_int64), ("before", LocalType), ("after", LocalType)]


class Span(ctypes.Structure):
    """`zoned_span`: the seconds from one change to the next, and the type in force.

    From the least int64 if no change comes before, until the greatest if none follows."""

    _fields_ = [("from_", c_int64), ("until", c_int64), ("local_type", LocalType)]


class WallClock(ctypes.Structure):
    """`zoned_wall_clock`: how often a local time is shown, with the offsets and the seconds at the first
    and the last time."""

    _fields_ = [
        ("shown", c_int32),
        ("first_offset", c_int32),
        ("last_offset", c_int32),
        ("first", c_int64),
        ("last", c_int64),
    ]


class Resolved(ctypes.Structure):
    """`zoned_resolved`: 0 or why there is no instant, the offset in force there, the instant."""

    _fields_ = [("number", c_uint32), ("offset", c_int32), ("instant", c_int64)]


class Saving(ctypes.Structure):
    """`zoned_saving`: the standard offset, and the amount of daylight saving time."""

    _fields_ = [("standard_offset", c_int64), ("amount", c_int64)]


class Day(ctypes.Structure):
    """`zoned_day`: the local time of a day's midnight, its first second, and that of the next day."""

    _fields_ = [("date", c_int64), ("begin", c_int64), ("end", c_int64)]


def _dtype_of(struct: type[ctypes.Structure]) -> np.dtype[Any]:
    """numpy's type of a struct; an array of `char` is bytes of that length."""
    names, formats, offsets = [], [], []
    for name, kind in struct._fields_:  # type: ignore[misc]
        names.append(name)
        offsets.append(getattr(struct, name).offset)
        if issubclass(kind, ctypes.Structure):
            formats.append(_dtype_of(kind))  # type: ignore[arg-type]
        else:
            formats.append(np.dtype(f"S{kind._length_}" if hasattr(kind, "_length_") else kind))
    size = ctypes.sizeof(struct)
    return np.dtype({"names": names, "formats": formats, "offsets": offsets, "itemsize": size})


LOCAL_TYPE = _dtype_of(LocalType)
CHANGE = _dtype_of(Change)
SPAN = _dtype_of(Span)
WALL_CLOCK = _dtype_of(WallClock)
RESOLVED = _dtype_of(Resolved)

# Calls

_ARRAY: list[Any] = [c_void_p, c_size_t]
_COLUMN: list[Any] = [c_int64, *_ARRAY, *_ARRAY, c_void_p]
_ZONE: list[Any] = [c_void_p]

#: The types of what each call takes. It returns a `zoned_number`.
CALLS: dict[str, list[Any]] = {
    "zoned_open": [c_uint32, c_char_p, c_size_t, c_void_p],
    "zoned_zone_offsets": [*_ZONE, *_ARRAY, *_ARRAY],
    "zoned_zone_types": [*_ZONE, *_ARRAY, *_ARRAY],
    "zoned_zone_wall_clocks": [*_ZONE, *_ARRAY, *_ARRAY],
    "zoned_zone_firsts_at_or_after": [*_ZONE, *_ARRAY, *_ARRAY],
    "zoned_zone_instants": [*_ZONE, c_uint32, c_uint32, *_ARRAY, *_ARRAY],
    "zoned_zone_next_change": [*_ZONE, c_int64, c_void_p],
    "zoned_zone_changes": [*_ZONE, c_int64, c_int64, c_size_t, *_ARRAY, c_void_p],
    "zoned_column_locals": [*_ZONE, *_COLUMN],
    "zoned_column_instants": [*_ZONE, c_uint32, c_uint32, *_COLUMN],
}
#: Calls about one value, or about few rows, with the types of what they take. Callers pass these types themselves.
BRIEF_CALLS: dict[str, list[Any]] = {
    f"zoned_zone_{name}": [*_ZONE, c_int64, c_void_p]
    for name in "day first_at_or_after local_change offset reached span standard_offset type wall_clock".split()
}
BRIEF_CALLS.update({name: CALLS[name] for name in ("zoned_column_locals", "zoned_column_instants")})

PATH = Path(__file__).with_name("libzoned_ffi.so")
# What the library's code needs of a processor, in the words of /proc/cpuinfo.
NEEDED = {"popcnt", "sse4_1", "sse4_2", "ssse3"}
CPU = Path("/proc/cpuinfo")


def must_run_here(machine: str, cpu: str) -> None:
    """Raises ImportError if this processor lacks what the library's code needs."""
    if machine != "x86_64":
        raise ImportError(f"sahvumbi is built for Linux on x86_64, and this is {machine}")
    for line in cpu.splitlines():
        if line.startswith("flags"):
            missing = NEEDED - set(line.split())
            if missing:
                lacks = f"this one lacks {', '.join(sorted(missing))}"
                raise ImportError(f"sahvumbi needs a processor of x86-64-v2: {lacks}")
            return


def _cpu() -> str:
    """Returns what Linux says of the first processor."""
    try:
        with CPU.open() as file:
            return file.read(1 << 13)
    except OSError:
        return ""


def _loaded() -> tuple[ctypes.CDLL, ctypes.PyDLL]:
    """Returns the calls on arrays, and the brief ones, which keep Python's lock.

    Many brief ones come one after another, and if they gave the lock away, another thread would
    take it for thousands of times as long. They have no `argtypes`: converting two addresses to
    `c_void_p` takes as long as a call."""
    must_run_here(platform.machine(), _cpu())
    try:
        library = ctypes.CDLL(str(PATH))
    except OSError as error:
        raise ImportError(f"{PATH} can't be loaded, see python/README.md: {error}") from error
    brief = ctypes.PyDLL(str(PATH))
    for name, arguments in CALLS.items():
        call = getattr(library, name)
        call.argtypes, call.restype = arguments, c_uint32
    for name in BRIEF_CALLS:
        getattr(brief, name).restype = c_uint32
    library.zoned_close.argtypes, library.zoned_close.restype = [c_void_p], None
    library.zoned_fault_position.argtypes = [c_uint32, c_char_p, c_size_t]
    library.zoned_fault_position.restype = c_size_t
    library.zoned_error_text.argtypes = [c_uint32, c_char_p, c_size_t]
    library.zoned_error_text.restype = c_size_t
    return library, brief


LIBRARY, BRIEF = _loaded()
#: The calls about few rows, for more of them: they give the lock away.
LONG_LOCALS, LONG_INSTANTS = LIBRARY["zoned_column_locals"], LIBRARY["zoned_column_instants"]
LONG_LOCALS.restype = LONG_INSTANTS.restype = c_uint32


def position_of(kind: int, data: bytes) -> Optional[int]:
    """Returns how many bytes are in front of the fault of a TZ string or a file; None if it has none."""
    position: int = LIBRARY.zoned_fault_position(kind, data, len(data))
    return None if position == c_size_t(-1).value else position


def words_of(number: int) -> str:
    """Returns what a number that a call returned means, in English."""
    text = ctypes.create_string_buffer(128)
    LIBRARY.zoned_error_text(number, text, len(text))
    return text.value.decode()
