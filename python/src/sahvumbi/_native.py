"""An open zone, asked about numpy arrays and about single numbers.

No other module hands a zone to the library. The brief calls take numbers as `c_int64`: they have no types of
arguments, whose conversion takes as long as a call. The calls that ask an open zone write nothing to its
handle, so threads may ask one zone at once.
"""

from __future__ import annotations

from ctypes import addressof, byref, c_char, c_int32, c_int64, c_size_t, c_void_p
from datetime import timedelta
from functools import lru_cache, partial
from typing import TYPE_CHECKING, Any, Callable, NamedTuple, Optional

import numpy as np

from . import _library as library
from ._library import (
    BRIEF, CHANGE, IN_FOLD, IN_GAP, INSTANT_OUT_OF_RANGE, LIBRARY, LOCAL_TYPE, LONG_INSTANTS, LONG_LOCALS, NO_CHANGE,
    NO_LOCAL_TIME, NO_OFFSET, RESOLVED, SPAN, WALL_CLOCK, WIDE_ZONE,
)
from .errors import ZoneRefusedError

if TYPE_CHECKING:
    from ._containers import Array

#: What a second may have of a unit, for `local_times` and `instants`.
COLUMN_UNITS = 1, 10**3, 10**6, 10**9


class TypeOf(NamedTuple):
    """A type of local time, with its parts in the forms that answers have."""

    seconds: int
    """The offset."""
    offset: timedelta
    is_dst: np.bool_
    name: np.str_
    """The abbreviation."""
    abbreviation: str


class InForce(NamedTuple):
    """What is in force through some days."""

    seconds: int
    """The offset, which `offset` is too."""
    offset: timedelta
    local_type: TypeOf
    dst: timedelta


class OneChange(NamedTuple):
    """The only change of the clocks within some days."""

    at: int
    """The Unix second from which on `after` is in force."""
    before: InForce
    after: InForce
    first_local: int
    """The first local time that clocks skip or show again."""
    end_local: int
    """The first after those."""


@lru_cache(1 << 10)
def _type_of(offset: int, is_dst: int, abbreviation: bytes) -> TypeOf:
    name = abbreviation.decode()
    return TypeOf(offset, timedelta(0, offset), np.bool_(is_dst), np.str_(name), name)


# Why a row of a column has no local time, or no instant.
ROW_REFUSED = NO_LOCAL_TIME, IN_GAP, IN_FOLD, INSTANT_OUT_OF_RANGE
LEAST, GREATEST = -(2**63), 2**63 - 1
# The first second of the years for which rules answer, and the one after them. Units shorter than
# a second can't count them.
FIRST_OF_RULE, END_OF_RULE = -67_768_100_504_812_800, 67_767_976_170_460_800
# No limit to a count of changes.
MOST = 2**64 - 1
# Rows that one call is asked; changes that it has room for, and seconds: a thousand years. Between
# two calls Python may stop.
ROWS = 1 << 22
ROOM = 2_048
STRETCH = 1_000 * 31_556_952
# Days of a stretch whose type is kept, as a power of two, and days around it in which no clock may
# change: an offset of a narrow zone is less than one. So a local time of the stretch is shown once.
DAYS_OF_STRETCH = 3
SECONDS_OF_STRETCH = 86_400 << DAYS_OF_STRETCH
AROUND = 2 * 86_400
# How many stretches a zone keeps.
KEPT = 1 << 12
# Rows that a brief call is asked. It keeps Python's lock for less than the five milliseconds after which another thread gets it.
FEW = 1 << 14
NANOSECONDS = c_int64(10**9)
# A type without bytes, whose `from_buffer` finds where an array begins.
_NOTHING = c_char * 0
# Where an array of int64 that may be written begins, as a brief call takes it.
_begin: Callable[[Any], Any] = _NOTHING.from_buffer
INT64 = np.dtype(np.int64)
# Seconds between which a stretch is kept: the calendar lies among them, and 64 bits reach far beyond.
FAR = 1 << 50


class _Handle(library.Handle):
    """A handle that is closed with the last reference to it."""

    # The calls are kept here, since names of a module may be gone when Python ends.
    def __del__(self, close: Any = LIBRARY.zoned_close, byref: Any = byref) -> None:
        close(byref(self))


class NativeZone:
    """An open zone. Raises `ZoneRefusedError` if the bytes are none."""

    __slots__ = ("kind", "data", "what", "_zone", "_kept", "_changing", "_is_narrow")

    def __init__(self, kind: int, data: bytes, what: str):
        self.kind, self.data, self.what = kind, data, what
        self._kept: dict[int, Optional[InForce]] = {}
        self._changing: dict[int, OneChange] = {}
        self._is_narrow: Optional[bool] = None
        self._zone = byref(_Handle())
        number = LIBRARY.zoned_open(kind, data, len(data), self._zone)
        if number:
            raise ZoneRefusedError(number, what, library.position_of(kind, data))

    # Instants. Seconds are contiguous, aligned int64 of the machine's byte order, in one dimension.

    def offsets(self, instants: Array) -> Array:
        """The offset at each Unix second, in seconds east of UTC; `NO_OFFSET` if there is none."""
        return self._answered(LIBRARY.zoned_zone_offsets, (), instants, np.int32)

    def types(self, instants: Array) -> Array:
        """The local time type at each Unix second, as `LOCAL_TYPE`."""
        return self._answered(LIBRARY.zoned_zone_types, (), instants, LOCAL_TYPE)

    def local_times(self, per_second: int, instants: Array, answers: Array) -> Optional[int]:
        """Writes the local time of each instant, both counted in units of `1 / per_second` seconds,
        up to the first row that has none, and returns that row.

        Units are those of `COLUMN_UNITS`. The least int64 is no time, and stays."""
        return self._written(LIBRARY.zoned_column_locals, (per_second,), *_rows_of(instants, answers), 0)

    def quick_local_times(self, per_second: c_int64, instants: Array) -> Optional[Array]:
        """Returns the local times of at most `ROWS` instants as `local_times` writes them, or None if a row has none.

        Both are datetime64, and the instants may be written."""
        size = instants.size
        answers, rows = np.empty(size, INT64), c_size_t(size)
        asked, room = _begin(instants.view(INT64)), _begin(answers)
        call = BRIEF.zoned_column_locals if size <= FEW else LONG_LOCALS
        # The last one is for the row that has none, which isn't read.
        return None if call(self._zone, per_second, asked, rows, room, rows, byref(rows)) else answers.view(instants.dtype)

    def quick_instants(self, gap: int, fold: int, local_times: Array) -> Optional[Array]:
        """Returns the instants of at most `ROWS` local times, counted in nanoseconds, as `instants` writes them, or None if
        a row has none.

        Both are datetime64, and the local times may be written."""
        size = local_times.size
        answers, rows = np.empty(size, INT64), c_size_t(size)
        asked, room = _begin(local_times.view(INT64)), _begin(answers)
        call = BRIEF.zoned_column_instants if size <= FEW else LONG_INSTANTS
        number = call(self._zone, gap, fold, NANOSECONDS, asked, rows, room, rows, byref(rows))
        return None if number else answers.view(local_times.dtype)

    # Local times, counted in seconds but for those of `instants`.

    def instants(
        self, gap: int, fold: int, per_second: int, local_times: Array, answers: Array
    ) -> Callable[[int], Optional[int]]:
        """Returns a call that writes the instant that the policies take for each local time, from a row on and up to the
        next one that has none, and returns that row."""
        words = gap, fold, per_second
        return partial(self._written, LIBRARY.zoned_column_instants, words, *_rows_of(local_times, answers))

    def wall_clocks(self, local_times: Array) -> Array:
        """When clocks show each local time, as `WALL_CLOCK`."""
        return self._answered(LIBRARY.zoned_zone_wall_clocks, (), local_times, WALL_CLOCK)

    def resolved(self, gap: int, fold: int, local_times: Array) -> Array:
        """The instant that the choice takes for each local time, as `RESOLVED`."""
        return self._answered(LIBRARY.zoned_zone_instants, (gap, fold), local_times, RESOLVED)

    def first_at_or_after(self, local_times: Array) -> Array:
        """The first second at which clocks show each local time or a later one, as `RESOLVED`."""
        return self._answered(LIBRARY.zoned_zone_firsts_at_or_after, (), local_times, RESOLVED)

    # One instant, one local time

    def in_force(self, day: int) -> Optional[InForce]:
        """What is in force at each instant and at each local time of a day, counted from 1970-01-01,
        and shown once, if clocks don't change within some days; else None."""
        stretch = day >> DAYS_OF_STRETCH
        try:
            return self._kept[stretch]
        except KeyError:
            if len(self._kept) >= KEPT:
                self._kept.clear()
                self._changing.clear()
            found = self._kept[stretch] = self._in_force_through(stretch)
            return found

    def _in_force_through(self, stretch: int) -> Optional[InForce]:
        begin, end = ((at << DAYS_OF_STRETCH) * 86_400 for at in (stretch, stretch + 1))
        if not self.is_narrow() or not -FAR < begin < FAR:
            return None
        before = self._span_of(begin - AROUND)
        if before is None:
            return None
        if before.until >= end + AROUND:
            return self._in_force_by(begin, before)
        after = self._span_of(before.until)
        if after is not None and after.until >= end + AROUND:
            self._changing[stretch] = self._one_change(before, after)
        return None

    def _one_change(self, before: library.Span, after: library.Span) -> OneChange:
        """The change between two spans."""
        at, offsets = after.from_, (before.local_type.offset, after.local_type.offset)
        sides = self._in_force_by(at - 1, before), self._in_force_by(at, after)
        return OneChange(at, *sides, at + min(offsets), at + max(offsets))

    def in_force_near(self, instant: int) -> Optional[InForce]:
        """What is in force at a Unix second for whose day `in_force` is None, if clocks change once within some days."""
        change = self._changing.get(instant // SECONDS_OF_STRETCH)
        if change is None:
            return None
        return change.before if instant < change.at else change.after

    def in_force_near_local(self, local_time: int) -> Optional[InForce]:
        """The same at a local time, if clocks show it once."""
        change = self._changing.get(local_time // SECONDS_OF_STRETCH)
        if change is None:
            return None
        if local_time < change.first_local:
            return change.before
        return change.after if local_time >= change.end_local else None

    def is_narrow(self) -> bool:
        """Whether all offsets of the zone are less than a day."""
        if self._is_narrow is None:
            number = BRIEF.zoned_zone_reached(self._zone, c_int64(0), byref(c_int64()))
            self._is_narrow = number != WIDE_ZONE
        return self._is_narrow

    def only_type(self) -> Optional[InForce]:
        """What is in force at all seconds, if clocks never change; else None."""
        span = self._span_of(0)
        is_whole = span is not None and span.from_ == LEAST and span.until == GREATEST
        return self._in_force_by(0, span) if span is not None and is_whole else None

    def _span_of(self, instant: int) -> Optional[library.Span]:
        """The span of a Unix second, or None if the zone has no type there."""
        span = library.Span()
        return None if BRIEF.zoned_zone_span(self._zone, c_int64(instant), byref(span)) else span

    def _in_force_by(self, instant: int, span: library.Span) -> InForce:
        """What is in force at an instant, by its span."""
        found = span.local_type
        local_type = _type_of(found.offset, found.is_dst, found.abbreviation)
        dst = timedelta(0, self.amount_at(instant))
        return InForce(local_type.seconds, local_type.offset, local_type, dst)

    def first_instant_of(self, local_time: int) -> Optional[int]:
        """The first second at which clocks show a local time or a later one, or None if it lies
        outside the range of years."""
        found = library.Resolved()
        number = BRIEF.zoned_zone_first_at_or_after(self._zone, c_int64(local_time), byref(found))
        self._must_be_answered(number)
        return None if found.number else found.instant

    def offset_at(self, instant: int) -> Optional[int]:
        """The offset at a Unix second, or None."""
        found = c_int32()
        if number := BRIEF.zoned_zone_offset(self._zone, c_int64(instant), byref(found)):
            self._must_be_answered(number)
        offset = found.value
        return None if offset == NO_OFFSET else offset

    def type_at(self, instant: int) -> Optional[TypeOf]:
        """The local time type at a Unix second, or None."""
        found = library.LocalType()
        if number := BRIEF.zoned_zone_type(self._zone, c_int64(instant), byref(found)):
            self._must_be_answered(number)
        offset = found.offset
        return None if offset == NO_OFFSET else _type_of(offset, found.is_dst, found.abbreviation)

    def amount_at(self, instant: int) -> int:
        """The amount of daylight saving time at a Unix second at which the zone has a type."""
        found = library.Saving()
        number = BRIEF.zoned_zone_standard_offset(self._zone, c_int64(instant), byref(found))
        self._must_be_answered(number)
        return int(found.amount)

    def day(self, instant: int) -> Optional[library.Day]:
        """The day that a Unix second lies in, or None if a day begins outside the calendar, or the zone has an
        offset of a day or more."""
        found = library.Day()
        number = BRIEF.zoned_zone_day(self._zone, c_int64(instant), byref(found))
        if number in (INSTANT_OUT_OF_RANGE, WIDE_ZONE):
            return None
        self._must_be_answered(number)
        return found

    def wall_clock(self, local_time: int) -> library.WallClock:
        """When clocks show a local time, counted in seconds."""
        found = library.WallClock()
        if number := BRIEF.zoned_zone_wall_clock(self._zone, c_int64(local_time), byref(found)):
            self._must_be_answered(number)
        return found

    def local_change(self, local_time: int) -> library.Change:
        """The clock change of a local time that clocks skip, or show several times."""
        found = library.Change()
        number = BRIEF.zoned_zone_local_change(self._zone, c_int64(local_time), byref(found))
        self._must_be_answered(number)
        return found

    # Spans and changes

    def span(self, instant: int) -> Array:
        """The span of a Unix second at which the zone has a type, as an array of one `SPAN`."""
        span = np.empty(1, SPAN)
        place = c_void_p(span.ctypes.data)
        self._must_be_answered(BRIEF.zoned_zone_span(self._zone, c_int64(instant), place))
        return span

    def changes(self, begin: int, end: int) -> Array:
        """The changes from the second `begin` on and before the second `end`, as `CHANGE`."""
        found: list[Array] = []
        while True:
            first = self._next_change(begin)
            if first is None or first >= end:
                return np.concatenate(found) if found else np.empty(0, CHANGE)
            begin = min(end, first + STRETCH)
            found.append(self._changes_between(first, begin))

    def _next_change(self, begin: int) -> Optional[int]:
        """The second of the first change from `begin` on, or None."""
        change = np.empty(1, CHANGE)
        # No change comes at the least second: one has a second before it.
        after = max(begin - 1, LEAST)
        number = LIBRARY.zoned_zone_next_change(self._zone, after, change.ctypes.data)
        if number == NO_CHANGE:
            return None
        self._must_be_answered(number)
        return int(change["at"][0])

    def _changes_between(self, begin: int, end: int) -> Array:
        room, count = ROOM, c_size_t()
        while True:
            changes = np.empty(room, CHANGE)
            number = LIBRARY.zoned_zone_changes(
                self._zone, begin, end, MOST, *_array(changes), byref(count)
            )
            self._must_be_answered(number)
            if count.value <= room:
                return changes[: count.value]
            room = count.value

    def _answered(self, call: Any, words: tuple[int, ...], asked: Array, dtype: Any) -> Array:
        """What a call answers to each row of an array: one value of that type."""
        answers: Array = np.empty(asked.size, dtype)
        self._must_be_answered(call(self._zone, *words, *_array(asked), *_array(answers)))
        return answers

    def _written(
        self, call: Any, words: tuple[int, ...], asked: int, answers: int, size: int, begin: int
    ) -> Optional[int]:
        """Has a call write its answers about rows of int64, from a row on and up to the first one that has none, and returns
        that row.

        `asked` and `answers` are where the rows begin."""
        row = c_size_t()
        while begin < size:
            rows, skipped = min(size - begin, ROWS), 8 * begin
            number = call(self._zone, *words, asked + skipped, rows, answers + skipped, rows, byref(row))
            if number in ROW_REFUSED:
                return begin + row.value
            self._must_be_answered(number)
            begin += rows
        return None

    def _must_be_answered(self, number: int) -> None:
        if number:
            raise ZoneRefusedError(number, self.what)


def _rows_of(asked: Array, answers: Array) -> tuple[int, int, int]:
    """Where the rows of two arrays of int64 begin, and how many there are."""
    return _address(asked), _address(answers), asked.size


def _address(array: Array) -> int:
    """Where an array of int64 begins. For one that may be written this takes a third of the time."""
    # Types of older numpy don't have it as a buffer.
    buffer: Any = array
    return addressof(_NOTHING.from_buffer(buffer)) if array.flags.writeable else array.ctypes.data


def _array(array: Array) -> tuple[int, int]:
    """An array as the calls take it: where it is, and how many values it has."""
    return array.ctypes.data, array.size
