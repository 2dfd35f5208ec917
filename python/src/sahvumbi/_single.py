"""Answers for one value, without an array: a datetime, a date, a number, a datetime64 or a Timestamp; and a zone as a
`datetime.tzinfo`, by PEP 495.

Each function returns None for what it leaves to the calls about columns: another type of value, and each value
without an answer, so that those alone raise errors.
"""

from __future__ import annotations

import sys
from datetime import date, datetime, timedelta, timezone, tzinfo
from functools import lru_cache
from typing import TYPE_CHECKING, Any, Optional

import numpy as np

from ._choice import FOLDS, GAPS
from ._columns import DAY, FIRST_SECOND, GREATEST, LAST_SECOND, SECONDS
from ._containers import EPOCH, NAT, PER_SECOND, LocalTypes
from ._days import Days
from ._library import NEVER, ONCE, OUT_OF_RANGE, SEVERAL_TIMES, Day
from ._native import InForce, NativeZone, TypeOf
from .errors import NO_OFFSET, NoOffsetError

if TYPE_CHECKING:
    from .zone import Zone

EPOCH_OF_UTC = EPOCH.replace(tzinfo=timezone.utc)
#: The number of 1970-01-01 among the days of a `date`.
FIRST_DAY = 719_163
# Local times this far from the ends of the calendar have an instant in it: no offset is as great.
FAR = 2**31


def seconds_of(since: timedelta) -> int:
    """The whole seconds of a time since 1970-01-01 00:00:00."""
    return since.days * DAY + since.seconds


class Counted:
    """What counts units since 1970-01-01 00:00:00: the type of a value, and of its answers."""

    #: How many units make a second, how many one of the value's own, and the least number that is a time.
    per_second, factor, least = 1, 1, NAT

    def local_time(self, count: int) -> Any:
        """A local time."""
        return np.int64(count)

    def instant(self, count: int) -> Any:
        """An instant."""
        return np.int64(count)

    def length(self, seconds: int) -> Any:
        """An offset."""
        return np.int32(seconds)


class OfDatetime64(Counted):
    """datetime64 of a unit."""

    least = NAT + 1

    def __init__(self, unit: str):
        self.factor = SECONDS.get(unit, 1)
        # numpy's types have the units one by one.
        self.unit: Any = "s" if unit in SECONDS else unit
        self.per_second = PER_SECOND[self.unit]

    def local_time(self, count: int) -> Any:
        return np.datetime64(count, self.unit)

    instant = local_time

    def length(self, seconds: int) -> Any:
        return np.timedelta64(seconds, "s")


class OfTimestamp(Counted):
    """A Timestamp of pandas, which is counted in nanoseconds."""

    per_second, least = PER_SECOND["ns"], NAT + 1

    def __init__(self) -> None:
        self.made = sys.modules["pandas"].Timestamp

    def local_time(self, count: int) -> Any:
        return self.made(count, unit="ns")

    def instant(self, count: int) -> Any:
        return self.made(count, unit="ns", tz="UTC")

    def length(self, seconds: int) -> Any:
        return _timedelta_of_pandas(seconds)


# A zone has few offsets, and to look one up takes less time than to make it.
@lru_cache(1 << 10)
def _timedelta_of_pandas(seconds: int) -> Any:
    return sys.modules["pandas"].Timedelta(np.timedelta64(seconds, "s"))


@lru_cache(1 << 10)
def _timedelta(seconds: int) -> timedelta:
    return timedelta(0, seconds)


# To look these up in numpy takes as long as to compare them.
DATETIME64, INT64 = np.datetime64, np.int64
OF_NUMBER = Counted()
OF_UNIT = {(unit, 1): OfDatetime64(unit) for unit in (*PER_SECOND, *SECONDS)}
OF_PANDAS: dict[type, OfTimestamp] = {}


def _counted(value: Any) -> Optional[tuple[Counted, int]]:
    """What a value counts and how much, if it lies in the range of its type."""
    kind = type(value)
    if kind is int:
        return (OF_NUMBER, value) if NAT <= value <= GREATEST else None
    if kind is DATETIME64:
        of_unit = OF_UNIT.get(np.datetime_data(value.dtype))
        if of_unit is None:
            return None
        count = int.from_bytes(value, sys.byteorder, signed=True)
        if count == NAT:
            return None
        count *= of_unit.factor
        return (of_unit, count) if NAT < count <= GREATEST else None
    if kind is INT64:
        return OF_NUMBER, int(value)
    return _counted_by_pandas(value) if kind.__name__ == "Timestamp" else None


def _counted_by_pandas(value: Any) -> Optional[tuple[Counted, int]]:
    """The same of a Timestamp in the years that nanoseconds can count."""
    kind = type(value)
    if kind not in OF_PANDAS:
        pandas = sys.modules.get("pandas")
        if pandas is None or kind is not pandas.Timestamp:
            return None
        OF_PANDAS[kind] = OfTimestamp()
    return (OF_PANDAS[kind], value.value) if 1678 <= value.year <= 2261 else None


def offset(native: NativeZone, instant: Any) -> Any:
    """The offset at an instant, as a timedelta of a datetime and as an int32 of a number."""
    if type(instant) is datetime:
        return _offset_at(native, _since(instant))
    counted = _counted(instant)
    if counted is None:
        return None
    form, count = counted
    found = _seconds_at(native, count // form.per_second)
    return None if found is None else form.length(found)


def local_time(native: NativeZone, instant: Any) -> Any:
    """What clocks show at an instant."""
    if type(instant) is datetime:
        since = _since(instant)
        found = _offset_at(native, since)
        try:
            return None if found is None else EPOCH + (since + found)
        except OverflowError:
            return None
    counted = _counted(instant)
    if counted is None:
        return None
    form, count = counted
    seconds = _seconds_at(native, count // form.per_second)
    if seconds is None:
        return None
    shown = count + seconds * form.per_second
    return form.local_time(shown) if form.least <= shown <= GREATEST else None


def types(native: NativeZone, instant: Any) -> Optional[LocalTypes]:
    """The type of local time at an instant, with its offset as `offset` has it."""
    if type(instant) is datetime:
        since = _since(instant)
        kept = native.in_force(since.days) or native.in_force_near(seconds_of(since))
        found = native.type_at(seconds_of(since)) if kept is None else kept.local_type
        return None if found is None else _types(found, found.offset)
    counted = _counted(instant)
    if counted is None:
        return None
    form, count = counted
    second = count // form.per_second
    kept = native.in_force(second // DAY) or native.in_force_near(second)
    found = native.type_at(second) if kept is None else kept.local_type
    return None if found is None else _types(found, form.length(found.seconds))


def _types(found: TypeOf, offset: Any) -> LocalTypes:
    return LocalTypes(offset, found.is_dst, found.name)  # type: ignore[arg-type]


def instant(native: NativeZone, local: Any, gap: Any, fold: Any) -> Any:
    """The instant of a local time, if clocks show it once, or if a word decides its fold."""
    if type(gap) is not str or type(fold) is not str or gap not in GAPS or fold not in FOLDS:
        return None
    if type(local) is datetime:
        if local.tzinfo is not None:
            return None
        since = local - EPOCH
        kept = native.in_force(since.days) or native.in_force_near_local(seconds_of(since))
        if kept is not None:
            return _utc(since - kept.offset)
        chosen = _chosen(native, seconds_of(since), fold)
        return None if chosen is None else _utc(since - _timedelta(chosen))
    counted = _of_local_time(local)
    if counted is None:
        return None
    form, count = counted
    second = count // form.per_second
    kept = native.in_force(second // DAY) or native.in_force_near_local(second)
    seconds = _chosen(native, second, fold) if kept is None else kept.seconds
    return None if seconds is None else _instant(form, count - seconds * form.per_second)


def start_of_day(native: NativeZone, local: Any) -> Any:
    """The first instant of the day of a date, or of a local time."""
    kind = type(local)
    if kind is date or (kind is datetime and local.tzinfo is None):
        day = local.toordinal() - FIRST_DAY
        kept = native.in_force(day) or native.in_force_near_local(day * DAY)
        if kept is not None:
            return _utc(timedelta(day) - kept.offset)
        first = native.first_instant_of(day * DAY)
        return None if first is None else _utc(timedelta(0, first))
    counted = _of_local_time(local)
    if counted is None:
        return None
    form, count = counted
    day = count // form.per_second // DAY
    kept = native.in_force(day) or native.in_force_near_local(day * DAY)
    first = native.first_instant_of(day * DAY) if kept is None else day * DAY - kept.seconds
    return None if first is None else _instant(form, first * form.per_second)


def _of_local_time(local: Any) -> Optional[tuple[Counted, int]]:
    """What a local time counts and how much, if it has no zone and lies in the calendar, far from its ends."""
    counted = _counted(local)
    if counted is None or getattr(local, "tzinfo", None) is not None:
        return None
    form, count = counted
    return counted if FIRST_SECOND + FAR <= count // form.per_second <= LAST_SECOND - FAR else None


def _instant(form: Counted, count: int) -> Any:
    return form.instant(count) if form.least <= count <= GREATEST else None


def day(native: NativeZone, instant: Any) -> Optional[Days]:
    """The day that an instant lies in."""
    if type(instant) is datetime:
        found = native.day(seconds_of(_since(instant)))
        try:
            return None if found is None else Days(*_datetimes(found))
        except OverflowError:
            return None
    if type(instant) is int and NAT <= instant <= GREATEST:
        found = native.day(instant)
        return None if found is None else Days(*map(np.int64, (found.date, found.begin, found.end)))  # type: ignore[arg-type]
    return None


def _datetimes(found: Day) -> tuple[Any, Any, Any]:
    date, begin, end = (timedelta(0, second) for second in (found.date, found.begin, found.end))
    return EPOCH + date, EPOCH_OF_UTC + begin, EPOCH_OF_UTC + end


def _chosen(native: NativeZone, local: int, fold: str) -> Optional[int]:
    """The offset at which clocks show a local time, if it is one, or if a word decides."""
    clock = native.wall_clock(local)
    shown = clock.shown
    if shown == ONCE or (shown == SEVERAL_TIMES and fold == "earliest"):
        return int(clock.first_offset)
    if shown == SEVERAL_TIMES and fold == "latest":
        return int(clock.last_offset)
    return None


def _seconds_at(native: NativeZone, second: int) -> Optional[int]:
    """The offset at a Unix second, in seconds."""
    kept = native.in_force(second // DAY) or native.in_force_near(second)
    return native.offset_at(second) if kept is None else kept.seconds


def _offset_at(native: NativeZone, since: timedelta) -> Optional[timedelta]:
    """The offset at a time since 1970-01-01 00:00:00 UTC."""
    kept = native.in_force(since.days) or native.in_force_near(seconds_of(since))
    if kept is not None:
        return kept.offset
    found = native.offset_at(seconds_of(since))
    return None if found is None else _timedelta(found)


def _utc(since: timedelta) -> Optional[datetime]:
    """The datetime of UTC at that time since 1970-01-01 00:00:00, or None outside the years 1 to 9999."""
    try:
        return EPOCH_OF_UTC + since
    except OverflowError:
        return None


def _since(instant: datetime) -> timedelta:
    """The time since 1970-01-01 00:00:00 UTC; a datetime without a zone is of UTC."""
    return instant - (EPOCH if instant.tzinfo is None else EPOCH_OF_UTC)


# A zone as a tzinfo


class ZoneTime(tzinfo):
    """The tzinfo of a `Zone`: its offsets, abbreviations and folds, as PEP 495 has them.

    A local time that clocks showed several times is the first of them with `fold=0` and the last with
    `fold=1`. One that they skipped has the offset before the gap with `fold=0`, and the one after it
    with `fold=1`. `dst()` is zero in standard time, and not zero in daylight saving time. A TZif file has
    only a flag for that: the amount is inferred from standard time before and after.
    """

    __slots__ = ("zone", "_in_force", "_in_force_near")

    def __init__(self, zone: Zone):
        self.zone = zone
        self._in_force = zone._native.in_force
        self._in_force_near = zone._native.in_force_near_local

    def _only(self) -> Optional[InForce]:
        """What is in force at a time of day without a date: known if clocks never change."""
        return self.zone._native.only_type()

    @property
    def key(self) -> Optional[str]:
        """The name that the zone was opened by, or None."""
        return self.zone.key

    def utcoffset(self, when: Optional[datetime]) -> Optional[timedelta]:
        """Returns the offset of a local time of the zone; for None, that of all times, or None."""
        if when is None:
            only = self._only()
            return None if only is None else only.offset
        kept = self._in_force(when.toordinal() - FIRST_DAY) or self._in_force_near(_seconds(when))
        if kept is not None:
            return kept.offset
        clock = self.zone._native.wall_clock(_seconds(when))
        if clock.shown == ONCE or clock.shown == SEVERAL_TIMES:
            return timedelta(0, clock.last_offset if when.fold else clock.first_offset)
        return self._type(when).offset

    def tzname(self, when: Optional[datetime]) -> Optional[str]:
        """Returns the abbreviation at a local time of the zone; for None, that of all times, or None."""
        if when is None:
            only = self._only()
            return None if only is None else only.local_type.abbreviation
        kept = self._in_force(when.toordinal() - FIRST_DAY) or self._in_force_near(_seconds(when))
        return self._type(when).abbreviation if kept is None else kept.local_type.abbreviation

    def dst(self, when: Optional[datetime]) -> Optional[timedelta]:
        """Returns what daylight saving time adds to the standard offset at a local time of the zone; for None
        as `utcoffset` does."""
        if when is None:
            only = self._only()
            return None if only is None else only.dst
        kept = self._in_force(when.toordinal() - FIRST_DAY) or self._in_force_near(_seconds(when))
        if kept is not None:
            return kept.dst
        return timedelta(0, self.zone._native.amount_at(self._instant(when)))

    def fromutc(self, when: datetime) -> datetime:
        """Returns what the zone's clocks show at a datetime of UTC that has this tzinfo."""
        if not isinstance(when, datetime):
            raise TypeError(f"fromutc takes a datetime, and not {type(when).__name__}")
        if when.tzinfo is not self:
            raise ValueError("fromutc takes a datetime that has this tzinfo")
        native = self.zone._native
        kept = self._in_force(when.toordinal() - FIRST_DAY)
        if kept is not None:
            return when + kept.offset
        instant = _seconds(when)
        kept = native.in_force_near(instant)
        if kept is not None and self._in_force_near(instant + kept.seconds) is not None:
            return when + kept.offset
        found = _at(native, instant)
        shown = when + found.offset
        is_first = native.wall_clock(instant + found.seconds).first == instant
        return shown if is_first else shown.replace(fold=1)

    def _type(self, when: datetime) -> TypeOf:
        """The type of a local time, by its fold."""
        return _at(self.zone._native, self._instant(when))

    def _instant(self, when: datetime) -> int:
        """The second at which that type is in force."""
        native, local = self.zone._native, _seconds(when)
        clock = native.wall_clock(local)
        if clock.shown == NEVER:
            change: int = native.local_change(local).at
            return change if when.fold else change - 1
        if clock.shown == OUT_OF_RANGE:
            raise NoOffsetError(None, when.replace(tzinfo=None), NO_OFFSET)
        shown: int = clock.last if when.fold else clock.first
        return shown

    def __repr__(self) -> str:
        return f"{self.zone!r}.tzinfo"

    def __str__(self) -> str:
        return self.zone.key or repr(self)

    def __eq__(self, other: object) -> bool:
        """Whether both are of the same zone."""
        return isinstance(other, ZoneTime) and self.zone == other.zone

    def __hash__(self) -> int:
        return hash((ZoneTime, self.zone))

    def __reduce__(self) -> tuple[Any, ...]:
        return _of_zone, (self.zone,)


def _of_zone(zone: Any) -> ZoneTime:
    made: ZoneTime = zone.tzinfo
    return made


def _seconds(when: datetime) -> int:
    """The seconds since 1970-01-01 00:00:00 of a datetime without its zone."""
    return seconds_of(when.replace(tzinfo=None) - EPOCH)


def _at(native: NativeZone, instant: int) -> TypeOf:
    """The type at an instant."""
    found = native.type_at(instant)
    if found is None:
        raise NoOffsetError(None, instant, NO_OFFSET)
    return found
