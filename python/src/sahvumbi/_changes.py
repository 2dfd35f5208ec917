"""The changes of a zone's clocks in a stretch of time, and what is otherwise in another zone."""

from __future__ import annotations

from datetime import datetime
from typing import TYPE_CHECKING, Any, NamedTuple, Optional, Union

import numpy as np

from ._columns import GREATEST, Column, taken
from ._containers import NAT, Array, SeriesContainer, as_html, frame_of
from ._library import NO_OFFSET
from ._native import NativeZone
from .errors import NO_OFFSET as HAS_NO_OFFSET
from .errors import OUT_OF_RANGE, NoOffsetError, OutOfRangeError

if TYPE_CHECKING:
    import numpy.typing as npt
    import pandas

#: An end of a stretch: seconds since 1970-01-01 00:00:00 UTC, a datetime64 of any unit, a datetime
#: or a Timestamp.
Time = Union[int, "np.integer[Any]", np.datetime64, datetime]


class Changes(NamedTuple):
    """Changes of a zone's clocks, in the order of time: each field has a value for each change."""

    at: npt.NDArray[Any]
    """The first second of the new type: int64 if the ends are numbers, else datetime64[s]."""
    offset_before: npt.NDArray[Any]
    """The offset at the second before it, as `Zone.offsets` has it: seconds, or timedelta64[s]."""
    offset_after: npt.NDArray[Any]
    """The offset at that second."""
    is_dst_before: npt.NDArray[np.bool_]
    """Whether it is daylight saving time at the second before."""
    is_dst_after: npt.NDArray[np.bool_]
    """Whether it is from that second on."""
    name_before: npt.NDArray[np.str_]
    """The abbreviation at the second before, such as EST; empty if the zone has none."""
    name_after: npt.NDArray[np.str_]
    """The abbreviation from that second on."""

    def to_frame(self) -> pandas.DataFrame:
        """Returns a DataFrame with a row for each change; `at` is in UTC if it has times.

        >>> from sahvumbi import Zone
        >>> paris = Zone("Europe/Paris")
        >>> changes = paris.changes(np.datetime64("2021"), np.datetime64("2022"))
        >>> changes.to_frame()[["at", "offset_after", "name_after"]]
                                 at    offset_after name_after
        0 2021-03-28 01:00:00+00:00 0 days 02:00:00       CEST
        1 2021-10-31 01:00:00+00:00 0 days 01:00:00        CET
        """
        return frame_of(self, "at")

    def _repr_html_(self) -> Optional[str]:
        return as_html(self)


class Differences(NamedTuple):
    """Stretches of time in which two zones differ, in order: each field has a value for each."""

    from_: npt.NDArray[Any]
    """The first second: int64 if the ends are numbers, else datetime64[s]."""
    until: npt.NDArray[Any]
    """The first second after the stretch."""
    offset_old: npt.NDArray[Any]
    """The offset of the old zone, as `Zone.offsets` has it: seconds, or timedelta64[s]."""
    offset_new: npt.NDArray[Any]
    """That of the new zone."""
    is_dst_old: npt.NDArray[np.bool_]
    """Whether it is daylight saving time in the old zone."""
    is_dst_new: npt.NDArray[np.bool_]
    """Whether it is in the new zone."""
    name_old: npt.NDArray[np.str_]
    """The abbreviation of the old zone, such as EST; empty if the zone names none."""
    name_new: npt.NDArray[np.str_]
    """That of the new zone."""

    def __bool__(self) -> bool:
        """Returns whether there are any."""
        return self.from_.size > 0

    def to_frame(self) -> pandas.DataFrame:
        """Returns a DataFrame with a row for each stretch; ends are in UTC if they are times."""
        return frame_of(self, "from_", "until")

    def _repr_html_(self) -> Optional[str]:
        return as_html(self)


def of_stretch(native: NativeZone, begin: Time, end: Time) -> Changes:
    """The changes from `begin` on and before `end`."""
    first, last, is_time = ends_of_stretch(begin, end)
    found = native.changes(first, last)
    return Changes(seconds_of(found["at"], is_time), *_by_turns(found["before"], found["after"], is_time))


def _by_turns(before: Array, after: Array, is_time: bool) -> list[Array]:
    """The offsets before and after, the DST flags before and after, and the abbreviations."""
    pairs = zip(_columns_of(before, is_time), _columns_of(after, is_time))
    return [each for pair in pairs for each in pair]



def _columns_of(types: Array, is_time: bool) -> tuple[Array, Array, Array]:
    """The offsets, DST flags and abbreviations of types; offsets are lengths of time or numbers."""
    offsets = types["offset"].astype("m8[s]" if is_time else np.int32)
    return offsets, types["is_dst"] != 0, types["abbreviation"].astype("U7")


def seconds_of(seconds: Array, is_time: bool) -> Array:
    """Seconds as times or as numbers."""
    return seconds.astype("M8[s]" if is_time else np.int64)


def ends_of_stretch(begin: Time, end: Time) -> tuple[int, int, bool]:
    """The first second of a stretch, the first after it, and whether they came as times."""
    first, last = _end("from_", begin), _end("to", end)
    if first.is_time != last.is_time:
        raise TypeError("from_ and to are both numbers of seconds, or both datetime64 or datetime")
    return _second("from_", first), _second("to", last), first.is_time


def _end(name: str, value: Any) -> Column:
    """An end of the stretch, as a column of one row."""
    if isinstance(value, int) and not NAT <= value <= GREATEST:
        raise OutOfRangeError(None, value, OUT_OF_RANGE, "it does not fit int64", name)
    if isinstance(value, str):
        raise TypeError(f"{name} is a text: numpy.datetime64 and pandas.Timestamp read one")
    try:
        column = taken(value, "s.index[0]", may_be_aware=True)
    except OutOfRangeError as error:
        raise OutOfRangeError(None, error.value, error.number, error.words, name) from None
    except TypeError as error:
        raise TypeError(f"{name}: {error}") from None
    if column.container.shape or isinstance(column.container, SeriesContainer):
        raise TypeError(f"{name} is one instant, and no column of them")
    return column


def _second(name: str, end: Column) -> int:
    """The least second that does not come before the end."""
    value = int(end.values[0])
    if end.is_time and value == NAT:
        raise ValueError(f"{name} is NaT")
    return -(-value // end.per_second)


def of_zones(old: NativeZone, new: NativeZone, from_: Time, to: Time) -> Differences:
    """The stretches from `from_` on and before `to` in which the types of two zones differ."""
    begin, end, is_time = ends_of_stretch(from_, to)
    first = np.array([begin] if begin < end else [], np.int64)
    for native in (old, new):
        _must_have_types(native, {"from_": first, "to": first + (end - 1 - begin)})
    changes = [native.changes(min(begin + 1, end), end) for native in (old, new)]
    cuts = np.unique(np.concatenate([first, *(found["at"] for found in changes)]))
    before, after = (
        _types_at(native, first, found, cuts) for native, found in zip((old, new), changes)
    )
    differ = before != after
    until = np.append(cuts[1:], end)[differ]
    types = _by_turns(before[differ], after[differ], is_time)
    return Differences(seconds_of(cuts[differ], is_time), seconds_of(until, is_time), *types)


def _types_at(native: NativeZone, first: Array, changes: Array, seconds: Array) -> Array:
    """The types at seconds, by the one at the first of them and the changes after it."""
    types = np.concatenate([native.types(first), changes["after"]])
    found: Array = types[np.searchsorted(changes["at"], seconds, "right")]
    return found


def _must_have_types(native: NativeZone, ends: dict[str, Array]) -> None:
    for name, second in ends.items():
        if (native.offsets(second) == NO_OFFSET).any():
            raise NoOffsetError(None, int(second[0]), HAS_NO_OFFSET, label=name)
