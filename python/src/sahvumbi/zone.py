"""A zone: how it is opened, and its calls about columns and about stretches of time."""

from __future__ import annotations

import operator
import os
from datetime import date, datetime, timedelta
from typing import Any, Literal, Optional, TypeVar, Union, overload
from zoneinfo import ZoneInfo

from . import _days as days
from . import _lookups as lookups
from . import _plain as plain
from . import _single as single
from ._changes import Changes, Differences, Time, of_stretch, of_zones
from ._choice import chosen, must_have_no_others
from ._columns import taken, taken_days
from ._containers import (
    Array, Failures, Fold, Gap, Labelled, Labels, LocalTypes, Moment, Rows, Single, Spans, Times, WallClocks,
)
from ._days import Days, Step
from ._library import EXTENDED_STRING, FILE, TEXT
from ._localize import localized
from ._names import bytes_of_file, bytes_of_key
from ._native import NativeZone
from ._plain import QUICK, QUICK_INSTANTS
from ._single import ZoneTime

Self = TypeVar("Self", bound="Zone")


class Zone:
    """A time zone, opened by its name, as zoneinfo does it, and asked about whole columns.

    A column is an array of int64 that counts seconds since 1970-01-01 00:00:00, or one of
    datetime64 of any unit; a list of these; or a Series or an Index of pandas, of the same types or
    of Int64. One second, one datetime64, a Timestamp and a datetime are columns of one row. An
    answer has the form of the question and its unit (seconds, if the unit is a minute or more).
    NaT stays NaT. A column is never written, and not copied if it is contiguous, aligned and of the
    machine's byte order.

    If a row has no answer, the call raises an error with the row, its value and why, and no row is
    answered.

    A zone is immutable. It can be pickled (with its bytes, so that it answers alike everywhere),
    compared and hashed, and several threads may ask it at once.

    >>> import numpy as np
    >>> new_york = Zone("America/New_York")
    >>> new_york.to_local(np.array(["2021-03-14T06:59:59", "2021-03-14T07:00:00"], "M8[s]"))
    array(['2021-03-14T01:59:59', '2021-03-14T03:00:00'],
          dtype='datetime64[s]')
    """

    __slots__ = ("_native", "_key", "_made", "__weakref__")

    _native: NativeZone
    _key: Optional[str]
    _made: str

    def __init__(self, key: str):
        self._open(FILE, bytes_of_key(key), key, str(key), f"Zone({str(key)!r})")

    def _open(self, kind: int, data: bytes, what: str, key: Optional[str], made: str) -> None:
        self._native = NativeZone(kind, data, what)
        self._key, self._made = key, made

    @classmethod
    def _of(
        cls: type[Self], kind: int, data: bytes, what: str, key: Optional[str], made: str
    ) -> Self:
        zone = cls.__new__(cls)
        zone._open(kind, data, what, key, made)
        return zone

    @classmethod
    def from_file(cls: type[Self], path: Union[str, os.PathLike[str]]) -> Self:
        """Returns the zone of a TZif file (RFC 8536, versions 1 to 3).

        It reads no more than the file's headers say and a footer of 64 KB, and no pipe or device.
        Raises `ZoneRefusedError` if it is no such file, and OSError if it can't be read.
        """
        name = os.fspath(path)
        return cls._of(FILE, bytes_of_file(path), name, None, f"Zone.from_file({name!r})")

    @classmethod
    def from_bytes(cls: type[Self], data: Union[bytes, bytearray, memoryview]) -> Self:
        """Returns the zone of a TZif file's bytes. Raises `ZoneRefusedError` if they make no zone.

        >>> Zone.from_bytes(b"TZif")
        Traceback (most recent call last):
        ...
        sahvumbi.errors.ZoneRefusedError: 4 bytes: unexpected end of input (error 7) at offset 4
        """
        read = memoryview(data).tobytes()
        what = f"{len(read)} bytes"
        return cls._of(FILE, read, what, None, f"Zone.from_bytes(<{what}>)")

    @classmethod
    def from_text(cls: type[Self], text: str, *, extended: bool = False) -> Self:
        """Returns the zone of a TZ string as in POSIX.1, section 8.3. The empty string is UTC.

        Raises `ZoneRefusedError` if it isn't one. With `extended` the extensions of RFC 8536,
        section 3.3.1, are read, as in the footer of a file: a signed time of day, and hours up to
        167. Otherwise they are errors (10 and 6), and an extended string is never empty.

        >>> Zone.from_text("<+0330>-3:30").offsets([0])
        array([12600], dtype=int32)
        >>> Zone.from_text("XXX3EDT4,0/0,J365/23", extended=True).offsets([0])
        array([-14400], dtype=int32)
        """
        if not isinstance(text, str):
            raise TypeError(f"a TZ string is a str, and not {type(text).__name__}")
        data = str.encode(text, "utf-8", "surrogatepass")
        kind, word = (EXTENDED_STRING, ", extended=True") if extended else (TEXT, "")
        return cls._of(kind, data, text, None, f"Zone.from_text({text!r}{word})")

    @classmethod
    def fixed(cls: type[Self], offset: Union[timedelta, int]) -> Self:
        """Returns the zone of one offset, east of UTC: a timedelta, or a number of seconds.

        Its abbreviation is the offset, as in '+0530'. Raises ValueError unless the offset is a whole
        number of seconds, less than a day either way.

        >>> from datetime import timedelta
        >>> Zone.fixed(timedelta(hours=5, minutes=30)).types([0]).abbreviation
        array(['+0530'], dtype='<U7')
        """
        if isinstance(offset, timedelta):
            seconds, part = divmod(offset, timedelta(seconds=1))
            if part:
                raise ValueError(f"an offset has whole seconds, and {offset!r} hasn't")
        else:
            seconds = operator.index(offset)
        if abs(seconds) >= 86_400:
            raise ValueError(f"an offset is less than a day, and {offset!r} isn't")
        minutes, rest = divmod(abs(seconds), 60)
        digits = f"{minutes // 60:02}{minutes % 60:02}" + f"{rest:02}" * bool(rest)
        east, west = ("-", "+") if seconds < 0 else ("+", "-")
        text = f"<{east}{digits}>{west}{minutes // 60:02}:{minutes % 60:02}:{rest:02}"
        return cls._of(TEXT, text.encode(), text, None, f"Zone.fixed({offset!r})")

    @classmethod
    def from_zoneinfo(cls: type[Self], zone: ZoneInfo) -> Self:
        """Returns the zone of the same name as a `zoneinfo.ZoneInfo`.

        Its file is read again. Raises ValueError if the ZoneInfo has no name.

        >>> from zoneinfo import ZoneInfo
        >>> Zone.from_zoneinfo(ZoneInfo("Europe/Paris"))
        Zone('Europe/Paris')
        """
        if not isinstance(zone, ZoneInfo):
            raise TypeError(f"from_zoneinfo takes a ZoneInfo, and not {type(zone).__name__}")
        if zone.key is None:
            raise ValueError("this ZoneInfo has no key: Zone.from_file reads the file it is of")
        return cls(zone.key)

    @property
    def key(self) -> Optional[str]:
        """The name that the zone was opened by, or None."""
        return self._key

    def __repr__(self) -> str:
        return self._made

    def __eq__(self, other: object) -> bool:
        """Whether both were read from the same bytes in the same way."""
        return isinstance(other, Zone) and self._spelled() == other._spelled()

    def __hash__(self) -> int:
        return hash(self._spelled())

    def __reduce__(self) -> tuple[Any, ...]:
        kind, data = self._spelled()
        return _restored, (type(self), kind, data, self._native.what, self._key, self._made)

    def __dask_tokenize__(self) -> tuple[Any, ...]:
        return "sahvumbi.Zone", *self._spelled()

    def _spelled(self) -> tuple[int, bytes]:
        return self._native.kind, self._native.data

    @property
    def tzinfo(self) -> ZoneTime:
        """The zone as a `datetime.tzinfo`, with the folds of PEP 495.

        A Zone itself is none, since pandas takes each tzinfo that it doesn't know for a fixed offset.

        >>> from datetime import datetime
        >>> new_york = Zone("America/New_York").tzinfo
        >>> print(datetime(2021, 11, 7, 1, 30, fold=1, tzinfo=new_york))
        2021-11-07 01:30:00-05:00
        """
        return ZoneTime(self)

    # Instants

    @overload
    def offsets(self, instants: Rows) -> Array: ...
    @overload
    def offsets(self, instants: Labelled) -> Labelled: ...
    @overload
    def offsets(self, instants: Union[Single, datetime]) -> Any: ...

    def offsets(self, instants: Any) -> Any:
        """Returns the offset in force at each instant, east of UTC.

        They are seconds as int32, or timedelta64[s] for a column of times.

        Times with a zone of their own are the instants that they are in it, and those without are
        times of UTC. Raises `NoOffsetError` at an instant at which the zone has none: before the
        year -2147483646 and after 2147483645, if the zone has a rule of two types.

        >>> Zone("America/New_York").offsets([1_615_705_199, 1_615_705_200])
        array([-18000, -14400], dtype=int32)
        """
        offset = single.offset(self._native, instants)
        if offset is not None:
            return offset
        return lookups.offsets(self._native, taken(instants, "zone.offsets(s.index)", may_be_aware=True))

    @overload
    def to_local(self, instants: Rows) -> Array: ...
    @overload
    def to_local(self, instants: Labelled) -> Labelled: ...
    @overload
    def to_local(self, instants: Moment) -> Moment: ...
    @overload
    def to_local(self, instants: Single) -> Any: ...

    def to_local(self, instants: Any) -> Any:
        """Returns what the zone's clocks show at each instant: local times, which have no zone.

        They are counted as the instants are. Times with a zone of their own are the instants that
        they are in it, and those without are times of UTC. Raises `NoOffsetError` as `offsets`
        does, and `OutOfRangeError` if a local time doesn't fit the column's type.

        >>> from datetime import datetime
        >>> Zone("Asia/Kolkata").to_local(datetime(2021, 7, 1, 12))
        datetime.datetime(2021, 7, 1, 17, 30)
        """
        local_time = QUICK.get(type(instants), single.local_time)(self._native, instants)
        if local_time is not None:
            return local_time
        column = taken(instants, "zone.to_local(s.index)", may_be_aware=True)
        plain.learn(type(instants), column)
        return column.local_times(lookups.local_times(self._native, column))

    @overload
    def types(self, instants: Union[Rows, Single, datetime]) -> LocalTypes: ...
    @overload
    def types(self, instants: Labels) -> Any: ...

    def types(self, instants: Any) -> Any:
        """Returns the offset, the DST flag and the abbreviation at each instant: a `LocalTypes`.

        Of a Series or an Index it is a DataFrame with its labels. Instants and errors are as in
        `offsets`.

        >>> types = Zone("America/New_York").types([1_615_705_199, 1_615_705_200])
        >>> types.is_dst
        array([False,  True])
        >>> types.abbreviation
        array(['EST', 'EDT'], dtype='<U7')
        """
        local_type = single.types(self._native, instants)
        if local_type is not None:
            return local_type
        return lookups.types(self._native, taken(instants, "zone.types(s.index)", may_be_aware=True))

    # Local times

    @overload
    def localize(
        self, local_times: Times, gap: Gap = ..., fold: Fold = ..., *, is_dst: Any = ...,
        offset: Any = ..., errors: Literal["collect"], tz: Any = ...,
    ) -> tuple[Any, Failures]: ...
    @overload
    def localize(
        self, local_times: Rows, gap: Gap = ..., fold: Fold = ..., *, is_dst: Any = ...,
        offset: Any = ..., by: Any = ..., errors: Literal["raise"] = ...,
    ) -> Array: ...
    @overload
    def localize(
        self, local_times: Labelled, gap: Gap = ..., fold: Fold = ..., *, is_dst: Any = ...,
        offset: Any = ..., by: Any = ..., errors: Literal["raise"] = ..., tz: Any = ...,
    ) -> Labelled: ...
    @overload
    def localize(
        self, local_times: Moment, gap: Gap = ..., fold: Fold = ..., *, is_dst: Any = ...,
        offset: Any = ..., errors: Literal["raise"] = ..., tz: Any = ...,
    ) -> Moment: ...
    @overload
    def localize(
        self, local_times: Single, gap: Gap = ..., fold: Fold = ..., *, is_dst: Any = ...,
        offset: Any = ..., errors: Literal["raise"] = ...,
    ) -> Any: ...

    def localize(
        self,
        local_times: Any,
        gap: Literal["raise", "shift", "after", "shift_back", "before", "nat"] = "raise",
        fold: Union[Literal["raise", "earliest", "latest", "nat", "infer"], Rows, Labels, int] = "raise",
        *,
        is_dst: Any = None,
        offset: Any = None,
        by: Any = None,
        errors: Literal["raise", "collect"] = "raise",
        tz: Any = "UTC",
        **others: Any,
    ) -> Any:
        """Returns the instant at which the zone's clocks show each local time.

        Instants are counted as the local times are; those of pandas' types and of datetime are in
        the zone `tz`, which is UTC unless it is given: a name, a Zone with a name, a ZoneInfo or a
        fixed offset. A name becomes a ZoneInfo.

        `gap` says what to return for a local time that clocks skipped: 'raise' a `GapError`;
        'shift' the instant by the offset before the gap, as on a clock that was not set forward;
        'after' the first instant after the gap, at which clocks go on; 'before' the last one before
        it that the column's unit can count; 'shift_back' the instant by the offset after the gap, as
        on a clock that was set forward already; 'nat' NaT.

        `fold` says what to return for one that clocks showed several times: 'raise' a `FoldError`;
        'earliest' the first instant that shows it; 'latest' the last one; 'nat' NaT; 'infer' the
        instant that the order of rows decides. For 'infer' neighbouring rows in one fold are in order
        of time. If exactly one of them shows an earlier time than the row above or, if none does,
        exactly one repeats it, that row and those after it are last instants, and those above it first
        ones. Otherwise `FoldError` is raised. Rows outside folds and NaT have no part in the order.
        `by`, a column of keys, makes it the order of the rows of each key.

        A second column can decide folds row by row: `fold` as an array of 0 for the
        first and 1 for the last instant; `is_dst`, the DST flag; or `offset`, in seconds or as
        timedelta64. It is read only for local times that were shown several times, and `FoldError`
        is raised if it doesn't say which instant is meant.

        Raises `OutOfRangeError` if the local time or the instant lies outside the years -262143 to
        262142, or if the instant doesn't fit the column's type. With `errors='collect'` rows
        without an answer become NaT, and the call returns the answers and their `Failures`.
        'nat' and 'collect' take times or Int64, since int64 has no NaT.

        >>> import numpy as np
        >>> new_york = Zone("America/New_York")
        >>> skipped = np.array(["2021-03-14T02:30", "2021-07-01T12:00"], "M8[s]")
        >>> new_york.localize(skipped)  # doctest: +ELLIPSIS
        Traceback (most recent call last):
        ...
        sahvumbi.errors.GapError: zone.localize: row 0: 2021-...: the local time lies in a gap (error 21); ...
        >>> new_york.localize(skipped, gap="shift")
        array(['2021-03-14T07:30:00', '2021-07-01T16:00:00'],
              dtype='datetime64[s]')
        >>> new_york.localize(skipped, gap="after")
        array(['2021-03-14T07:00:00', '2021-07-01T16:00:00'],
              dtype='datetime64[s]')
        >>> twice = np.array(["2021-11-07T01:10", "2021-11-07T01:50", "2021-11-07T01:20"], "M8[s]")
        >>> new_york.localize(twice, fold="infer")
        array(['2021-11-07T05:10:00', '2021-11-07T05:50:00',
               '2021-11-07T06:20:00'], dtype='datetime64[s]')
        >>> new_york.localize(twice, is_dst=[True, True, False])
        array(['2021-11-07T05:10:00', '2021-11-07T05:50:00',
               '2021-11-07T06:20:00'], dtype='datetime64[s]')
        """
        must_have_no_others("Zone.localize", others)
        if is_dst is None and offset is None and by is None and errors == "raise" and tz == "UTC":
            instant = QUICK_INSTANTS.get(type(local_times), single.instant)(self._native, local_times, gap, fold)
            if instant is not None:
                return instant
        column = taken(local_times, "zone.localize(s.index)", may_be_aware=False)
        plain.learn_instants(type(local_times), column)
        choice = chosen(column, gap, fold, is_dst, offset, by, errors, shown_in(tz))
        return choice.answer(column, localized(self._native, column, choice))

    @overload
    def explain(self, local_times: Union[Rows, Single, datetime]) -> WallClocks: ...
    @overload
    def explain(self, local_times: Labels) -> Any: ...

    def explain(self, local_times: Any) -> Any:
        """Returns how often, and when, the zone's clocks show each local time: a `WallClocks`.

        `shown` is 0 for never, 1 for once, 2 for several times, 3 for out of range and -1 for NaT. Of
        a local time that clocks skipped, `first` and `last` are the instant of the change that skips
        it, with the offsets before and after it. Of a Series or an Index the answer is a DataFrame
        with its labels, and a column for each field of `WallClocks`. Fields without a time are NaT,
        None for a datetime, or 0 in columns of int64. Raises `OutOfRangeError` if an instant doesn't
        fit the column's type.

        >>> explained = Zone("America/New_York").explain([1_615_689_000, 1_636_248_600])
        >>> explained.shown
        array([0, 2], dtype=int8)
        >>> explained.first
        array([1615705200, 1636263000])
        >>> explained.last_offset
        array([-14400, -18000], dtype=int32)
        """
        return lookups.explained(self._native, taken(local_times, "zone.explain(s.index)", may_be_aware=False))

    # Days

    @overload
    def start_of_day(self, dates: Rows) -> Array: ...
    @overload
    def start_of_day(self, dates: Labelled) -> Labelled: ...
    @overload
    def start_of_day(self, dates: Moment) -> Moment: ...
    @overload
    def start_of_day(self, dates: Union[Single, date]) -> Any: ...

    def start_of_day(self, dates: Any) -> Any:
        """Returns the first instant of the day of each date, or local time.

        It is the first at which a clock of the zone shows midnight or a later time: most often that
        of midnight, and in a gap the end of the gap. A day that clocks skipped begins when the
        next one begins. A column of numbers has seconds, and a date is one local time. Raises
        `OutOfRangeError` outside the years -262143 to 262142, and if an instant doesn't fit the
        column's type.

        >>> import numpy as np
        >>> Zone("America/Toronto").start_of_day(np.array(["1919-03-30", "1919-03-31"], "M8[D]"))
        array(['1919-03-30T05:00:00', '1919-03-31T04:30:00'],
              dtype='datetime64[s]')
        """
        start = single.start_of_day(self._native, dates)
        if start is not None:
            return start
        column = taken_days(dates, "zone.start_of_day(s.index)")
        return column.instants(days.starts(self._native, column))

    @overload
    def end_of_day(self, dates: Rows) -> Array: ...
    @overload
    def end_of_day(self, dates: Labelled) -> Labelled: ...
    @overload
    def end_of_day(self, dates: Moment) -> Moment: ...
    @overload
    def end_of_day(self, dates: Union[Single, date]) -> Any: ...

    def end_of_day(self, dates: Any) -> Any:
        """Returns the last instant of the day of each date, or local time.

        It is the last of the column's unit before the next day begins: a second, or a nanosecond of
        a Series or a Timestamp. A day that clocks skipped has none: NaT, or a `GapError` if the
        column has no NaT. An interval is simpler with its exclusive end, as `day` has it. Dates and
        other errors are as in `start_of_day`.

        >>> import pandas
        >>> Zone("Pacific/Apia").end_of_day(pandas.Series(pandas.to_datetime(["2011-12-29"])))
        0   2011-12-30 09:59:59.999999999+00:00
        dtype: datetime64[ns, UTC]
        """
        column = taken_days(dates, "zone.end_of_day(s.index)")
        return column.instants(days.ends(self._native, column))

    @overload
    def day(self, instants: Union[Rows, Single, datetime]) -> Days: ...
    @overload
    def day(self, instants: Labels) -> Any: ...

    def day(self, instants: Any) -> Any:
        """Returns the day that each instant lies in, as `Days`: `date`, `start`, and `until`, the next start.

        Each instant lies in one day, from the start of it on and before `until`, the start of the
        next. A clock that was set back over midnight shows the date before again, but stays in the
        later day. Of a Series or an Index the answer is a DataFrame with its labels.
        Raises `OutOfRangeError` as `start_of_day` does.

        >>> day = Zone("America/St_Johns").day(1_130_640_000)
        >>> print(day.date, day.start, day.until)
        1130630400 1130639400 1130729400
        """
        day = single.day(self._native, instants)
        if day is not None:
            return day
        return days.days(self._native, taken(instants, "zone.day(s.index)", may_be_aware=True))

    @overload
    def floor(self, instants: Rows, step: Step) -> Array: ...
    @overload
    def floor(self, instants: Labelled, step: Step) -> Labelled: ...
    @overload
    def floor(self, instants: Moment, step: Step) -> Moment: ...
    @overload
    def floor(self, instants: Single, step: Step) -> Any: ...

    def floor(
        self,
        instants: Any,
        step: Union[Literal["D", "2D", "W", "MS", "QS", "YS", "h", "15min", "30s", "500ms"], str, timedelta],
        **others: Any,
    ) -> Any:
        """Returns the first instant of the local day, hour or other step that each instant lies in.

        `step` is 'D', the day as `day` has it, '2D', a number of days that are counted from 1970-01-01,
        'W', a week that begins on Monday, 'MS', 'QS' or 'YS', a month, quarter or year; or a whole
        part of a day ('h', '15min', '30s') or of a second ('500ms'); or such a timedelta. A step of
        days begins with its first day, and a shorter one when clocks show a multiple of it, or
        another step than just before. Raises `OutOfRangeError` as `start_of_day` does.

        >>> import numpy as np
        >>> times = np.array(["2021-11-07T05:40", "2021-11-07T06:20"], "M8[m]")
        >>> Zone("America/New_York").floor(times, "h")
        array(['2021-11-07T05:00:00', '2021-11-07T06:00:00'],
              dtype='datetime64[s]')
        """
        must_have_no_others("Zone.floor", others)
        column = taken(instants, "zone.floor(s.index, step)", may_be_aware=True)
        return column.instants(days.floored(self._native, column, step))

    @overload
    def ceil(self, instants: Rows, step: Step) -> Array: ...
    @overload
    def ceil(self, instants: Labelled, step: Step) -> Labelled: ...
    @overload
    def ceil(self, instants: Moment, step: Step) -> Moment: ...
    @overload
    def ceil(self, instants: Single, step: Step) -> Any: ...

    def ceil(
        self,
        instants: Any,
        step: Union[Literal["D", "2D", "W", "MS", "QS", "YS", "h", "15min", "30s", "500ms"], str, timedelta],
        **others: Any,
    ) -> Any:
        """Returns the first instant, from each on, at which a local day, hour or other step begins.

        Steps and errors are those of `floor`.

        >>> import numpy as np
        >>> times = np.array(["2021-11-07T05:40", "2021-11-07T06:00"], "M8[m]")
        >>> Zone("America/New_York").ceil(times, "h")
        array(['2021-11-07T06:00:00', '2021-11-07T06:00:00'],
              dtype='datetime64[s]')
        """
        must_have_no_others("Zone.ceil", others)
        column = taken(instants, "zone.ceil(s.index, step)", may_be_aware=True)
        return column.instants(days.ceiled(self._native, column, step))

    @overload
    def round(self, instants: Rows, step: Step) -> Array: ...
    @overload
    def round(self, instants: Labelled, step: Step) -> Labelled: ...
    @overload
    def round(self, instants: Moment, step: Step) -> Moment: ...
    @overload
    def round(self, instants: Single, step: Step) -> Any: ...

    def round(
        self,
        instants: Any,
        step: Union[Literal["D", "2D", "W", "MS", "QS", "YS", "h", "15min", "30s", "500ms"], str, timedelta],
        **others: Any,
    ) -> Any:
        """Returns the nearest instant at which a local day, hour or other step begins.

        Of two that are equally near it is the later one. Steps and errors are those of `floor`.

        >>> import numpy as np
        >>> times = np.array(["2021-03-14T16:30", "2021-03-14T16:29"], "M8[m]")
        >>> Zone("America/New_York").round(times, "D")  # a day of 23 hours, from 05:00 to 04:00 UTC
        array(['2021-03-15T04:00:00', '2021-03-14T05:00:00'],
              dtype='datetime64[s]')
        """
        must_have_no_others("Zone.round", others)
        column = taken(instants, "zone.round(s.index, step)", may_be_aware=True)
        return column.instants(days.rounded(self._native, column, step))

    # Spans and changes

    @overload
    def spans(self, instants: Union[Rows, Single, datetime]) -> Spans: ...
    @overload
    def spans(self, instants: Labels) -> Any: ...

    def spans(self, instants: Any) -> Any:
        """Returns the local time type in force at each instant, since when and until when.

        The answer is a `Spans`, or a DataFrame for a Series or an Index. A span goes from one clock
        change on to the next, or to the first second without a type; without such an end that the column's
        unit can count, it is NaT (None for a datetime), or the least or the greatest int64. Errors are
        raised as by `offsets`, and `OutOfRangeError` if an end doesn't fit the column's type.

        >>> span = Zone("America/New_York").spans(1_609_459_200)
        >>> print(span.abbreviation, span.from_, span.until)
        EST 1604210400 1615705200
        """
        return lookups.spans(self._native, taken(instants, "zone.spans(s.index)", may_be_aware=True))

    # Changes

    def changes(self, from_: Time, to: Time) -> Changes:
        """Returns the changes of the zone's clocks from `from_` on and before `to`.

        Each is a second at which another type of local time is in force than at the second before
        it: another offset, DST flag or abbreviation. A transition of the file that changes nothing
        does not count, and what a rule does after the last transition does. There are none if `to`
        is `from_` or comes before it.

        The ends are both numbers of seconds since 1970-01-01 00:00:00 UTC, or both times: those
        without a zone are of UTC. Raises ValueError if one is NaT (TypeError if that has no unit),
        and `OutOfRangeError` if one doesn't fit 64 bits of seconds. A rule has some two changes in
        a year, and those of all 64 bits are 8.6 billion, so ask for a range short
        enough to list.

        >>> import numpy as np
        >>> new_york = Zone("America/New_York")
        >>> changes = new_york.changes(np.datetime64("2021-01-01"), np.datetime64("2022-01-01"))
        >>> changes.at
        array(['2021-03-14T07:00:00', '2021-11-07T06:00:00'],
              dtype='datetime64[s]')
        >>> changes.name_after
        array(['EDT', 'EST'], dtype='<U7')
        >>> new_york.changes(1_609_459_200, 1_640_995_200).offset_after
        array([-14400, -18000], dtype=int32)
        """
        return of_stretch(self._native, from_, to)

    def differences(self, new: Zone, from_: Time, to: Time) -> Differences:
        """Returns the stretches from `from_` on and before `to` in which another zone differs.

        It differs while it has another local time type: another offset, DST flag or abbreviation.
        In a stretch each zone has one type, and no stretch can be longer. `self` is the old zone,
        such as that of an older tz database. Ends are as in `changes`, and `NoOffsetError` is
        raised if a zone has no type at one of them.

        >>> old = Zone.from_text("EST5EDT,M4.1.0,M10.5.0")
        >>> found = old.differences(Zone("America/New_York"), 1_609_459_200, 1_640_995_200)
        >>> found.from_
        array([1615705200, 1635660000])
        >>> found.offset_new - found.offset_old
        array([3600, 3600], dtype=int32)
        """
        return of_zones(self._native, native_of(new), from_, to)


def native_of(zone: Any) -> NativeZone:
    """Returns the open zone of a Zone. Raises TypeError for anything else."""
    if not isinstance(zone, Zone):
        raise TypeError(f"a {type(zone).__name__} is no Zone")
    return zone._native


def shown_in(tz: Any) -> Any:
    """Returns the name of a Zone, in which instants are shown; anything else as it is."""
    if not isinstance(tz, Zone):
        return tz
    if tz.key is None:
        raise ValueError(f"tz= is a zone with a name, and {tz!r} has none")
    if bytes_of_key(tz.key) != tz._spelled()[1]:
        here = f"this machine's tz database has another zone of that name: tz={tz.key!r} takes it"
        raise TypeError(f"tz={tz!r} can't be shown, since {here}")
    return tz.key


def _restored(kind: type[Self], *opened: Any) -> Self:
    """Returns a zone that was pickled: it goes with its bytes, so all readers answer alike."""
    return kind._of(*opened)
