"""Columns of time: what users hand over as int64 in one dimension, and answers as they gave it. Each other type is a
TypeError that says what to do.

A column counts units since 1970-01-01 00:00:00: seconds in an array of integers, and the unit of
the type in one of datetime64. Units longer than a second become seconds, since offsets are counted
in seconds.
"""

from __future__ import annotations

import sys
from datetime import date, datetime, time, timedelta, timezone
from functools import cached_property
from typing import Any, Iterator, Literal, Optional

import numpy as np

from ._arrow import array_of, is_arrow, values_of
from ._containers import (
    EPOCH, LENGTHS, NAT, PER_SECOND, TIMES, Array, ArrayContainer, ArrowContainer, ArrowIndexContainer,
    ArrowSeriesContainer, DatetimeContainer, IndexContainer, SeriesContainer, TimestampContainer,
)
from ._native import COLUMN_UNITS
from .errors import OUT_OF_RANGE, OutOfRangeError, RowError

GREATEST = int(np.iinfo(np.int64).max)
# The first and the last second of the calendar, which has the years -262143 to 262142.
FIRST_SECOND, LAST_SECOND = -8_334_601_228_800, 8_210_266_876_799
# Rows that one call is asked: what a block needs stays in the processor's cache.
BLOCK = 1 << 16
DAY = 86_400
NO_ROWS = np.empty(0, np.intp)
# So few numbers Python compares before numpy has begun.
FEW = 32

SECONDS = {"m": 60, "h": 3_600, "D": 86_400, "W": 604_800}
# Numbers of months and years that numpy turns into seconds without leaving 64 bits.
MOST = {"M": 12 * 292_277_000_000, "Y": 292_277_000_000}

INT64 = np.dtype(np.int64)
#: The types of numpy that columns have as they are, and their units.
UNITS: dict[Any, Optional[str]] = {dtype: unit for unit, dtype in TIMES.items()}
UNITS[INT64] = None
#: The unit of a type that isn't one of them.
NO_UNIT = "none"

COLUMNS = "an array or a list of int64 or datetime64, a Series, an Index and a datetime are"


def extremes(values: Array) -> tuple[int, int]:
    """Returns the least and the greatest number of an array that has one."""
    if values.size <= FEW:
        numbers: Any = values.tolist()
        return min(numbers), max(numbers)
    return int(values.min()), int(values.max())


class Column:
    """A column of instants or of local times.

    `values` count units, of which a second has `per_second`. `is_time` says whether they came as
    times, and `has_nat` whether the least int64 is NaT, and no number like the others. `places`
    has the place of each row in the column that this one is a part of.
    """

    def __init__(
        self,
        values: Array,
        unit: Optional[str],
        container: ArrayContainer,
        places: Optional[Array] = None,
    ):
        self.values, self.unit, self.container, self.places = values, unit, container, places
        # The call that the column was handed to, which errors name.
        self.call: Optional[str] = None
        self.per_second = PER_SECOND[unit or "s"]
        self.is_time = unit is not None
        self.has_nat = self.is_time if container.has_nat is None else container.has_nat

    def __len__(self) -> int:
        return self.values.size

    def has_least(self) -> bool:
        """Returns whether a row has the least int64."""
        return self.values.size > 0 and int(self.values.min()) == NAT

    def fits_calls(self) -> bool:
        """Returns whether the calls for C that count in units take the column as it is."""
        # They take the least int64 for no time, which is a number in a column without NaT.
        return self.per_second in COLUMN_UNITS and (self.has_nat or not self.has_least())

    def ends(self) -> tuple[int, int]:
        """Returns the least and the greatest second in which a row lies; 0 if no row has a time."""
        values = self.values
        if self.has_nat and self.has_least():
            values = values[values != NAT]
        if not values.size:
            return 0, 0
        least, greatest = extremes(values)
        return least // self.per_second, greatest // self.per_second

    def counts_within(self, first: int, last: int) -> bool:
        """Returns whether its unit counts no second before `first` and none after `last`."""
        return first <= NAT // self.per_second and GREATEST // self.per_second <= last

    def lies_in(self, first: int, last: int) -> bool:
        """Returns whether all rows lie in the seconds from `first` to `last`, which have 0."""
        if self.counts_within(first, last):
            return True
        least, greatest = self.ends()
        return first <= least and greatest <= last

    def blocks(self, row: int = 0) -> Iterator[Block]:
        """The blocks from a row on."""
        for start in range(row, self.values.size, BLOCK):
            yield Block(self, start)

    def part(self, places: Array) -> Column:
        """Returns the column of these rows."""
        mine = places if self.places is None else self.places[places]
        part = Column(self.values[places], self.unit, self.container, mine)
        part.call = self.call
        return part

    # Errors

    def place(self, row: int) -> int:
        return int(row if self.places is None else self.places[row])

    def error(
        self, kind: type[RowError], row: int, number: int, words: Optional[str] = None
    ) -> RowError:
        value = self.values[row]
        shown = value.astype(f"M8[{self.unit}]") if self.is_time else int(value)
        place = self.place(row)
        error = kind(self.container.row(place), shown, number, words, self.container.label(place))
        error.call = self.call
        return error

    @property
    def misfit_words(self) -> str:
        return f"the answer does not fit {f'datetime64[{self.unit}]' if self.is_time else 'int64'}"

    def misfit(self, row: int) -> RowError:
        return self.error(OutOfRangeError, row, OUT_OF_RANGE, self.misfit_words)

    # Answers

    def times_of(self, values: Array) -> Array:
        """Some values as numbers or as times, in one dimension."""
        return values.view(TIMES[self.unit]) if self.unit else values

    def local_times(self, values: Array) -> Any:
        """The answer of local times, counted as the question is."""
        return self._times(values, None)

    def instants(self, values: Array, zone: Any = "UTC") -> Any:
        """The answer of instants; those of pandas' types and of datetime are in a zone."""
        if zone != "UTC":
            self._must_be_shown(values, zone)
        return self._times(values, zone)

    def _must_be_shown(self, values: Array, zone: Any) -> None:
        """Raises TypeError if the answer has no zone, and at a row that pandas would show wrong in it."""
        if not self.is_time or type(self.container) is ArrayContainer:
            raise TypeError("tz= is for a datetime and for times of pandas: an array and numbers have no zone")
        times = values[values != NAT]
        for instant in extremes(times) if times.size else ():
            shown = _shown_at(instant // self.per_second, zone) * self.per_second
            if not NAT < shown <= GREATEST - self.per_second:
                row, words = int((values == instant).argmax()), "its instant can't be shown in tz="
                raise self.error(OutOfRangeError, row, OUT_OF_RANGE, words)

    def _times(self, values: Array, zone: Any) -> Any:
        try:
            return self.container.times(values, self.unit, zone)
        except OverflowError:
            words = "the answer does not fit datetime"
            raise self.error(OutOfRangeError, 0, OUT_OF_RANGE, words) from None

    @property
    def lengths_per_second(self) -> int:
        """How many units of a length of time, as answers have it, make a second."""
        return PER_SECOND[self.container.length_unit] if self.is_time else 1

    def lengths(self, lengths: Array, is_nat: Optional[Array]) -> Any:
        """The answer of offsets, in int64 of these units: lengths of time where the question is datetime64."""
        if self.is_time:
            if is_nat is not None:
                lengths[is_nat] = NAT
            return self.container.lengths(lengths.view(LENGTHS[self.container.length_unit]))
        seconds = lengths.astype(np.int32)
        if self.has_nat and is_nat is not None:
            seconds[is_nat] = np.iinfo(np.int32).min
        return self.container.numbers(seconds)

    def offsets(self, seconds: Array, is_nat: Optional[Array]) -> Any:
        """The answer of offsets in seconds."""
        lengths = seconds.astype(np.int64)
        lengths *= self.lengths_per_second
        return self.lengths(lengths, is_nat)

    def plain(self, values: Array) -> Any:
        return self.container.plain(values)


def _shown_at(second: int, zone: Any) -> int:
    """Returns the second that a tzinfo shows at another, or the greatest if datetime has none."""
    try:
        moment = (EPOCH + timedelta(seconds=second)).replace(tzinfo=timezone.utc)
        return (moment.astimezone(zone).replace(tzinfo=None) - EPOCH) // timedelta(seconds=1)
    except (OverflowError, ValueError):
        return GREATEST


class Block:
    """Rows of a column that follow one another."""

    def __init__(self, column: Column, start: int):
        self.column, self.start = column, start
        self.rows = slice(start, start + BLOCK)
        self.values = column.values[self.rows]

    @cached_property
    def is_nat(self) -> Optional[Array]:
        """Which rows are NaT, or None if none is."""
        is_nat = self.values == NAT if self.column.has_nat else None
        return None if is_nat is None or not is_nat.any() else is_nat

    @cached_property
    def counted(self) -> Array:
        """The rows, with 0 for NaT."""
        return self.values if self.is_nat is None else np.where(self.is_nat, 0, self.values)

    @cached_property
    def seconds(self) -> Array:
        """Their seconds, floored."""
        per_second = self.column.per_second
        return self.counted if per_second == 1 else self.counted // per_second

    @property
    def days(self) -> Array:
        """Their days, if they are local times."""
        length = DAY * self.column.per_second
        return self.counted // length if length <= GREATEST else self.seconds // DAY

    @cached_property
    def ends(self) -> tuple[int, int]:
        """The least and the greatest of them."""
        return extremes(self.counted)

    def is_in_order(self) -> bool:
        """Returns whether each row has a time, and none comes before the one above it."""
        later, earlier = self.values[1:], self.values[:-1]
        # Rows in no order show it soon.
        if (later[:FEW] < earlier[:FEW]).any() or self.is_nat is not None:
            return False
        return not (later < earlier).any()

    def counts(self, seconds: Array, side: Literal["left", "right"] = "left") -> Array:
        """Returns how many rows, which are in order, come before the first of these seconds, between each two of them,
        and after the last. For 'right' a row at a second comes before it."""
        places = np.searchsorted(self.values, seconds * self.column.per_second, side)
        return np.diff(places, prepend=0, append=self.values.size)

    def fits_calls(self) -> bool:
        """Returns whether the calls for C that count in units take the rows as they are."""
        return self.column.per_second in COLUMN_UNITS and (self.column.has_nat or self.ends[0] != NAT)

    def outside(self, first: int, last: int) -> Array:
        """Returns the places of the rows before the second `first` or after `last`."""
        per_second = self.column.per_second
        if self.column.counts_within(first, last):
            return NO_ROWS
        if first <= self.ends[0] // per_second and self.ends[1] // per_second <= last:
            return NO_ROWS
        found = (self.seconds < first) | (self.seconds > last)
        return np.flatnonzero(found if self.is_nat is None else found & ~self.is_nat)

    def keep_nat(self, answers: Array) -> None:
        """Writes NaT to the rows of an answer that have no time."""
        if self.is_nat is not None:
            answers[self.rows][self.is_nat] = NAT

    def in_units(self, seconds: Array, out: Array) -> Array:
        """Writes a second for each row to `out`, in the unit of the column; NaT stays.

        Returns the places in the block of those that don't fit."""
        per_second, has_nat = self.column.per_second, self.column.has_nat
        first, last = -((-NAT - has_nat) // per_second), GREATEST // per_second
        np.multiply(seconds, per_second, out=out)
        if self.is_nat is not None:
            out[self.is_nat] = NAT
        least, greatest = extremes(seconds)
        if first <= least and greatest <= last:
            return NO_ROWS
        found = (seconds < first) | (seconds > last)
        return np.flatnonzero(found if self.is_nat is None else found & ~self.is_nat)

    def moved(self, sign: int, offsets: Array, out: Array) -> Array:
        """Writes the rows to `out`, each moved by its offset; NaT stays.

        Returns the places in the block of the rows that don't fit, which are not moved."""
        column = self.column
        misfits: Array = NO_ROWS
        least, greatest = extremes(offsets)
        far = max(-least, greatest) * column.per_second
        if far > GREATEST or self.ends[0] - far <= NAT or self.ends[1] + far > GREATEST:
            misfits = self._misfits(sign, offsets)
            offsets = offsets.copy()
            offsets[misfits] = 0
        np.multiply(offsets, sign * column.per_second, out=out, dtype=np.int64)
        np.add(self.counted, out, out=out)
        if self.is_nat is not None:
            out[self.is_nat] = NAT
        return misfits

    def _misfits(self, sign: int, offsets: Array) -> Array:
        """Asks with numbers of any size whether all fit: `NAT` is no value of datetime64."""
        moved = self.counted.astype(object) + offsets.astype(object) * (
            sign * self.column.per_second
        )
        misfits = (moved > GREATEST) | (moved < NAT + self.column.has_nat)
        if self.is_nat is not None:
            misfits &= ~self.is_nat
        return np.flatnonzero(misfits.astype(bool))


# What users hand over


def taken(values: Any, line: str, may_be_aware: bool) -> Column:
    """The column that a user hands over. Raises TypeError if it isn't one.

    `line` is the call as it is written for the times in the index of a Series."""
    call = line.partition("(")[0]
    try:
        column = _column_of(values, line, may_be_aware)
    except RowError as error:
        error.call = call
        raise
    column.call = call
    return column


def _column_of(values: Any, line: str, may_be_aware: bool) -> Column:
    if isinstance(values, (np.ndarray, np.generic)):
        if isinstance(values, np.ma.MaskedArray):
            raise TypeError(
                "a masked array is no column of time: pass datetime64 with NaT for what is masked"
            )
        return _of_array(np.asarray(values))
    if isinstance(values, (int, list, tuple, range)):
        return _of_list(values)
    pandas = sys.modules.get("pandas")
    if pandas is not None and isinstance(values, (pandas.Series, pandas.Index)):
        return _of_pandas(pandas, values, line, may_be_aware)
    if isinstance(values, datetime):
        return _of_datetime(pandas, values, may_be_aware)
    if is_arrow(values) and type(values).__module__.partition(".")[0] != "pandas":
        return _of_arrow(array_of(values), None, may_be_aware)
    raise TypeError(f"a {type_name(values)} is no column of time: {_advice(values)}")


def taken_days(values: Any, line: str) -> Column:
    """The column of local times that a user hands over, or one date: its midnight."""
    if isinstance(values, date) and not isinstance(values, datetime):
        values = datetime.combine(values, time())
    return taken(values, line, may_be_aware=False)


def type_name(value: Any) -> str:
    """Returns the name of a value's type, and the package that it is of."""
    kind = type(value)
    place = kind.__module__.partition(".")[0]
    return kind.__name__ if place in ("builtins", "datetime") else f"{place} {kind.__name__}"


def _advice(values: Any) -> str:
    """What to do with a value of another type."""
    place = type(values).__module__.partition(".")[0]
    if hasattr(values, "__dask_graph__"):
        return "map_partitions, or map_blocks of a dask array, asks about each part of it"
    if isinstance(values, str):
        return "numpy.datetime64 and pandas.to_datetime read a text"
    if isinstance(values, date):
        return "datetime.datetime.combine gives it a time of day"
    if place == "pandas" and hasattr(values, "columns"):
        return "pass one of its columns, or apply the call to each"
    if place == "pandas" and hasattr(values, "to_timestamp"):
        return "to_timestamp() gives the local time of its start"
    if place == "pandas" and hasattr(values, "dtype"):
        return "pass a Series or an Index of it"
    if hasattr(values, "__array__") or hasattr(values, "__array_interface__"):
        return "pass its instants in UTC, or its local times, as a numpy array of datetime64"
    return COLUMNS


# Numbers and lists, moments


def _of_list(values: Any) -> Column:
    array = np.asarray(values)
    if array.size == 0:
        array = array.astype(np.int64)
    if array.dtype.kind in "fO":
        numbers = np.asarray(values, object)
        if all(isinstance(each, (int, np.integer)) for each in numbers.flat):
            # No type of numpy has them all.
            misfits = (numbers < NAT) | (numbers > GREATEST)
            _must_fit(numbers, misfits.reshape(-1), "int64", ArrayContainer(array.shape))
    return _of_array(array)


def _of_datetime(pandas: Any, value: datetime, may_be_aware: bool) -> Column:
    if value.tzinfo is not None and not may_be_aware:
        advice = "to_local and floor take instants; if this is a local time, replace(tzinfo=None) removes its zone"
        raise TypeError(f"a local time has no zone, and this one has: {advice}")
    if pandas is not None and (value is pandas.NaT or isinstance(value, pandas.Timestamp)):
        stamp: Any = value
        moment = stamp.to_datetime64()
        if 1678 <= value.year <= 2261:
            # One of pandas 2 may count seconds. Its day ends with a nanosecond, as in pandas 1.
            moment = moment.astype("M8[ns]")
        column = _of_array(np.asarray(moment))
        column.container = TimestampContainer()
        return column
    since = value.replace(tzinfo=None) - EPOCH - (value.utcoffset() or timedelta(0))
    count = since // timedelta(microseconds=1)
    return Column(np.array([count], np.int64), "us", DatetimeContainer())


# Series and Indexes


def _must_have_times(pandas: Any, values: Any, line: str) -> None:
    """Raises TypeError for a Series of numbers whose index has the times."""
    index = values.index
    kinds = pandas.DatetimeIndex, pandas.PeriodIndex
    if any(isinstance(each, kinds) for each in getattr(index, "levels", [index])):
        advice = f"{line} asks about those, and s.to_numpy() has the numbers only"
        raise TypeError(f"a Series s of {values.dtype} with times in its index: {advice}")


def _of_pandas(pandas: Any, values: Any, line: str, may_be_aware: bool) -> Column:
    is_index, dtype = isinstance(values, pandas.Index), values.dtype
    container = IndexContainer if is_index else SeriesContainer
    if dtype.kind in "biuf" and not is_index:
        _must_have_times(pandas, values, line)
    if isinstance(dtype, np.dtype) and dtype.kind != "O":
        return _of_array(values.values, container(values))
    kind = "an Index" if is_index else "a Series"
    if isinstance(dtype, pandas.DatetimeTZDtype):
        if not may_be_aware:
            drop = "tz_localize(None)" if is_index else "dt.tz_localize(None)"
            advice = f"to_local and floor take instants; if these are local times, {drop} removes their zone"
            raise TypeError(f"local times have no zone, and these are {dtype}: {advice}")
        return _of_array(values.values, container(values))
    if isinstance(dtype, pandas.PeriodDtype):
        gives = "to_timestamp()" if is_index else "dt.to_timestamp()"
        raise TypeError(f"{kind} of {dtype} is no column of time: {gives} gives the local time of each start")
    if isinstance(dtype, pandas.StringDtype):
        raise TypeError(f"{kind} of texts is no column of time: pandas.to_datetime reads them")
    if isinstance(dtype, getattr(pandas, "ArrowDtype", ())):
        of_arrow = ArrowIndexContainer if is_index else ArrowSeriesContainer
        return _of_arrow(array_of(values.array.__arrow_array__()), of_arrow(values), may_be_aware)
    if pandas.api.types.is_extension_array_dtype(dtype):
        if pandas.api.types.is_integer_dtype(dtype) and hasattr(dtype, "numpy_dtype"):
            return _of_nullable(values, container(values, has_nat=True))
        raise TypeError(
            f"{kind} of {dtype} is no column of time: astype gives datetime64, int64 or Int64"
        )
    if isinstance(values, pandas.MultiIndex):
        raise TypeError("a MultiIndex is no column of time: get_level_values gives one of them")
    raise TypeError(
        f"{kind} of object is no column of time: pandas.to_datetime makes datetime64 of it, "
        "with utc=True if its values have offsets"
    )


def _of_nullable(values: Any, container: ArrayContainer) -> Column:
    """A column of nullable integers, with the least int64 for NA."""
    is_missing = np.asarray(values.isna())
    numbers = values.to_numpy(dtype=values.dtype.numpy_dtype, na_value=0)
    column = _of_array(numbers, container)
    _must_fit(numbers, column.values == NAT, "Int64 beside NA", container)
    column.values = np.where(is_missing, NAT, column.values)
    return column


def _of_arrow(array: Any, container: Optional[ArrayContainer], may_be_aware: bool) -> Column:
    """A column of Arrow, with the least int64 for what is missing."""
    values, unit, missing = values_of(array, may_be_aware)
    container = container or ArrowContainer((values.size,))
    is_nat = values == NAT
    is_nat[missing] = False
    _must_fit(values, is_nat, "a column with missing values", container)
    if missing.size:
        values = values.copy()
        values[missing] = NAT
    return Column(values, unit, container)


# Arrays


def _of_array(array: Array, container: Optional[ArrayContainer] = None) -> Column:
    """An array of int64 or datetime64 that the calls take as it is, is not copied."""
    container = container or ArrayContainer(array.shape)
    dtype = array.dtype
    unit = UNITS.get(dtype, NO_UNIT)
    if unit is not NO_UNIT:
        return Column(_laid_out(array, dtype).view(INT64), unit, container)
    kind = dtype.kind
    if kind == "M":
        return _of_datetime64(array, container)
    if kind not in "iu":
        raise TypeError(f"an array of {array.dtype} is no column of time: {_of_type(kind)}")
    if array.dtype.newbyteorder("=") == np.uint64:
        values = _laid_out(array, "=u8")
        _must_fit(array, values > np.uint64(GREATEST), "int64", container)
        return Column(values.view(np.int64), None, container)
    return Column(_laid_out(array, "=i8"), None, container)


def _of_type(kind: str) -> str:
    """What to do with an array of another type."""
    if kind == "f":
        return "astype makes int64 of whole seconds"
    if kind in "OSU":
        return "pandas.to_datetime, or astype, makes datetime64 of it"
    return "datetime64 and int64 are"


def _laid_out(array: Array, dtype: Any) -> Array:
    """As the calls take it, in one dimension; the array itself where it is so."""
    flags = array.flags
    if array.dtype != dtype or not (flags.c_contiguous and flags.aligned):
        array = np.require(array, dtype, ["C", "A"])
    return array if array.ndim == 1 else array.reshape(-1)


def _of_datetime64(array: Array, container: ArrayContainer) -> Column:
    unit, count = np.datetime_data(array.dtype)
    if unit == "generic":
        raise TypeError("datetime64 without a unit: datetime64[s] has one")
    values = _laid_out(array, array.dtype.newbyteorder("=")).view(np.int64)
    if unit in MOST:
        most, base = MOST[unit] // count, "s"
    else:
        factor, base = count * SECONDS.get(unit, 1), "s" if unit in SECONDS else unit
        if factor == 1:
            return Column(values, base, container)
        most = GREATEST // factor
    is_nat = values == NAT
    misfits = ((values > most) | (values < -most)) & ~is_nat
    _must_fit(array, misfits, f"datetime64[{base}]", container)
    counted = np.where(is_nat, 0, values)
    if unit in MOST:
        counted = (counted * count).view(f"M8[{unit}]").astype("M8[s]").view(np.int64)
    else:
        counted *= factor
    counted[is_nat] = NAT
    return Column(counted, base, container)


def _must_fit(array: Array, misfits: Array, what: str, container: ArrayContainer) -> None:
    if misfits.any():
        row = int(misfits.argmax())
        value = array.reshape(-1)[row]
        shown = value if array.dtype.kind == "M" else int(value)
        words = f"it does not fit {what}"
        raise OutOfRangeError(container.row(row), shown, OUT_OF_RANGE, words, container.label(row))
