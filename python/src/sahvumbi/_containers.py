"""The types of questions and answers, and what an answer comes in, as its question did: an array, a Series, an Index
or one moment."""

from __future__ import annotations

import sys
from datetime import datetime, timedelta, timezone
from functools import lru_cache
from typing import TYPE_CHECKING, Any, Literal, NamedTuple, Optional, Protocol, Sequence, TypeVar, Union

import numpy as np

from . import _arrow

if TYPE_CHECKING:
    import numpy.typing as npt

    Array = npt.NDArray[Any]
else:
    # The import of numpy.typing takes a third as long as that of this package.
    Array = np.ndarray

NAT = int(np.iinfo(np.int64).min)
EPOCH = datetime(1970, 1, 1)
#: How many of each unit make a second.
PER_SECOND = {
    "s": 1,
    "ms": 10**3,
    "us": 10**6,
    "ns": 10**9,
    "ps": 10**12,
    "fs": 10**15,
    "as": 10**18,
}
#: numpy's types of times and of lengths of time.
TIMES = {unit: np.dtype(f"M8[{unit}]") for unit in PER_SECOND}
LENGTHS = {unit: np.dtype(f"m8[{unit}]") for unit in PER_SECOND}


class Labels(Protocol):
    """What a Series and an Index of pandas have, and an array has not."""

    @property
    def array(self) -> Any: ...

    def to_numpy(self, *words: Any, **choices: Any) -> Any: ...


#: Numbers and times that are answered by an array.
Rows = Union[Array, Sequence[int], Sequence[np.datetime64]]
#: A second or a time.
Single = Union[int, "np.integer[Any]", np.datetime64]
#: All that the calls take as a column.
Times = Union[Rows, Single, datetime, Labels]
#: A Series or an Index, which is answered by one.
Labelled = TypeVar("Labelled", bound=Labels)
#: A datetime or a Timestamp, which is answered by one.
Moment = TypeVar("Moment", bound=datetime)

Gap = Literal["raise", "shift", "after", "shift_back", "before", "nat"]
FoldWord = Literal["raise", "earliest", "latest", "nat", "infer"]
#: A word, or 0 and 1 for each row.
Fold = Union[FoldWord, Rows, Labels, int]


class ArrayContainer:
    """A numpy array of a shape, or one value if the shape is ()."""

    #: Whether the least int64 is NaT: None if it is so of times, and not of numbers.
    has_nat: Optional[bool] = None
    #: The type of a column of texts of up to seven letters.
    text: Any = "U7"
    #: The unit of lengths of time.
    length_unit = "s"

    def __init__(self, shape: tuple[int, ...]):
        self.shape = shape

    def row(self, row: int) -> Optional[int]:
        """Returns the row as errors have it: one value has none."""
        return row if self.shape else None

    def label(self, row: int) -> Any:
        """Returns the row's label in an index, or None."""
        return None

    def labels(self, rows: Union[Array, slice]) -> Any:
        """Returns the labels of rows, or None."""
        return None

    def times(self, values: Array, unit: Optional[str], zone: Any) -> Any:
        """Returns a column of times: local times if `zone` is None, and else instants."""
        return self.plain(values if unit is None else values.view(TIMES[unit]))

    def numbers(self, values: Array) -> Any:
        """Returns a column of numbers."""
        return self.plain(values)

    def lengths(self, values: Array) -> Any:
        """Returns a column of timedelta64."""
        return self.plain(values)

    def plain(self, values: Array) -> Any:
        """Returns a column of anything else."""
        if len(self.shape) == 1:
            return values
        return values.reshape(self.shape) if self.shape else values[0]

    def table(self, columns: Any) -> Any:
        """Returns the columns of an answer together."""
        return columns


class SeriesContainer(ArrayContainer):
    """A Series of pandas. Its answers have its index, name, attrs and class."""

    text = object

    def __init__(self, of: Any, has_nat: Optional[bool] = None):
        self.of, self.has_nat = of, has_nat

    @property
    def shape(self) -> tuple[int, ...]:  # type: ignore[override]
        # Most calls don't ask for it.
        shape: tuple[int, ...] = self.of.shape
        return shape

    @property
    def length_unit(self) -> str:  # type: ignore[override]
        # pandas 1 has no other unit, and takes several copies to change one.
        return "ns" if sys.modules["pandas"].__version__ < "2" else "s"

    @property
    def index(self) -> Any:
        return self.of.index

    def label(self, row: int) -> Any:
        return self.index[row]

    def labels(self, rows: Union[Array, slice]) -> Any:
        return self.index[rows]

    def times(self, values: Array, unit: Optional[str], zone: Any) -> Any:
        return self.numbers(values) if unit is None else series_of_times(values, unit, zone, self.of)

    def numbers(self, values: Array) -> Any:
        return self.plain(_nullable(values) if self.has_nat else values)

    def lengths(self, values: Array) -> Any:
        return self.plain(_lengths_of_pandas(values))

    def plain(self, values: Any) -> Any:
        return _series_over(values, None, self.of)

    def table(self, columns: Any) -> Any:
        import pandas

        frame = pandas.DataFrame(columns._asdict(), index=self.index, copy=False)
        return self.of._constructor_expanddim(frame).__finalize__(self.of)


class IndexContainer(SeriesContainer):
    """An Index of pandas. Its answers are Indexes of its name; it is the index of its tables."""

    @property
    def index(self) -> Any:
        return self.of

    def times(self, values: Array, unit: Optional[str], zone: Any) -> Any:
        return self.numbers(values) if unit is None else index_of_times(values, unit, zone, self.of)

    def plain(self, values: Any) -> Any:
        import pandas

        return pandas.Index(values, name=self.of.name)

    def table(self, columns: Any) -> Any:
        import pandas

        return pandas.DataFrame(columns._asdict(), index=self.of, copy=False)


class ArrowSeriesContainer(SeriesContainer):
    """A Series or an Index of pandas that has its values in Arrow. So have its answers."""

    length_unit = "s"

    def __init__(self, of: Any):
        super().__init__(of, has_nat=True)

    def times(self, values: Array, unit: Optional[str], zone: Any) -> Any:
        return self.plain(_arrow.to_pandas(_arrow.of_times(values, unit, zone)))

    def numbers(self, values: Array) -> Any:
        return self.plain(_arrow.to_pandas(_arrow.of_numbers(values)))

    def lengths(self, values: Array) -> Any:
        return self.plain(_arrow.to_pandas(_arrow.of_lengths(values)))


class ArrowIndexContainer(ArrowSeriesContainer, IndexContainer):
    """An Index of an ArrowDtype."""


class ArrowContainer(ArrayContainer):
    """An array of pyarrow. Its answers are such arrays, and a table of them."""

    has_nat = True
    text = object

    def times(self, values: Array, unit: Optional[str], zone: Any) -> Any:
        return _arrow.of_times(values, unit, zone)

    def numbers(self, values: Array) -> Any:
        return _arrow.of_numbers(values)

    def lengths(self, values: Array) -> Any:
        return _arrow.of_lengths(values)

    def plain(self, values: Array) -> Any:
        return _arrow.of_plain(values)

    def table(self, columns: Any) -> Any:
        return _arrow.table_of(columns._asdict())


class TimestampContainer(ArrayContainer):
    """A Timestamp of pandas."""

    def __init__(self) -> None:
        super().__init__(())

    def times(self, values: Array, unit: Optional[str], zone: Any) -> Any:
        import pandas

        return pandas.Timestamp(int(values[0]), unit=unit, tz=zone)

    def lengths(self, values: Array) -> Any:
        import pandas

        return pandas.NaT if np.isnat(values[0]) else pandas.Timedelta(values[0])


class DatetimeContainer(ArrayContainer):
    """A datetime of Python, counted in microseconds."""

    has_nat = False

    def __init__(self) -> None:
        super().__init__(())

    def times(self, values: Array, unit: Optional[str], zone: Any) -> Any:
        if values[0] == NAT:
            return None
        moment = EPOCH + timedelta(microseconds=int(values[0]))
        if zone is None:
            return moment
        aware = moment.replace(tzinfo=timezone.utc)
        return aware if zone == "UTC" else aware.astimezone(zone)

    def lengths(self, values: Array) -> Any:
        return None if np.isnat(values[0]) else timedelta(seconds=int(values[0].astype(np.int64)))


def frame_of(table: Any, *in_utc: str) -> Any:
    """Returns a DataFrame of the columns of a table, with its `label` as the index. Times of these columns are
    in UTC."""
    import pandas

    columns = table._asdict()
    labels = columns.pop("label", None)
    frame = pandas.DataFrame(columns, index=labels)
    for name in in_utc:
        if frame[name].dtype.kind == "M":
            frame[name] = frame[name].dt.tz_localize("UTC")
    return frame


def as_html(table: Any) -> Optional[str]:
    """Returns the table that a notebook shows for columns, or None: without pandas, and for one value, it shows their text."""
    if "pandas" not in sys.modules or np.ndim(table[0]) != 1:
        return None
    shown: str = (table.to_frame() if hasattr(table, "to_frame") else frame_of(table))._repr_html_()
    return shown


class WallClocks(NamedTuple):
    """When a zone's clocks show the local times of a column. Each field has the column's shape."""

    shown: npt.NDArray[np.int8]
    """How often: 0 never, 1 once, 2 several times; 3 out of range, -1 NaT."""
    first: npt.NDArray[Any]
    """The first instant that shows it, counted as the column is; in a gap that of the change that
    skips it; NaT, None or 0 for NaT and out of range."""
    last: npt.NDArray[Any]
    """The last one; in a gap the same change."""
    first_offset: npt.NDArray[Any]
    """The offset at the first instant, as `Zone.offsets` returns it; in a gap the one before it."""
    last_offset: npt.NDArray[Any]
    """The offset at the last one; in a gap the one after it."""

    def _repr_html_(self) -> Optional[str]:
        return as_html(self)


class LocalTypes(NamedTuple):
    """The local time types in force at the instants of a column. Each field has its shape."""

    offset: npt.NDArray[Any]
    """The offset, as `Zone.offsets` returns it; NaT for NaT."""
    is_dst: npt.NDArray[np.bool_]
    """The DST flag: whether it is daylight saving time. False for NaT."""
    abbreviation: npt.NDArray[np.str_]
    """The abbreviation, such as EST; empty for NaT, and if the zone has none."""

    def _repr_html_(self) -> Optional[str]:
        return as_html(self)


class Spans(NamedTuple):
    """The spans that the instants of a column lie in: in each one local time type is in force, from
    its first second on to the first one at which the type is no longer in force. Each field has the
    column's shape."""

    offset: npt.NDArray[Any]
    """The offset, the DST flag and the abbreviation, as in `LocalTypes`."""
    is_dst: npt.NDArray[np.bool_]
    abbreviation: npt.NDArray[np.str_]
    from_: npt.NDArray[Any]
    """The first second of the span, counted as the column is: clocks change then, or the zone has no
    type before. If the type is in force at all seconds before that the column can count, NaT, or the
    least int64."""
    until: npt.NDArray[Any]
    """The first second after the span: clocks change then, or the zone has no type. If the type is in
    force at all seconds after that the column can count, NaT, or the greatest int64."""

    def _repr_html_(self) -> Optional[str]:
        return as_html(self)


class Failures(NamedTuple):
    """The rows that have no answer, in order: each field has a value for each of them."""

    row: npt.NDArray[np.int64]
    """Its place, from 0 on, in C order."""
    value: Array
    """What the column has there."""
    number: npt.NDArray[np.uint8]
    """Why there is no answer: 2, 21, 22 or 23. `sahvumbi.errors.WORDS` has the words."""
    label: Any
    """The labels in the index of a Series, or the values of an Index; else None."""

    def __bool__(self) -> bool:
        """Returns whether there are any."""
        return self.row.size > 0

    def to_frame(self) -> Any:
        """Returns a DataFrame with a row for each of them, labelled as in the column."""
        from .errors import WORDS

        return frame_of(self).assign(words=[WORDS[int(number)] for number in self.number])

    def _repr_html_(self) -> Optional[str]:
        return as_html(self)


# pandas' public constructors look for what these values can't have, and take 5 to 20 times as long as its own ones. They
# are used if a later pandas has lost those.


def series_of_times(values: Array, unit: str, zone: Any, of: Any) -> Any:
    """Returns a Series of times over numbers, with the labels of another one, its name, attrs, flags and class."""
    return _series_over(*_times_of_pandas(values, unit, zone), of)


def index_of_times(values: Array, unit: str, zone: Any, of: Any) -> Any:
    """Returns a DatetimeIndex over numbers, with the name of another one."""
    times, _ = _times_of_pandas(values, unit, zone)
    kind = sys.modules["pandas"].DatetimeIndex
    try:
        return kind._simple_new(times, name=of.name)
    except AttributeError:
        return kind(times, name=of.name)


def _times_of_pandas(values: Array, unit: str, zone: Any) -> tuple[Any, Any]:
    """Returns the array in which pandas has times, over these numbers, and what makes a block over it, if that is known.

    It copies no number, and looks at none."""
    times = values.view(TIMES[unit])
    try:
        if zone is None or zone == "UTC":
            array_over, block_over = quick_times(unit, zone)
            return array_over(times), block_over
        pandas = sys.modules["pandas"]
        return pandas.arrays.DatetimeArray._simple_new(times, dtype=pandas.DatetimeTZDtype(unit, zone)), None
    except AttributeError:
        plain = sys.modules["pandas"].array(times, copy=False)
        return (plain if zone is None else plain.tz_localize("UTC").tz_convert(zone)), None


@lru_cache(None)
def quick_times(unit: str, zone: Optional[str]) -> tuple[Any, Any]:
    """Returns what makes pandas' array over times, local ones or those of UTC, and what makes a Series' block over that."""
    pandas = sys.modules["pandas"]
    none = np.empty(0, TIMES[unit])
    dtype = none.dtype if zone is None else pandas.DatetimeTZDtype(unit, zone)
    times = pandas.arrays.DatetimeArray._simple_new(none, dtype=dtype)
    return times._from_backing_data, type(pandas.Series(times)._mgr.blocks[0])


def _lengths_of_pandas(values: Array) -> Any:
    """Returns the array in which pandas has lengths of time, over timedelta64."""
    pandas = sys.modules["pandas"]
    try:
        return pandas.arrays.TimedeltaArray._simple_new(values, dtype=values.dtype)
    except AttributeError:
        return pandas.array(values, copy=False)


def _series_over(values: Any, block_over: Any, of: Any) -> Any:
    """Returns a Series over values, with the labels of another one, its name, attrs, flags and class.

    `block_over` makes its block, or is None."""
    made = None
    if type(of) is sys.modules["pandas"].Series:
        try:
            made = quick_series(values, block_over, of)
        except (AttributeError, TypeError):
            pass
    if made is None:
        made = of._constructor(values, index=of.index, name=of.name, copy=False).__finalize__(of)
    return made


def quick_series(values: Any, block_over: Any, of: Any) -> Any:
    """The same of a Series of pandas' own class, by the way of pandas itself."""
    kind: Any = type(of)
    manager, index = of._mgr, of.index
    if block_over is None:
        manager = manager.from_array(values, index)
    else:
        manager = type(manager)(block_over(values, placement=manager.blocks[0]._mgr_locs, ndim=1), index)
    made = kind.__new__(kind)
    super(kind, made).__init__(manager)
    object.__setattr__(made, "_name", of.name)
    is_plain = not of.attrs and of.flags.allows_duplicate_labels
    return made if is_plain else made.__finalize__(of)


def _nullable(values: Array) -> Any:
    """Returns a nullable array of pandas, in which the least number of the type is NA."""
    import pandas

    missing = values == np.iinfo(values.dtype).min
    return pandas.arrays.IntegerArray(np.where(missing, 0, values), missing)
