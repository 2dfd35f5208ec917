"""What to return for local times that clocks skipped, or showed several times."""

from __future__ import annotations

import sys
from datetime import tzinfo
from typing import Any, NamedTuple, Optional, get_args
from zoneinfo import ZoneInfo

import numpy as np

from ._columns import Column, type_name
from ._containers import NAT, Array, Failures, FoldWord, Gap, IndexContainer, SeriesContainer
from ._names import zoneinfo_of
from .errors import FOLD, GAP, OUT_OF_RANGE, FoldError, GapError, OutOfRangeError, printable

GAPS: tuple[str, ...] = get_args(Gap)
FOLDS: tuple[str, ...] = get_args(FoldWord)
#: What pandas says for some of these words, and for the keywords.
OF_PANDAS = {
    "gap": {"shift_forward": "after", "shift_backward": "before", "NaT": "nat"},
    "fold": {"NaT": "nat"},
}
KEYWORDS_OF_PANDAS = {"ambiguous": "fold", "nonexistent": "gap"}
#: The calls whose answers need no choice.
STEPS = ("floor", "ceil", "round")
KINDS = {GAP: GapError, FOLD: FoldError, OUT_OF_RANGE: OutOfRangeError}
#: A row for which nothing is given.
UNKNOWN = NAT


class Given(NamedTuple):
    """A column that decides folds: `fold` or `is_dst` of each row, 0 or 1, or -1 if nothing is given; or
    `offset`, or `UNKNOWN`."""

    name: str
    values: Array


class Fault(NamedTuple):
    """Rows that have no answer, in order, and why."""

    rows: Array
    number: int
    words: Optional[str]


class Choice(NamedTuple):
    """The choice of a call, for each row of its column."""

    gap: str
    fold: str
    """One of FOLDS, or 'given'."""
    given: Optional[Given]
    """What decides folds row by row."""
    groups: Optional[Array]
    """A number for each row: rows of one number are in order of time."""
    failures: Optional[list[tuple[Array, Array]]]
    """The rows that have no answer and the numbers of their errors, if they are collected."""
    zone: Any
    """The zone of the type of the answer: "UTC" or a tzinfo, as pandas takes it."""

    def part(self, places: Array) -> Choice:
        """Returns the choice of these rows."""
        given = self.given and self.given._replace(values=self.given.values[places])
        groups = None if self.groups is None else self.groups[places]
        return self._replace(given=given, groups=groups)

    def answer(self, column: Column, instants: Array) -> Any:
        """Returns the answer of a call: instants, and with them the failures that are collected."""
        answers = column.instants(instants, self.zone)
        return answers if self.failures is None else (answers, self._collected(column))

    def fail(self, column: Column, faults: list[Fault]) -> None:
        """Raises the error of the first row that has no answer, or collects them all."""
        if self.failures is not None:
            for rows, number, _ in faults:
                places = rows if column.places is None else column.places[rows]
                self.failures.append((places, np.full(rows.size, number, np.uint8)))
        elif faults:
            rows, number, words = min(faults, key=lambda fault: int(fault.rows[0]))
            raise column.error(KINDS[number], int(rows[0]), number, words)

    def _collected(self, column: Column) -> Failures:
        """Returns the rows that have no answer, in order."""
        found = self.failures or []
        rows = np.concatenate([np.empty(0, np.int64), *(rows for rows, _ in found)])
        numbers = np.concatenate([np.empty(0, np.uint8), *(numbers for _, numbers in found)])
        order = np.argsort(rows, kind="stable")
        rows = rows[order]
        values = column.times_of(column.values[rows])
        numbers = numbers[order].astype(np.uint8)
        return Failures(rows, values, numbers, column.container.labels(rows))


def chosen(
    column: Column,
    gap: str = "raise",
    fold: Any = "raise",
    is_dst: Any = None,
    offset: Any = None,
    by: Any = None,
    errors: str = "raise",
    tz: Any = "UTC",
) -> Choice:
    """Returns the choice that a caller's words and columns make."""
    must_be_among("gap", gap, GAPS)
    must_be_among("errors", errors, ("raise", "collect"))
    given = _given(column, fold, is_dst, offset)
    if given is None:
        must_be_among("fold", fold, FOLDS)
    word = fold if given is None else "given"
    if by is not None and word != "infer":
        raise ValueError("by= goes with fold='infer'")
    if errors == "collect" and word == "infer":
        raise ValueError("errors='collect' does not go with fold='infer': localize with fold='nat'")
    if not column.has_nat and ("nat" in (gap, word) or errors == "collect"):
        kind = "datetime" if column.is_time else "int64"
        words = "gap='nat', fold='nat' and errors='collect' take datetime64"
        raise ValueError(f"{kind} has no NaT: {words}")
    groups = None if by is None else factorized("by", by, column)[0]
    failures: Optional[list[tuple[Array, Array]]] = [] if errors == "collect" else None
    return Choice(gap, word, given, groups, failures, _zone_of_answer(tz))


def _zone_of_answer(tz: Any) -> Any:
    if tz is None:
        raise ValueError("tz= is the zone of the instants, and None is none: leave it out for UTC")
    if isinstance(tz, str):
        # pandas makes a zone of pytz from a name, and that has no rule for the years after 2037.
        return tz if tz == "UTC" else zoneinfo_of(tz)
    if isinstance(tz, ZoneInfo) or (isinstance(tz, tzinfo) and tz.utcoffset(None) is not None):
        return tz
    advice = ": pass the name of the zone" if isinstance(tz, tzinfo) else ""
    kinds = "a name, a Zone, a ZoneInfo or a fixed offset"
    raise TypeError(f"tz= takes {kinds}, and not {type_name(tz)}{advice}")


def must_be_among(name: str, word: Any, words: tuple[str, ...]) -> None:
    if not isinstance(word, str) or word not in words:
        shown = printable(repr(word))
        ours = OF_PANDAS.get(name, {}).get(word) if isinstance(word, str) else None
        hint = f": pandas' {word!r} is {name}={ours!r} here" if ours else ""
        raise ValueError(f"{name} is one of {', '.join(words)}, and not {shown}{hint}")


def must_have_no_others(call: str, others: dict[str, Any]) -> None:
    """Raises TypeError at a keyword of another library, or at one that no library has."""
    for name in others:
        ours = KEYWORDS_OF_PANDAS.get(name)
        if ours is None:
            hint = ""
        elif call.rpartition(".")[2] in STEPS:
            hint = ": a step begins at one instant, also in a gap and in a fold"
        else:
            hint = f": pandas' {name}= is {ours}= here"
            if name == "ambiguous":
                hint += ", and fold=~flags for an array of flags"
        raise TypeError(f"{call}() takes no keyword argument {name!r}{hint}")


def _given(column: Column, fold: Any, is_dst: Any, offset: Any) -> Optional[Given]:
    """What is given for each row, or None."""
    is_word = fold is None or isinstance(fold, str)
    if is_word and is_dst is None and offset is None:
        return None
    columns = {"fold": None if is_word else fold, "is_dst": is_dst, "offset": offset}
    found = [name for name, values in columns.items() if values is not None]
    if not found:
        return None
    if len(found) > 1 or (is_word and fold != "raise"):
        raise ValueError("a fold is decided by one of fold=, is_dst= and offset=")
    name = found[0]
    values = row_by_row(name, columns[name], column)
    if name == "offset":
        return Given(name, _seconds(values))
    return Given(name, flags_of(name, values, columns[name]))


def flags_of(name: str, values: Array, given: Any) -> Array:
    """The flags 0 and 1 unchanged, and -1 for a missing one. `given` is what a caller passed."""
    if values.dtype == object:
        kind = "Int64" if name == "fold" else "boolean"
        remedy = f"astype('{kind}')" if hasattr(given, "index") and hasattr(given, "astype") else f"pd.array(.., '{kind}')"
        raise TypeError(f"{name}= is an object column: {remedy}")
    if values.dtype.kind not in "biu":
        raise TypeError(f"{name}= has 0 and 1 or booleans, and not {values.dtype}")
    is_given = (values == 0) | (values == 1)
    if not (is_given | (values == UNKNOWN)).all():
        raise ValueError(f"{name}= has 0 and 1, or False and True")
    numbers = np.full(values.shape, -1, np.int8)
    np.copyto(numbers, values, where=is_given, casting="unsafe")
    return numbers


def _seconds(values: Array) -> Array:
    """Offsets in seconds, of numbers of them or of timedelta64."""
    if values.dtype.kind == "m":
        if np.datetime_data(values.dtype)[0] == "generic":
            raise TypeError("offset= is timedelta64 without a unit: timedelta64[s] has one")
        seconds = values.astype("m8[s]")
        if not ((seconds == values) | np.isnat(values)).all():
            raise ValueError("offset= has parts of a second: an offset has none")
        return seconds.view(np.int64)
    if values.dtype.kind not in "iu":
        raise TypeError(f"offset= has seconds or timedelta64, and not {values.dtype}")
    return values.astype(np.int64, copy=False)


def row_by_row(name: str, values: Any, column: Column) -> Array:
    """An array with a value for each row, in the order of rows; `UNKNOWN` for a row without one."""
    pandas = sys.modules.get("pandas")
    container = column.container
    if pandas is not None and isinstance(values, pandas.Series):
        is_series = isinstance(container, SeriesContainer) and not isinstance(container, IndexContainer)
        if is_series and not values.index.equals(container.labels(slice(None))):
            raise ValueError(f"{name}= has another index than the column")
    dtype: Any = getattr(values, "dtype", None)
    if pandas is not None and pandas.api.types.is_extension_array_dtype(dtype):
        if dtype.kind in "biu":
            values = values.astype("Int64").to_numpy(np.int64, na_value=UNKNOWN)
    array = np.asarray(values)
    shape = column.container.shape
    if array.shape not in ((), shape):
        raise ValueError(f"{name}= has the shape {array.shape}, and the column {shape}")
    return np.broadcast_to(array, shape).reshape(-1)


def factorized(name: str, keys: Any, column: Column) -> tuple[Array, list[Any]]:
    """A number for each row, and the key of each number. Raises ValueError at a row without one."""
    pandas = sys.modules.get("pandas")
    if pandas is not None and isinstance(getattr(keys, "dtype", None), pandas.CategoricalDtype):
        found, codes = keys.dtype.categories, getattr(keys, "cat", keys).codes
        numbers = row_by_row(name, codes, column)
    elif pandas is None:
        found, numbers = np.unique(row_by_row(name, keys, column), return_inverse=True)
    else:
        numbers, found = pandas.factorize(row_by_row(name, keys, column))
    if numbers.size and int(numbers.min()) < 0:
        missing = "the key of by=" if name == "by" else "the zone's name"
        raise ValueError(f"row {int((numbers < 0).argmax())}: {missing} is missing")
    return numbers, list(found)
