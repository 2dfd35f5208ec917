"""Days of a zone and steps of its clocks: when they begin. Steps are parts of a second and of a day, days, and months of
the calendar.

A day begins at the first second at which a clock shows its midnight or a later local time, and the
next day ends it. So each instant lies in one day, and a day that clocks skipped has none.
"""

from __future__ import annotations

import re
from datetime import timedelta
from functools import cached_property
from typing import TYPE_CHECKING, Any, Callable, Iterator, NamedTuple, Optional, Union

import numpy as np

from ._columns import DAY, FIRST_SECOND, GREATEST, LAST_SECOND, Block, Column
from ._containers import NAT, Array, as_html
from ._lookups import write_seconds
from ._native import LEAST, NativeZone
from .errors import GAP, OUT_OF_RANGE, GapError, OutOfRangeError, printable

if TYPE_CHECKING:
    import numpy.typing as npt

SECOND = 10**9
#: The length of each unit, in nanoseconds.
UNITS = {
    "D": DAY * SECOND,
    "h": 3_600 * SECOND,
    "min": 60 * SECOND,
    "s": SECOND,
    "ms": 10**6,
    "us": 10**3,
    "ns": 1,
}
#: The months of each step that begins with a month.
MONTHS = {"MS": 1, "QS": 3, "YS": 12}
#: What pandas says for some of these, in several versions.
OF_PANDAS = {
    **{"d": "D", "H": "h", "T": "min", "S": "s", "L": "ms", "U": "us", "N": "ns"},
    **{"M": "MS", "Q": "QS", "A": "YS", "Y": "YS", "AS": "YS"},
    **{"ME": "MS", "QE": "QS", "YE": "YS", "W-SUN": "W"},
}
#: The day of a Monday, counted from 1970-01-01, a Thursday.
MONDAY = 4

#: A step, as callers write it: 'D', '2D', 'W', 'MS', 'h', '15min', '500ms', or a timedelta.
Step = Union[str, timedelta]

# No second of a day: it is outside the calendar.
NONE = GREATEST
# The parts of a column's range, as a power of two.
PARTS = 14
# Rows in order are answered by day if there are more than this many of them to a day.
ROWS_OF_DAY = 4
# A day that no calendar reaches.
NO_DAY = 10**9
EMPTY = "no clock of the zone shows a time of that day"
OUTSIDE = "the day is outside the years -262143 to 262142"
#: A second for each row of a block, and None; or one for as many rows, in order, as the second array has for it.
Stretches = tuple[Array, Optional[Array]]


class Days(NamedTuple):
    """The days that the instants of a column lie in. Each field has the column's shape."""

    date: npt.NDArray[Any]
    """The day, as the local time of its midnight."""
    start: npt.NDArray[Any]
    """Its first instant."""
    until: npt.NDArray[Any]
    """The first instant of the next day."""

    def _repr_html_(self) -> Optional[str]:
        return as_html(self)


def starts(native: NativeZone, column: Column) -> Array:
    """Returns the first instant of the day of each local time."""
    answers, beginnings = np.empty(len(column), np.int64), Beginnings(native, column)
    for block in column.blocks():
        _write(block, beginnings.of(block.days), answers)
    return answers


def ends(native: NativeZone, column: Column) -> Array:
    """Returns the last instant of the day of each local time, in the unit of the column."""
    answers, beginnings = np.empty(len(column), np.int64), Beginnings(native, column)
    for block in column.blocks():
        numbers = block.days
        until = beginnings.of(numbers + 1)
        _write(block, until, answers)
        mine = answers[block.rows]
        mine -= 1
        is_empty = until == beginnings.of(numbers)
        if not column.has_nat and is_empty.any():
            raise column.error(GapError, block.start + int(is_empty.argmax()), GAP, EMPTY)
        mine[is_empty] = NAT
        if block.is_nat is not None:
            mine[block.is_nat] = NAT
    return answers


def days(native: NativeZone, column: Column) -> Any:
    """Returns the day that each instant lies in."""
    date, start, until = (np.empty(len(column), np.int64) for _ in Days._fields)
    beginnings = Beginnings(native, column)
    for block in _blocks_in_calendar(column):
        numbers, counts = beginnings.days_of(block)
        _write(block, numbers * DAY, date, counts)
        _write(block, beginnings.of(numbers), start, counts)
        _write(block, beginnings.of(numbers + 1), until, counts)
    # Each array is let go before the next answer is made.
    start = column.instants(start)
    until = column.instants(until)
    return column.container.table(Days(column.local_times(date), start, until))


def floored(native: NativeZone, column: Column, step: Step) -> Array:
    """Returns the first instant of the step that each instant lies in."""
    parsed = step_of(step)
    if isinstance(parsed, PartOfSecond):
        return _floored_in_second(column, parsed)
    answers, stretches = np.empty(len(column), np.int64), stretches_of(native, column, parsed)
    for block in _blocks_in_calendar(column):
        begun, counts = stretches.begun(block)
        _write(block, begun, answers, counts)
    return answers


def ceiled(native: NativeZone, column: Column, step: Step) -> Array:
    """Returns the first instant of a step that does not come before each instant."""
    parsed = step_of(step)
    if isinstance(parsed, PartOfSecond):
        return _ceiled_in_second(column, parsed)
    answers, stretches = np.empty(len(column), np.int64), stretches_of(native, column, parsed)
    for block in _blocks_in_calendar(column):
        ended, counts = stretches.ended(block)
        _write(block, ended, answers, counts)
    return answers


def rounded(native: NativeZone, column: Column, step: Step) -> Array:
    """Returns the nearest first instant of a step; the later of two that are equally near."""
    earlier, later = floored(native, column, step), ceiled(native, column, step)
    before, after = column.values - earlier, later - column.values
    return np.where(before < after, earlier, later)


def stretches_of(
    native: NativeZone, column: Column, step: Union[PartOfDay, DayCount, MonthCount]
) -> Union[Periods, Parts]:
    """Returns the days of the zone, or the shorter steps of its clocks."""
    if isinstance(step, PartOfDay):
        return Parts(native, column, step.seconds)
    return Periods(native, column, step)


def _floored_in_second(column: Column, step: PartOfSecond) -> Array:
    """An offset has whole seconds, so such a step begins in every zone at the same instants."""
    answers, units = np.empty(len(column), np.int64), _units_of(column, step)
    least = -((-NAT - column.has_nat) // units) * units
    for block in _blocks_in_calendar(column):
        _must_fit(block, block.counted < least)
        np.subtract(block.counted, block.counted % units, out=answers[block.rows])
        block.keep_nat(answers)
    return answers


def _ceiled_in_second(column: Column, step: PartOfSecond) -> Array:
    answers, units = np.empty(len(column), np.int64), _units_of(column, step)
    for block in _blocks_in_calendar(column):
        _must_fit(block, block.counted > GREATEST // units * units)
        np.add(block.counted, -block.counted % units, out=answers[block.rows])
        block.keep_nat(answers)
    return answers


def _must_fit(block: Block, misfits: Array) -> None:
    """Raises at the first row whose answer doesn't fit the column."""
    if misfits.any():
        raise block.column.misfit(block.start + int(misfits.argmax()))


def _units_of(column: Column, step: PartOfSecond) -> int:
    """How many units of a column a step is long; 1 if each unit has a whole number of steps."""
    units, rest = divmod(step.nanoseconds * column.per_second, SECOND)
    if rest and SECOND % (step.nanoseconds * column.per_second):
        raise ValueError(f"step has parts of the column's unit, {column.unit}")
    return max(units, 1)


class DayTable:
    """The answers to a question about days. It is asked once about each day that the column spans if a block has more rows."""

    def __init__(self, column: Column, ask: Callable[[Array], Array]):
        self.ask = ask
        least, greatest = column.ends()
        # Offsets are less than two days, but for zones that no one keeps.
        self.first, self.count = least // DAY - 2, (greatest - least) // DAY + 6

    def of(self, days: Array) -> Array:
        """Returns the answer for each day."""
        if days.size < self.count:
            return self.ask(days)
        places = days - self.first
        if int(places.min()) < 0 or int(places.max()) >= self.count:
            return self.ask(days)
        return self.answers.take(places)

    @cached_property
    def answers(self) -> Array:
        return self.ask(np.arange(self.first, self.first + self.count))


class Beginnings:
    """The first second of each day."""

    def __init__(self, native: NativeZone, column: Column):
        self.native = native
        self.of = DayTable(column, self.looked_up).of

    def looked_up(self, days: Array) -> Array:
        """Returns the first second of each day, or `NONE` if that is outside the calendar."""
        midnights = np.clip(days, -NO_DAY, NO_DAY) * DAY
        reached = self.native.first_at_or_after(midnights)
        return np.where(reached["number"] == 0, reached["instant"], NONE)

    def days_of(self, block: Block, before: int = 0) -> tuple[Array, Optional[Array]]:
        """Returns the day that each instant of a block lies in, or `before` units earlier, 0 or 1; or, of a block
        in order, the days that it spans, and how many rows lie in each."""
        per_second = block.column.per_second
        if block.is_in_order():
            first, last = map(int, self.days_at((block.values[[0, -1]] - before) // per_second))
            if (last - first) * ROWS_OF_DAY < block.values.size:
                days = np.arange(first, last + 1)
                return days, block.counts(self.of(days[1:]), "right" if before else "left")
        return self.days_at((block.counted - before) // per_second if before else block.seconds), None

    def days_at(self, seconds: Array) -> Array:
        """Returns the day that each second lies in, counted from 1970-01-01: the last one that has begun."""
        days: Array = _local_seconds(self.native, seconds) // DAY
        # Clocks that were set back over midnight show the day before for a while.
        back = np.flatnonzero(self.of(days + 1) <= seconds)
        if back.size:
            days[back] = self._last_begun(days[back], seconds[back])
        return days

    def _last_begun(self, days: Array, seconds: Array) -> Array:
        """The last day that has begun at each second: one of `days` has, and none begins before an earlier one."""
        days, step = days.copy(), 1
        while (has_begun := self.of(days + step) <= seconds).any():
            days[has_begun] += step
            step *= 2
        while step > 1:
            step //= 2
            days[self.of(days + step) <= seconds] += step
        return days


class Periods:
    """Steps of whole days: a number of days, or of months."""

    def __init__(self, native: NativeZone, column: Column, step: Union[DayCount, MonthCount]):
        self.beginnings, self.is_day = Beginnings(native, column), step == DayCount(1)
        looked_up = self.beginnings.looked_up
        self.first = DayTable(column, lambda days: looked_up(step.first_day(days)))
        self.following = DayTable(column, lambda days: looked_up(step.next_first(step.first_day(days))))

    def begun(self, block: Block) -> Stretches:
        """Returns the first second of the step that each instant lies in."""
        days, counts = self.beginnings.days_of(block)
        return (self.beginnings.of(days) if self.is_day else self.first.of(days)), counts

    def ended(self, block: Block) -> Stretches:
        """Returns the first second of the step after the one that the unit before each instant lies in."""
        days, counts = self.beginnings.days_of(block, before=1)
        return (self.beginnings.of(days + 1) if self.is_day else self.following.of(days)), counts


class Parts:
    """Steps that are a whole part of a day: the stretches in which clocks show local times of one step.

    One begins when clocks show a multiple of the step, or another step than at the second before. So clocks
    that are set back to the step before begin it again, and a stretch goes on over a change after which they
    show the same step."""

    def __init__(self, native: NativeZone, column: Column, step: int):
        self.native, self.step = native, step
        least, greatest = column.ends()
        self.changes = self._listed(least, greatest, step + 1)
        # Parts of the column's range: most have no second within a step of a change.
        self.first, self.shift = least - 1, max(0, (greatest - least).bit_length() - PARTS)
        self.is_near = self._parts_near((greatest - self.first >> self.shift) + 1)

    def begun(self, block: Block) -> Stretches:
        """Returns the first second of the stretch that each instant lies in."""
        seconds = block.seconds
        begun, near = self._multiple(seconds), self._near(seconds)
        if near.size:
            last = np.searchsorted(self.changes.at, seconds[near], "right") - 1
            is_late = begun[near] < self.changes.at[last]
            begun[near[is_late]] = self.changes.begun[last[is_late]]
        return begun, None

    def ended(self, block: Block) -> Stretches:
        """Returns the first second of the stretch after the one that the unit before each instant lies in."""
        seconds = (block.counted - 1) // block.column.per_second
        ended, near = self._multiple(seconds) + self.step, self._near(seconds)
        if near.size:
            following = np.searchsorted(self.changes.at, seconds[near], "right")
            is_early = ended[near] >= self.changes.at[following]
            ended[near[is_early]] = self.changes.following[following[is_early]]
        return ended, None

    def _multiple(self, seconds: Array) -> Array:
        """When clocks showed a multiple of the step, if they weren't changed since."""
        local = _local_seconds(self.native, seconds)
        # A remainder takes numpy four times as long.
        begun: Array = seconds - local + local // self.step * self.step
        return begun

    def _near(self, seconds: Array) -> Array:
        """The places of the seconds in parts that are near a change."""
        return np.flatnonzero(self.is_near.take(seconds - self.first >> self.shift, mode="clip"))

    def _parts_near(self, count: int) -> Array:
        """Which parts have a second within a step of a change."""
        marks, at = np.zeros(count + 1, np.intp), self.changes.at[1:-1] - self.first
        np.add.at(marks, np.clip(at - self.step >> self.shift, 0, count), 1)
        np.add.at(marks, np.clip((at + self.step >> self.shift) + 1, 0, count), -1)
        is_near: Array = np.cumsum(marks)[:count] > 0
        return is_near

    def _listed(self, least: int, greatest: int, around: int) -> StepChanges:
        """The changes of offset among these seconds and around them, as far as their steps reach."""
        low, high = max(least - around, FIRST_SECOND), min(greatest + around, LAST_SECOND + DAY)
        changes = self.native.changes(low, high)
        changes = changes[changes["before"]["offset"] != changes["after"]["offset"]]
        found = StepChanges.of(changes, self.step)
        if changes.size:
            # A step that goes on over the first of them may begin before an earlier one, and likewise at the end.
            is_early = low > FIRST_SECOND and found.begun[1] < low
            if is_early or (high <= LAST_SECOND and found.following[-2] >= high):
                return self._listed(least, greatest, 2 * around)
        return found


class StepChanges(NamedTuple):
    """Changes of offset, between a first one and a last one that never come."""

    at: Array
    begun: Array
    """The last second up to each at which a step begins."""
    following: Array
    """The first second from each on at which a step begins."""

    @classmethod
    def of(cls, changes: Array, step: int) -> StepChanges:
        at = np.concatenate([[LEAST], changes["at"], [GREATEST]])
        begun, following = at.copy(), at.copy()
        before = changes["at"] - 1 + changes["before"]["offset"]
        after = changes["at"] + changes["after"]["offset"]
        is_same = (before // step == after // step) & (after % step != 0)
        goes_on = [1 + int(place) for place in np.flatnonzero(is_same)]
        for change in goes_on:
            first = int(at[change]) - 1 - int(before[change - 1]) % step
            begun[change] = first if first >= at[change - 1] else begun[change - 1]
        for change in reversed(goes_on):
            first = int(at[change]) + -int(after[change - 1]) % step
            following[change] = first if first < at[change + 1] else following[change + 1]
        return cls(at, begun, following)


def _local_seconds(native: NativeZone, seconds: Array) -> Array:
    """The second that clocks show at each second of the calendar."""
    local = np.empty(seconds.size, np.int64)
    native.local_times(1, seconds, local)
    return local


def _blocks_in_calendar(column: Column) -> Iterator[Block]:
    """The blocks of a column. Raises at a row outside the calendar."""
    for block in column.blocks():
        outside = block.outside(FIRST_SECOND, LAST_SECOND)
        if outside.size:
            _raise_outside(block, outside)
        yield block


def _raise_outside(block: Block, places: Array) -> None:
    row = block.start + int(places[0])
    raise block.column.error(OutOfRangeError, row, OUT_OF_RANGE, OUTSIDE)


def _write(block: Block, seconds: Array, answers: Array, counts: Optional[Array] = None) -> None:
    """Writes a second for each row of a block, or for as many rows as `counts` has for it. Raises at the first row that
    has no second, or doesn't fit."""
    if counts is not None:
        units = np.empty(seconds.size, np.int64)
        if int(seconds.max()) != NONE and not block.in_units(seconds, units).size:
            answers[block.rows] = units.repeat(counts)
            return
        seconds = seconds.repeat(counts)
    if int(seconds.max()) == NONE:
        _raise_outside(block, np.flatnonzero(seconds == NONE))
    write_seconds(block, seconds, answers)


# Steps


class PartOfSecond(NamedTuple):
    """A step of which a second has a whole number."""

    nanoseconds: int


class PartOfDay(NamedTuple):
    """A step of whole seconds, of which a day has a whole number, and more than one."""

    seconds: int


class DayCount(NamedTuple):
    """A number of days. A step begins on the day `origin`, counted from 1970-01-01."""

    length: int
    origin: int = 0

    def first_day(self, days: Array) -> Array:
        """Returns the first day of the step that each day lies in."""
        first: Array = days if self.length == 1 else days - (days - self.origin) % self.length
        return first

    def next_first(self, first: Array) -> Array:
        """Returns the first day of the step after the one that begins on each day."""
        return first + self.length


class MonthCount(NamedTuple):
    """A month, a quarter or a year: a number of months, of which a year has a whole number."""

    length: int

    def first_day(self, days: Array) -> Array:
        """Returns the first day of the step that each day lies in."""
        months = days.view("M8[D]").astype("M8[M]").view("i8")
        return _first_of_month(months - months % self.length)

    def next_first(self, first: Array) -> Array:
        """Returns the first day of the step after the one that begins on each day."""
        return _first_of_month(first.view("M8[D]").astype("M8[M]").view("i8") + self.length)


Parsed = Union[PartOfSecond, PartOfDay, DayCount, MonthCount]


def step_of(step: Any) -> Parsed:
    """Returns the step that a caller means. Raises ValueError if clocks have no such step."""
    if isinstance(step, timedelta):
        parsed = _of_length(_nanoseconds(step))
    elif isinstance(step, str):
        parsed = _of_word(step)
    else:
        raise TypeError(f"step is 'D', 'h', '15min' or a datetime.timedelta, and not {type(step).__name__}")
    if parsed is None:
        shown = printable(repr(step))
        hint = _hint(step) if isinstance(step, str) else ""
        raise ValueError(
            "step is a number of days ('D', '2D', 'W'), a month, quarter or year ('MS', 'QS', 'YS'), "
            f"or a whole part of a day ('h', '15min', '30s') or of a second ('500ms'), and not {shown}{hint}"
        )
    return parsed


def _hint(step: str) -> str:
    """What to pass in place of a word that is no step here, if it is one of pandas or a number of them."""
    word = step.lstrip("0123456789")
    count, ours = step[: len(step) - len(word)], OF_PANDAS.get(word, word)
    if ours in ("W", *MONTHS) and count not in ("", "1"):
        return f": {ours!r} has no multiples here"
    if word.startswith("W-") and ours == word:
        return ": weeks begin on Monday here, 'W'"
    return f": pandas' {printable(repr(step))} is {count + ours!r} here" if ours != word else ""


def _of_word(step: str) -> Parsed | None:
    if step == "W":
        return DayCount(7, MONDAY)
    if step in MONTHS:
        return MonthCount(MONTHS[step])
    found = re.fullmatch(f"([0-9]{{0,9}})({'|'.join(UNITS)})", step)
    return _of_length(int(found[1] or 1) * UNITS[found[2]]) if found else None


def _of_length(nanoseconds: int) -> Parsed | None:
    day = DAY * SECOND
    if nanoseconds <= 0:
        return None
    if nanoseconds % day == 0:
        return DayCount(nanoseconds // day)
    if nanoseconds % SECOND == 0 and day % nanoseconds == 0:
        return PartOfDay(nanoseconds // SECOND)
    return PartOfSecond(nanoseconds) if SECOND % nanoseconds == 0 else None


def _nanoseconds(step: timedelta) -> int:
    """The length of a timedelta; one of pandas has nanoseconds of its own."""
    seconds = step.days * DAY + step.seconds
    return seconds * SECOND + step.microseconds * 1_000 + getattr(step, "nanoseconds", 0)


def _first_of_month(months: Array) -> Array:
    """The first day of each month, both counted from 1970-01."""
    days: Array = months.view("M8[M]").astype("M8[D]").view("i8")
    return days
