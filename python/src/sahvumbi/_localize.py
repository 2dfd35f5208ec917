"""Local times to instants: gaps and folds, by the choice of the call or by the order of rows."""

from __future__ import annotations

from typing import Iterator, NamedTuple, Optional

import numpy as np

from ._choice import Choice, Fault
from ._columns import BLOCK, FIRST_SECOND, LAST_SECOND, NO_ROWS, Block, Column
from ._containers import NAT, Array
from ._library import (
    FOLD_EARLIEST, FOLD_LATEST, FOLD_NO_TIME, FOLD_REFUSE, GAP_END, GAP_NO_TIME, GAP_REFUSE, GAP_SHIFT_BACKWARD,
    GAP_SHIFT_FORWARD, NEVER, ONCE, OUT_OF_RANGE, SEVERAL_TIMES,
)
from ._native import NativeZone
from .errors import FOLD, GAP, WORDS, FoldError, RowError
from .errors import OUT_OF_RANGE as IS_OUT_OF_RANGE

# No offset is as great.
FAR = 2**31
OUTSIDE = "the local time is outside the years -262143 to 262142"

# What the zone decides by itself. Before the end of a gap comes a unit of the column, which the zone can't know.
GAPS = {"shift": GAP_SHIFT_FORWARD, "after": GAP_END, "shift_back": GAP_SHIFT_BACKWARD}
FOLDS = {"earliest": FOLD_EARLIEST, "latest": FOLD_LATEST}
# What it decides for a column.
GAPS_OF_COLUMNS = {**GAPS, "nat": GAP_NO_TIME}
FOLDS_OF_COLUMNS = {**FOLDS, "nat": FOLD_NO_TIME}
# If fewer rows than these come between two that are left, more of them are left at a time.
CLOSE = 128


def localized(native: NativeZone, column: Column, choice: Choice) -> Array:
    """Returns the instant of each row; NaT where the choice gives none."""
    answers = np.empty(len(column), np.int64)
    rows, last = [], []
    for places in _left(native, column, choice, answers):
        part = column.part(places)
        clocks = Clocks(native, Block(part, 0), choice.part(places))
        clocks.take()
        answers[places] = clocks.instants(clocks.last if choice.fold == "latest" else clocks.first)
        rows.append(places[clocks.open])
        last.append(clocks.last_instants())
        choice.fail(part, clocks.faults)
    if any(each.size for each in rows):
        folds = Folds(np.concatenate(rows), np.concatenate(last))
        decide(column, answers, folds, choice.groups)
    return answers


def _left(native: NativeZone, column: Column, choice: Choice, answers: Array) -> Iterator[Array]:
    """Writes the instants that the zone gives by itself.

    Yields the places of the other rows, in order, `BLOCK` at most at a time."""
    left, count, row, step, size = [], 0, 0, 1, len(column)
    gap, fold = GAPS_OF_COLUMNS.get(choice.gap, GAP_REFUSE), FOLDS_OF_COLUMNS.get(choice.fold, FOLD_REFUSE)
    asked = native.instants(gap, fold, column.per_second, column.values, answers)
    # The call gives instants outside the calendar too.
    asks = column.fits_calls() and column.lies_in(FIRST_SECOND + FAR, LAST_SECOND - FAR)
    while row < size:
        found = asked(row) if asks else row
        if found is None:
            break
        step = min(2 * step, BLOCK) if found - row < CLOSE else 1
        row = min(found + step, found + BLOCK - count, size)
        left.append(np.arange(found, row))
        count += row - found
        if count == BLOCK:
            yield np.concatenate(left)
            left, count = [], 0
    if left:
        yield np.concatenate(left)


class Clocks:
    """How often a block's local times are shown, and the offsets at the first and the last time."""

    def __init__(self, native: NativeZone, block: Block, choice: Choice):
        self.native, self.block, self.choice = native, block, choice
        clocks = native.wall_clocks(block.seconds)
        self.shown = clocks["shown"].copy()
        self.first, self.last = clocks["first_offset"].copy(), clocks["last_offset"].copy()
        # The rows that become NaT, those that are moved to an end of their gap, and those that the
        # order of rows decides.
        self.lost: Array = NO_ROWS
        self.cut: Array = NO_ROWS
        self.open: Array = NO_ROWS
        self.faults: list[Fault] = []

    def take(self) -> None:
        """Decides gaps and folds: makes two offsets one, or gives rows up as lost or failed."""
        gap, fold = self.choice.gap, self.choice.fold
        rows = (self.shown != ONCE).nonzero()[0]
        if not rows.size:
            return
        if self.block.is_nat is not None:
            rows = rows[~self.block.is_nat[rows]]
        shown = self.shown[rows]
        never, several, outside = shown == NEVER, shown == SEVERAL_TIMES, shown == OUT_OF_RANGE
        self._fail(rows[outside], IS_OUT_OF_RANGE, OUTSIDE)
        self._fail(rows[never & (gap == "raise")], GAP)
        self._fail(rows[several & (fold == "raise")], FOLD)
        skipped = rows[never]
        if skipped.size and gap in (*GAPS, "before"):
            self._resolve(skipped)
        if fold == "given" and several.any():
            self._take_given(rows[several])
        if fold == "infer":
            self.open = rows[several & (self.first[rows] != self.last[rows])]
        self._lose(rows[(never & (gap == "nat")) | (several & (fold == "nat"))])

    def _resolve(self, skipped: Array) -> None:
        """Takes the instant of each row that clocks skipped."""
        local_times = self.block.seconds[skipped]
        policy = GAPS.get(self.choice.gap, GAP_END)
        resolved = self.native.resolved(policy, FOLD_REFUSE, local_times)
        self.first[skipped] = self.last[skipped] = local_times - resolved["instant"]
        if policy == GAP_END:
            self.cut = skipped
        outside = skipped[resolved["number"] != 0]
        self.first[outside] = self.last[outside] = 0
        self._fail(outside, IS_OUT_OF_RANGE)

    def _take_given(self, rows: Array) -> None:
        """Takes what a column of the caller says of the rows that clocks showed several times."""
        given = self.choice.given
        assert given is not None
        values = given.values[rows]
        first, last = self.first[rows], self.last[rows]
        local_times = self.block.seconds[rows]
        if given.name == "fold":
            offsets, is_decided = np.where(values == 1, last, first), values >= 0
        elif given.name == "is_dst":
            is_first = self._is_dst(local_times - first) == values
            is_last = self._is_dst(local_times - last) == values
            offsets, is_decided = np.where(is_last, last, first), is_first != is_last
        else:
            is_decided = (values > -FAR) & (values < FAR)
            offsets = np.where(is_decided, values, 0)
            is_decided &= self.native.offsets(local_times - offsets) == offsets
        self.first[rows] = self.last[rows] = offsets
        words = f"{WORDS[FOLD]}, and {given.name}= does not say which it is"
        self._fail(rows[~is_decided], FOLD, words)

    def _is_dst(self, instants: Array) -> Array:
        flags: Array = self.native.types(instants)["is_dst"]
        return flags

    # Instants

    def instants(self, offsets: Array) -> Array:
        """Returns the instants by these offsets."""
        found = np.empty(self.block.values.size, np.int64)
        misfits = self._moved(offsets, found)
        if self.cut.size:
            parts = self.block.counted[self.cut] % self.block.column.per_second
            parts += self.choice.gap == "before"
            least = NAT + self.block.column.has_nat
            misfits = np.union1d(misfits, self.cut[found[self.cut] < least + parts])
            found[self.cut] -= parts
        self._fail(misfits, IS_OUT_OF_RANGE, self.block.column.misfit_words)
        if self.lost.size:
            found[self.lost] = NAT
        return found

    def last_instants(self) -> Array:
        """Returns the last instants of the open rows."""
        if not self.open.size:
            return self.open
        instants = np.empty(self.block.values.size, np.int64)
        misfits = np.intersect1d(self._moved(self.last, instants), self.open)
        self._fail(misfits, IS_OUT_OF_RANGE, self.block.column.misfit_words)
        return instants[self.open]

    def _moved(self, offsets: Array, out: Array) -> Array:
        """Writes the instants, and returns the places of those that don't fit the column."""
        block = self.block
        per_second = block.column.per_second
        if (
            block.ends[0] // per_second < FIRST_SECOND + FAR
            or block.ends[1] // per_second > LAST_SECOND - FAR
        ):
            self._must_be_in_range(offsets)
        return block.moved(-1, offsets, out)

    def _must_be_in_range(self, offsets: Array) -> None:
        instants = self.block.seconds - offsets
        outside = (instants < FIRST_SECOND) | (instants > LAST_SECOND)
        self._fail(np.flatnonzero(outside), IS_OUT_OF_RANGE)

    # Rows without an answer

    def _lose(self, places: Array) -> None:
        self.lost = np.union1d(self.lost, places)

    def _fail(self, places: Array, number: int, words: Optional[str] = None) -> None:
        """Notes the rows that have no answer, but for those that are lost already."""
        if places.size:
            places = np.setdiff1d(places, self.lost)
        if places.size:
            self.faults.append(Fault(places, number, words))
            self._lose(places)


# Folds that the order of rows decides


class Folds(NamedTuple):
    """Rows that clocks showed several times, in order, and the last instant of each."""

    rows: Array
    last: Array


def decide(column: Column, answers: Array, folds: Folds, groups: Optional[Array]) -> None:
    """Writes the instants of the folds. `answers` has the first instant of each row, and NaT for those that have no part
    in the order.

    A run is neighbouring rows of a group that lie in one fold, in which each first instant comes before each last one.
    So rows in order of time are first instants up to a row, and last ones from it on. If several rows may be that one,
    it is the only one for which no two neighbours are the same instant. Raises `FoldError` at the first row of a run
    that may be both, or at the first up to which no choice is in order.
    """
    rows, last, places = _in_order(column, answers, folds, groups)
    first = answers[rows]
    goes_on = (np.diff(places) == 1) & (first[1:] < last[:-1]) & (first[:-1] < last[1:])
    runs = Runs(first, last, goes_on)
    least, greatest = runs.turns(np.less)
    turn, other = runs.turns(np.less_equal)
    turn[least == greatest] = other[least == greatest] = least[least == greatest]
    is_decided = runs.are_one_fold & (least <= greatest) & (turn == other)
    if not is_decided.all():
        raise _undecided(column, rows, runs, is_decided)
    answers[rows] = np.where(np.arange(rows.size) < turn[runs.run], first, last)


class Runs:
    """Runs of rows that clocks showed several times."""

    def __init__(self, first: Array, last: Array, goes_on: Array):
        self.first, self.last, self.goes_on = first, last, goes_on
        # The run of each row, where each begins and ends, and whether each of its first instants comes before each last one.
        self.run = np.concatenate([[0], np.cumsum(~goes_on)])
        self.begins = np.flatnonzero(np.concatenate([[True], ~goes_on]))
        self.ends = np.append(self.begins[1:], first.size)
        self.are_one_fold = np.maximum.reduceat(first, self.begins) < np.minimum.reduceat(last, self.begins)

    def falls(self, instants: Array, comes_before: np.ufunc) -> Array:
        """Returns the rows whose instant comes before that of the row above, in the same run."""
        return np.flatnonzero(self.goes_on & comes_before(instants[1:], instants[:-1])) + 1

    def turns(self, comes_before: np.ufunc) -> tuple[Array, Array]:
        """Returns the least and the greatest row of each run at which first instants can turn into last ones and keep the order.

        It may be the end of the run. No row can if the least is above the greatest."""
        of_first, of_last = self.falls(self.first, comes_before)[::-1], self.falls(self.last, comes_before)
        least, greatest = self.begins.copy(), self.ends.copy()
        least[self.run[of_last]], greatest[self.run[of_first]] = of_last, of_first
        return least, greatest


def _in_order(
    column: Column, answers: Array, folds: Folds, groups: Optional[Array]
) -> tuple[Array, Array, Array]:
    """The rows of folds, group by group, their last instants, and places, of which two in turn are those of neighbours.

    Rows without an instant have no place."""
    rows, last = folds
    left_out = np.flatnonzero(answers == NAT) if column.has_nat else NO_ROWS
    if groups is None:
        return rows, last, rows - np.searchsorted(left_out, rows)
    order = np.argsort(groups, kind="stable")
    if left_out.size:
        order = order[answers[order] != NAT]
    is_open = np.zeros(answers.size, bool)
    is_open[rows] = True
    places = np.flatnonzero(is_open[order])
    in_order = order[places]
    # The last row of a group and the first one of the next are no neighbours.
    return in_order, last[np.searchsorted(rows, in_order)], places + groups[in_order]


def _undecided(column: Column, rows: Array, runs: Runs, is_decided: Array) -> RowError:
    """Returns the error of the first row that the order doesn't decide."""
    least, greatest = runs.turns(np.less)
    # The first row of each run up to which no choice is in order.
    falls = runs.falls(runs.last, np.less)[::-1]
    falls = falls[falls > greatest[runs.run[falls]]]
    named = np.where(runs.are_one_fold, least, runs.begins)
    named[runs.run[falls]] = np.where(runs.are_one_fold[runs.run[falls]], falls, named[runs.run[falls]])
    undecided = np.flatnonzero(~is_decided)
    mine = undecided[rows[named[undecided]].argmin()]
    repeats = runs.falls(runs.first, np.equal)
    repeats = repeats[runs.run[repeats] == mine]
    if not runs.are_one_fold[mine]:
        why = "folds of the zone overlap here"
    elif least[mine] > greatest[mine]:
        one, other = _told(column, rows[[greatest[mine], named[mine]]])
        why = f"rows {one} and {other} both go back to an earlier time, and clocks are set back once"
    elif repeats.size < 2:
        why = "none of the neighbouring rows in this fold goes back to an earlier time or repeats one"
    else:
        one, other = _told(column, rows[repeats[:2]])
        why = f"rows {one} and {other} both repeat the time above, so one of them is the same instant as the row above"
    words = f"{WORDS[FOLD]}, and the order of rows doesn't decide it: {why}"
    error = column.error(FoldError, int(rows[named[mine]]), FOLD, words)
    error.advice = "pass is_dst=, offset= or fold= for each row, or by= for several series"
    return error


def _told(column: Column, rows: Array) -> Array:
    """Returns the rows as the caller counts them."""
    return rows if column.places is None else column.places[rows]
