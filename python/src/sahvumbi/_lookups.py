"""Answers about a column, block by block, except for those of `_localize`."""

from __future__ import annotations

from typing import Any, Optional

import numpy as np

from ._columns import GREATEST, Block, Column, extremes
from ._containers import NAT, Array
from ._library import FOLD_REFUSE, GAP_END, GAP_SHIFT_FORWARD, NEVER, NO_OFFSET, ONCE, OUT_OF_RANGE, SEVERAL_TIMES
from ._native import END_OF_RULE, FIRST_OF_RULE, LEAST, NativeZone
from ._containers import LocalTypes, Spans, WallClocks
from .errors import NO_OFFSET as HAS_NO_OFFSET
from .errors import NoOffsetError

# Spans that a block is searched in; if it has more, the zone is asked about each second.
MANY = 1_024


def offsets(native: NativeZone, column: Column) -> Any:
    """Returns the offset in force at each instant."""
    lengths, per_second = np.empty(len(column), np.int64), column.lengths_per_second
    for block in column.blocks():
        mine = lengths[block.rows]
        if not _write_offsets(native, block, per_second, mine):
            np.multiply(offsets_of(native, block), per_second, out=mine, dtype=np.int64)
    return column.lengths(lengths, column.values == NAT if column.has_nat and column.has_least() else None)


def local_times(native: NativeZone, column: Column) -> Array:
    """Returns the local time at each instant, as int64."""
    answers = np.empty(len(column), np.int64)
    row: Optional[int] = 0
    if column.fits_calls():
        row = native.local_times(column.per_second, column.values, answers)
    if row is not None:
        for block in column.blocks(row):
            _move(block, 1, offsets_of(native, block), answers)
    return answers


def types(native: NativeZone, column: Column) -> Any:
    """Returns the local time type in force at each instant."""
    written = Types(column)
    for block in column.blocks():
        found = native.types(block.seconds)
        _must_have_offsets(block, found["offset"])
        written.write(block, found)
    return column.container.table(LocalTypes(*written.columns()))


def spans(native: NativeZone, column: Column) -> Any:
    """Returns the local time type at each instant, and since when and until when it is in force."""
    written = Types(column)
    begin, end = np.empty(len(column), np.int64), np.empty(len(column), np.int64)
    for block in column.blocks():
        offsets_of(native, block)
        found, places = _spans_of(native, block)
        written.write(block, found["local_type"], places)
        ends = (("from_", LEAST, FIRST_OF_RULE, begin), ("until", GREATEST, END_OF_RULE, end))
        for bound, none, far, instants in ends:
            is_none = found[bound] == none
            if column.per_second > 1:
                is_none |= found[bound] == far
            write_seconds(block, np.where(is_none, 0, found[bound])[places], instants)
            if is_none.any():
                missing = NAT if column.has_nat or column.is_time else none
                instants[block.rows][is_none[places]] = missing
    # Each array is let go before the next answer is made.
    begin = column.instants(begin)
    end = column.instants(end)
    return column.container.table(Spans(*written.columns(), begin, end))


def _spans_of(native: NativeZone, block: Block) -> tuple[Array, Array]:
    """The spans of a block's instants, as `SPAN`, and the place among them for each row."""
    first, last = extremes(block.seconds)
    found = [native.span(first)]
    while len(found) < MANY:
        until = int(found[-1]["until"][0])
        following = native.span(until) if until <= last else None
        # None begins at the greatest second, but for one case.
        if following is None or following["from_"][0] != until:
            spans = np.concatenate(found)
            return spans, np.searchsorted(spans["from_"][1:], block.seconds, "right")
        found.append(following)
    seconds, places = np.unique(block.seconds, return_inverse=True)
    return np.concatenate([native.span(int(second)) for second in seconds]), places


class Types:
    """Three columns of an answer: offset, DST flag and abbreviation."""

    def __init__(self, column: Column):
        self.column = column
        self.offset, self.is_dst = np.empty(len(column), np.int32), np.empty(len(column), bool)
        self.abbreviation = np.empty(len(column), column.container.text)
        self.is_nat = np.zeros(len(column), bool)

    def write(self, block: Block, found: Array, places: Optional[Array] = None) -> None:
        """Writes the rows of a block, of `LOCAL_TYPE`: one for each row, or few of them, and the place among
        them for each row."""
        rows = block.rows
        offset, is_dst, words = found["offset"], found["is_dst"] != 0, found["abbreviation"]
        if places is None:
            self.offset[rows], self.is_dst[rows] = offset, is_dst
            _write_texts(words, self.abbreviation[rows])
        else:
            texts = np.array([word.decode() for word in words], self.abbreviation.dtype)
            self.offset[rows], self.is_dst[rows] = offset[places], is_dst[places]
            self.abbreviation[rows] = texts[places]
        if block.is_nat is not None:
            self.is_nat[rows] = block.is_nat

    def columns(self) -> tuple[Any, Any, Any]:
        self.is_dst[self.is_nat], self.abbreviation[self.is_nat] = False, ""
        plain = self.column.plain
        offsets = self.column.offsets(self.offset, self.is_nat)
        return offsets, plain(self.is_dst), plain(self.abbreviation)


def explained(native: NativeZone, column: Column) -> Any:
    """Returns how often, and when, clocks show each local time."""
    shown = np.empty(len(column), np.int8)
    first, last = np.empty(len(column), np.int64), np.empty(len(column), np.int64)
    first_offset, last_offset = np.empty(len(column), np.int32), np.empty(len(column), np.int32)
    for block in column.blocks():
        clocks = native.wall_clocks(block.seconds)
        times = clocks["shown"]
        is_none = times == OUT_OF_RANGE
        shown[block.rows] = times
        skipped = times == NEVER
        if block.is_nat is not None:
            shown[block.rows][block.is_nat] = -1
            is_none |= block.is_nat
            skipped &= ~block.is_nat
        for found, its_offsets, its_instants in (
            (clocks["first_offset"], first_offset, first),
            (clocks["last_offset"], last_offset, last),
        ):
            its_offsets[block.rows] = found
            _move(block, -1, found, its_instants)
            its_instants[block.rows][is_none] = NAT if column.has_nat or column.is_time else 0
        if skipped.any():
            rows = np.flatnonzero(skipped) + block.start
            _explain_gaps(native, column.part(rows), rows, first, last, first_offset, last_offset)
    is_none = (shown != ONCE) & (shown != SEVERAL_TIMES) & (shown != NEVER)
    # Each array is let go before the next answer is made.
    first = column.instants(first)
    last = column.instants(last)
    first_offset = column.offsets(first_offset, is_none)
    last_offset = column.offsets(last_offset, is_none)
    return column.container.table(
        WallClocks(column.plain(shown), first, last, first_offset, last_offset)
    )


def _explain_gaps(
    native: NativeZone, skipped: Column, rows: Array, first: Array, last: Array, before: Array, after: Array
) -> None:
    """Writes the change that skips each of these local times, and the offsets on both sides."""
    block = Block(skipped, 0)
    end = native.resolved(GAP_END, FOLD_REFUSE, block.seconds)
    shifted = native.resolved(GAP_SHIFT_FORWARD, FOLD_REFUSE, block.seconds)
    instants = np.empty(rows.size, np.int64)
    instants[block.in_units(end["instant"], instants)] = NAT
    first[rows] = last[rows] = instants
    before[rows], after[rows] = block.seconds - shifted["instant"], end["offset"]


def offsets_of(native: NativeZone, block: Block) -> Array:
    """Returns the offset at each instant of a block. Raises at a row that has none."""
    found: Array = np.empty(block.values.size, np.int64)
    if _write_offsets(native, block, 1, found):
        return found.astype(np.int32)
    found = native.offsets(block.seconds)
    _must_have_offsets(block, found)
    return found


def _write_offsets(native: NativeZone, block: Block, per_second: int, out: Array) -> bool:
    """Writes the offset at each instant of a block that the call for local times takes, in units of which
    `per_second` make a second. Returns whether it takes them all."""
    # A column of local times takes a third of the time of one of offsets.
    units = block.column.per_second
    if not block.fits_calls() or native.local_times(units, block.values, out) is not None:
        return False
    np.subtract(out, block.values, out=out)
    if units != per_second:
        np.floor_divide(out, units // per_second, out=out)
    return True


def _must_have_offsets(block: Block, found: Array) -> None:
    if int(found.min()) == NO_OFFSET:
        row = block.start + int(found.argmin())
        raise block.column.error(NoOffsetError, row, HAS_NO_OFFSET)


def _move(block: Block, sign: int, found: Array, answers: Array) -> None:
    """Writes the rows of a block, each moved by its offset. Raises at a row that doesn't fit."""
    misfits = block.moved(sign, found, answers[block.rows])
    if misfits.size:
        raise block.column.misfit(block.start + int(misfits[0]))


def write_seconds(block: Block, seconds: Array, answers: Array) -> None:
    """Writes a second for each row of a block. Raises at a row that doesn't fit."""
    misfits = block.in_units(seconds, answers[block.rows])
    if misfits.size:
        raise block.column.misfit(block.start + int(misfits[0]))


def _write_texts(words: Array, out: Array) -> None:
    """Writes short words as texts, of which there are few different ones: each is made once."""
    numbers = np.ascontiguousarray(words).view(np.int64)
    is_left = np.ones(words.size, bool)
    while is_left.any():
        first = int(is_left.argmax())
        same = numbers == numbers[first]
        out[same] = words[first].decode()
        is_left &= ~same
