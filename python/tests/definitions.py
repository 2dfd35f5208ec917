"""What is right, by the definitions: zones made of lists, and answers by looking at each second."""

from __future__ import annotations

import itertools
import struct
from bisect import bisect_right
from datetime import datetime

NEVER, ONCE, SEVERAL_TIMES = 0, 1, 2
DAY, QUARTER = 86_400, 900


def tzif(transitions, types, footer=""):
    """A TZif file of version 2 (RFC 8536).

    Transitions are (second, place in types), and a type is (offset, whether it is daylight saving
    time, name)."""
    names = b"".join(name.encode() + b"\0" for _, _, name in types)
    ends = itertools.accumulate((len(name) + 1 for _, _, name in types), initial=0)
    rows = b"".join(
        struct.pack(">lBB", offset, is_dst, end) for (offset, is_dst, _), end in zip(types, ends)
    )
    empty = (
        b"TZif2"
        + bytes(15)
        + struct.pack(">6L", 0, 0, 0, 0, 1, 4)
        + struct.pack(">lBB", 0, 0, 0)
        + b"UTC\0"
    )
    counts = struct.pack(">6L", 0, 0, 0, len(transitions), len(types), len(names))
    head = b"TZif2" + bytes(15) + counts
    times = b"".join(struct.pack(">q", second) for second, _ in transitions)
    places = bytes(place for _, place in transitions)
    return empty + head + times + places + rows + names + b"\n" + footer.encode() + b"\n"


class Lists:
    """A zone without a rule: the first type, and from each transition on its own.

    Types are offsets, or (offset, whether it is daylight saving time, name)."""

    def __init__(self, transitions, types):
        self.transitions = transitions
        self.types = [each if isinstance(each, tuple) else (each, False, "UTC") for each in types]
        self.offsets = [offset for offset, _, _ in self.types]
        self.seconds = [second for second, _ in transitions]

    def file(self):
        return tzif(self.transitions, self.types)

    def type(self, instant):
        come = bisect_right(self.seconds, instant)
        return self.types[self.transitions[come - 1][1] if come else 0]

    def offset(self, instant):
        return self.type(instant)[0]

    def changes(self, window):
        """Each second of the window at which another type is in force than at the one before."""
        return [
            (second, self.type(second - 1), self.type(second))
            for second in window
            if self.type(second - 1) != self.type(second)
        ]

    def shown_at(self, local, window):
        """Each second of the window at which a clock shows the local time."""
        return [second for second in window if second + self.offset(second) == local]

    def first_at_or_after(self, local, window):
        """The first second of the window at which clocks show the local time or a later one."""
        return next(second for second in window if second + self.offset(second) >= local)

    def day(self, instant, window):
        """The latest date that clocks have shown up to a second of the window."""
        return max((each + self.offset(each)) // DAY for each in window if each <= instant)

    def floor(self, instant, step, window):
        """The last second of the window, up to the instant, at which a step of the clocks begins:
        they show a multiple of it then, or another step at the second before."""
        shown = {each: each + self.offset(each) for each in window if each <= instant}
        return max(
            each
            for each, local in shown.items()
            if local % step == 0 or shown.get(each - window.step, local) // step != local // step
        )

    def ceil(self, instant, step, window):
        """The first second of the window, from the instant on, at which a step of the clocks begins."""
        return next(each for each in window if each >= instant and self.floor(each, step, window) == each)

    def before_gap(self, local, window):
        """The offset at the second before the first of those at which clocks show more."""
        first = next(second for second in window if second + self.offset(second) > local)
        return self.offset(first - 1)


def shown_times(seconds):
    return min(len(seconds), SEVERAL_TIMES)


def inferred(candidates):
    """Each row's instant, run by run; or else the first row that its run doesn't decide. (`candidates` has the first and
    the last instant of each row, or the only one.) Neighbouring rows are of one run if both were shown several times,
    and the two stretches from first to last overlap."""
    found, begin, undecided = [], 0, []
    for row in range(1, len(candidates) + 1):
        if row < len(candidates) and all(
            len(each) > 1 and each[0] < other[-1]
            for each, other in itertools.permutations(candidates[row - 1 : row + 1])
        ):
            continue
        answers, wrong = inferred_run(candidates[begin:row])
        found += answers or []
        if wrong is not None:
            undecided.append(begin + wrong)
        begin = row
    return (None, min(undecided)) if undecided else (found, None)


def inferred_run(candidates):
    """Each row's instant if one choice keeps the order, or if several do and in one of them no two
    neighbours are the same instant; or else the first row that none or two of those in order decide."""
    if len(candidates) > 1 and max(each[0] for each in candidates) >= min(each[-1] for each in candidates):
        # Folds that overlap.
        return None, 0
    for count in range(1, len(candidates) + 1):
        if not choices_in_order(candidates[:count]):
            return None, count - 1
    choices = choices_in_order(candidates)
    distinct = [each for each in choices if all(a < b for a, b in zip(each, each[1:]))]
    if len(distinct) == 1:
        choices = distinct
    for row in range(len(candidates)):
        if len({choice[row] for choice in choices}) > 1:
            return None, row
    return list(choices[0]) if choices else [], None


def choices_in_order(candidates):
    return [
        each
        for each in itertools.product(*candidates)
        if all(a <= b for a, b in zip(each, each[1:]))
    ]


def pieces(zone, begin, end):
    """The stretches of seconds in which a zone of zoneinfo has one offset, as (first, until,
    offset): found at each quarter of an hour, and by halves between two of them."""
    found, first = [], begin
    for second in range(begin, end, QUARTER):
        low, high = second, min(second + QUARTER, end - 1)
        if offset_of(zone, low) == offset_of(zone, high):
            continue
        while high - low > 1:
            middle = (low + high) // 2
            same = offset_of(zone, middle) == offset_of(zone, low)
            low, high = (middle, high) if same else (low, middle)
        found.append((first, high, offset_of(zone, low)))
        first = high
    return [*found, (first, end, offset_of(zone, end - 1))]


def offset_of(zone, second):
    return int(datetime.fromtimestamp(second, zone).utcoffset().total_seconds())


def first_in(found, local):
    """The first second of the pieces at which clocks show a local time or a later one."""
    for first, until, offset in found:
        if until - 1 + offset >= local:
            return max(first, local - offset)
    raise ValueError(local)


def floor_in(found, second, step):
    """The last second of the pieces, up to one of them, at which a step of the clocks begins."""
    shown = first_second = None
    for first, until, offset in reversed(found):
        if second < first:
            continue
        if shown is None:
            shown = (second + offset) // step
        elif (until - 1 + offset) // step != shown:
            return first_second
        if first <= shown * step - offset:
            return shown * step - offset
        first_second = first
    raise ValueError(second)
