"""Columns against the definitions: zones of random lists, and each second of a window looked at."""

import numpy as np
import pytest
from definitions import NEVER, SEVERAL_TIMES, Lists, inferred, shown_times
from hypothesis import given, settings
from hypothesis import strategies as st

import sahvumbi
from sahvumbi import Zone, _native

EDGE, GREATEST_OFFSET = 300, 90
WINDOW = range(-EDGE - 3 * GREATEST_OFFSET, EDGE + 3 * GREATEST_OFFSET)


@st.composite
def zones(draw):
    offsets = draw(st.lists(st.integers(-GREATEST_OFFSET, GREATEST_OFFSET), min_size=1, max_size=5))
    seconds = sorted(draw(st.sets(st.integers(-EDGE, EDGE), max_size=8)))
    return Lists([(second, draw(st.integers(0, len(offsets) - 1))) for second in seconds], offsets)


def near(zone):
    """Local times near the zone's transitions, and anywhere."""
    places = [
        second + offset + step
        for second in zone.seconds
        for offset in zone.offsets
        for step in (-1, 0, 1)
    ]
    anywhere = st.integers(-EDGE - GREATEST_OFFSET, EDGE + GREATEST_OFFSET)
    return st.one_of(st.sampled_from(places), anywhere) if places else anywhere


COLUMNS = zones().flatmap(
    lambda zone: st.tuples(st.just(zone), st.lists(near(zone), min_size=1, max_size=12))
)


@given(COLUMNS)
def test_instants(drawn):
    lists, instants = drawn
    zone = Zone.from_bytes(lists.file())
    offsets = [lists.offset(instant) for instant in instants]
    assert zone.offsets(instants).tolist() == offsets
    assert zone.to_local(instants).tolist() == [
        instant + offset for instant, offset in zip(instants, offsets)
    ]


@given(COLUMNS)
def test_explain(drawn):
    lists, locals_ = drawn
    explained = Zone.from_bytes(lists.file()).explain(np.array(locals_, "M8[s]"))
    for row, local in enumerate(locals_):
        seconds = lists.shown_at(local, WINDOW)
        assert explained.shown[row] == shown_times(seconds)
        if not seconds:
            change = lists.first_at_or_after(local, WINDOW)
            offsets = [lists.offset(change - 1), lists.offset(change)]
            assert explained.first[row].astype(int) == explained.last[row].astype(int) == change
            assert [field[row].astype(int) for field in explained[3:]] == offsets
            continue
        assert explained.first[row].astype(int) == seconds[0]
        assert explained.last[row].astype(int) == seconds[-1]
        assert explained.first_offset[row].astype(int) == local - seconds[0]
        assert explained.last_offset[row].astype(int) == local - seconds[-1]


@given(
    COLUMNS,
    st.sampled_from(["raise", "shift", "nat"]),
    st.sampled_from(["raise", "earliest", "latest", "nat"]),
)
def test_localize(drawn, gap, fold):
    lists, locals_ = drawn
    zone = Zone.from_bytes(lists.file())
    expected = []
    for row, local in enumerate(locals_):
        seconds = lists.shown_at(local, WINDOW)
        times = shown_times(seconds)
        refused = {NEVER: gap, SEVERAL_TIMES: fold}.get(times) == "raise"
        if refused:
            with pytest.raises(sahvumbi.RowError) as raised:
                zone.localize(np.array(locals_, "M8[s]"), gap=gap, fold=fold)
            assert (raised.value.row, raised.value.number) == (row, 21 if times == NEVER else 22)
            return
        if times == NEVER:
            expected.append(None if gap == "nat" else local - lists.before_gap(local, WINDOW))
        elif times == SEVERAL_TIMES and fold == "nat":
            expected.append(None)
        else:
            expected.append(seconds[-1 if fold == "latest" else 0])
    answers = zone.localize(np.array(locals_, "M8[s]"), gap=gap, fold=fold)
    assert (
        answers.tolist()
        == np.array([("NaT" if each is None else each) for each in expected], "M8[s]").tolist()
    )


@settings(max_examples=300)
@given(COLUMNS, st.booleans())
def test_infer(drawn, is_sorted):
    lists, locals_ = drawn
    # A column as a log has it: instants in order, told by their local times.
    if is_sorted:
        locals_ = [instant + lists.offset(instant) for instant in sorted(locals_)]
    found = [lists.shown_at(local, WINDOW) for local in locals_]
    candidates = [
        sorted({seconds[0], seconds[-1]}) if seconds else [local - lists.before_gap(local, WINDOW)]
        for local, seconds in zip(locals_, found)
    ]
    zone = Zone.from_bytes(lists.file())
    if all(len(each) == 1 for each in candidates):
        expected, row = [each[0] for each in candidates], None
    else:
        expected, row = inferred(candidates)
    if row is None:
        assert zone.localize(locals_, gap="shift", fold="infer").tolist() == expected
    else:
        with pytest.raises(sahvumbi.FoldError) as raised:
            zone.localize(locals_, gap="shift", fold="infer")
        assert raised.value.row == row


@given(
    zones(),
    st.lists(st.integers(-EDGE * 10**9, EDGE * 10**9), min_size=1, max_size=8),
    st.sampled_from(["ms", "us", "ns"]),
)
def test_parts_of_a_second(lists, nanoseconds, unit):
    """A part of a second is carried along: an offset is in force for whole seconds."""
    zone = Zone.from_bytes(lists.file())
    parts = {"ms": 10**3, "us": 10**6, "ns": 10**9}[unit]
    instants = np.array(nanoseconds, "M8[ns]").astype(f"M8[{unit}]")
    counts = instants.astype(np.int64).tolist()
    expected = [count + parts * lists.offset(count // parts) for count in counts]
    assert zone.to_local(instants).astype(np.int64).tolist() == expected
    back = zone.explain(zone.to_local(instants))
    for count, first, last in zip(
        counts, back.first.astype(np.int64).tolist(), back.last.astype(np.int64).tolist()
    ):
        assert first <= count <= last


TYPES = st.tuples(
    st.integers(-2, 2).map(lambda hours: 3_600 * hours),
    st.booleans(),
    st.sampled_from(["UTC", "EST", "+0530", "ABCDE"]),
)


@st.composite
def named_zones(draw):
    """Zones with transitions that repeat a type, and that change a mark or a name alone."""
    types = draw(st.lists(TYPES, min_size=1, max_size=4))
    seconds = sorted(draw(st.sets(st.integers(-EDGE, EDGE), max_size=12)))
    return Lists([(second, draw(st.integers(0, len(types) - 1))) for second in seconds], types)


ENDS = st.integers(-EDGE - 2, EDGE + 2)


def listed(changes):
    """The changes as (second, type before, type after)."""
    at, *types = (field.tolist() for field in changes)
    return list(zip(at, zip(*types[0::2]), zip(*types[1::2])))


@settings(max_examples=300)
@given(named_zones(), ENDS, ENDS, st.sampled_from([1, 2, 7]), st.sampled_from([1, 50, 10**9]))
def test_changes(lists, first, last, room, stretch):
    """Also where the library is asked piece by piece, with little room."""
    if first > last and (first + last) % 3:
        first, last = last, first
    zone = Zone.from_bytes(lists.file())
    with pytest.MonkeyPatch.context() as patch:
        patch.setattr(_native, "ROOM", room)
        patch.setattr(_native, "STRETCH", stretch)
        assert listed(zone.changes(first, last)) == lists.changes(range(first, last))


@given(named_zones(), ENDS, ENDS, st.sampled_from(["s", "ms", "us", "ns"]), st.data())
def test_changes_between_parts_of_a_second(lists, first, last, unit, data):
    """From the first second that does not come before the end."""
    parts = {"s": 1, "ms": 10**3, "us": 10**6, "ns": 10**9}[unit]
    ends = [end * parts + data.draw(st.integers(0, parts - 1)) for end in (first, last)]
    window = [second for second in range(first, last + 1) if ends[0] <= second * parts < ends[1]]
    changes = Zone.from_bytes(lists.file()).changes(*(np.datetime64(end, unit) for end in ends))
    assert changes.at.dtype == np.dtype("M8[s]")
    assert changes.offset_before.dtype == changes.offset_after.dtype == np.dtype("m8[s]")
    expected = lists.changes(window)
    assert changes.at.view(np.int64).tolist() == [second for second, _, _ in expected]
    assert changes.offset_after.view(np.int64).tolist() == [after[0] for _, _, after in expected]
