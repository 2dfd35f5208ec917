"""The span of each instant, and where two zones differ."""

from datetime import datetime, timezone
from zoneinfo import ZoneInfo

import numpy as np
import pandas as pd
import pytest
from definitions import pieces, shown_times
from hypothesis import given, settings
from hypothesis import strategies as st
from test_definitions import COLUMNS, EDGE, ENDS, WINDOW, named_zones, zones

import sahvumbi
from sahvumbi import Zone, moved

NEW_YORK = Zone("America/New_York")
LEAST, GREATEST = -(2**63), 2**63 - 1
WINTER, MARCH, NOVEMBER = 1_604_210_400, 1_615_705_200, 1_636_264_800


@settings(max_examples=200)
@given(named_zones(), st.lists(st.integers(-EDGE - 5, EDGE + 5), min_size=1, max_size=8))
def test_spans(lists, instants):
    changes = [LEAST, *(second for second, _, _ in lists.changes(WINDOW)), GREATEST]
    zone = Zone.from_bytes(lists.file())
    spans = zone.spans(instants)
    times = zone.spans(np.array(instants, "M8[s]"))
    for row, instant in enumerate(instants):
        from_ = max(each for each in changes if each <= instant)
        until = min(each for each in changes if each > instant)
        offset, is_dst, name = lists.type(instant)
        assert [field[row] for field in spans] == [offset, is_dst, name, from_, until]
        assert times.offset[row].astype(int) == offset
        for bound, none, answer in ((from_, LEAST, times.from_), (until, GREATEST, times.until)):
            assert np.isnat(answer[row]) if bound == none else answer[row].astype(int) == bound


@pytest.mark.parametrize("name", ["America/New_York", "Europe/Dublin", "Pacific/Apia"])
def test_spans_beside_zoneinfo(name):
    """Of instants in no order, over several blocks."""
    begin, end = (int(datetime(year, 1, 1, tzinfo=timezone.utc).timestamp()) for year in (2005, 2015))
    first, until, offset = (np.array(each) for each in zip(*pieces(ZoneInfo(name), begin, end)))
    instants = np.random.default_rng(0).integers(first[1], first[-1], 150_000)
    spans = Zone(name).spans(instants)
    places = np.searchsorted(first, instants, "right") - 1
    np.testing.assert_array_equal(spans.offset, offset[places])
    np.testing.assert_array_equal(spans.from_, first[places])
    np.testing.assert_array_equal(spans.until, until[places])


def test_spans_over_many_years():
    """More of them than a block is searched in."""
    years = np.arange(-50_000, 50_000, 97).astype("M8[Y]").astype("M8[s]")
    spans = NEW_YORK.spans(years)
    changes = NEW_YORK.changes(years[0] - np.timedelta64(400, "D"), years[-1] + np.timedelta64(400, "D")).at
    places = np.searchsorted(changes, years, "right")
    np.testing.assert_array_equal(spans.until, changes[places])
    np.testing.assert_array_equal(spans.from_[places > 0], changes[places[places > 0] - 1])
    assert np.isnat(spans.from_[places == 0]).all() and (places == 0).any()


def test_forms_of_spans():
    moment = datetime(2021, 1, 1, tzinfo=timezone.utc)
    span = NEW_YORK.spans(moment)
    assert span[1:3] == (False, "EST")
    assert [each.timestamp() for each in span[3:]] == [WINTER, MARCH]
    assert Zone.from_text("EST5").spans(moment)[3:] == (None, None)
    series = pd.Series(pd.to_datetime(["2021-07-01", None]), index=["a", "b"]).dt.tz_localize("UTC")
    frame = NEW_YORK.spans(series)
    assert list(frame.columns) == ["offset", "is_dst", "abbreviation", "from_", "until"]
    a = frame.loc["a"]
    assert (a["abbreviation"], a["from_"].timestamp(), a["until"].timestamp()) == ("EDT", MARCH, NOVEMBER)
    assert frame.loc["b"].tolist()[1:3] == [False, ""] and frame.loc["b"].isna().sum() == 3
    fixed = Zone.from_text("EST5").spans(series)
    assert fixed["from_"].isna().all() and fixed["until"].dtype == "datetime64[ns, UTC]"
    counted = Zone.from_text("EST5").spans(pd.Series([0, None], dtype="Int64"))
    assert counted["from_"].isna().all() and counted["offset"].tolist() == [-18_000, pd.NA]
    empty = NEW_YORK.spans(np.empty((0, 2), "M8[s]"))
    assert empty.from_.shape == (0, 2)


def test_ends_of_spans():
    """Near the ends of 64 bits, at the ends of a rule, and where an end doesn't fit the unit."""
    years = Zone.from_text("AAA0BBB0,J60/2,J60/2")
    assert years.spans(0)[3:] == (-67_768_100_504_812_800, 67_767_976_170_460_800)
    assert np.isnat(years.spans(np.array([0], "M8[ns]"))[3:]).all()
    fixed = Zone.from_text("EST5").spans([LEAST, GREATEST, GREATEST])
    assert fixed.from_.tolist() == [LEAST] * 3 and fixed.until.tolist() == [GREATEST] * 3
    last = np.array([2**63 - 1], np.int64).view("M8[ns]")
    assert NEW_YORK.changes(np.datetime64("2262-04-12"), np.datetime64("2263")).at.size
    with pytest.raises(sahvumbi.OutOfRangeError, match="does not fit"):
        NEW_YORK.spans(last)
    with pytest.raises(sahvumbi.NoOffsetError) as raised:
        NEW_YORK.spans([0, 2**63 - 1])
    assert raised.value.row == 1


# Differences


@settings(max_examples=300)
@given(named_zones(), named_zones(), ENDS, ENDS)
def test_differences(old, new, first, last):
    """Each second of the stretch: maximal stretches with one type in each zone."""
    if first > last and (first + last) % 3:
        first, last = last, first
    expected = []
    for second in range(first, last):
        types = old.type(second), new.type(second)
        if types[0] == types[1]:
            continue
        if expected and expected[-1][1:] == (second, *types):
            expected[-1] = (expected[-1][0], second + 1, *types)
        else:
            expected.append((second, second + 1, *types))
    zone, other = (Zone.from_bytes(each.file()) for each in (old, new))
    found = zone.differences(other, first, last)
    fields = [field.tolist() for field in found]
    listed = list(zip(fields[0], fields[1], zip(*fields[2::2]), zip(*fields[3::2])))
    assert listed == expected and bool(found) == bool(expected)
    times = zone.differences(other, np.datetime64(first, "s"), np.datetime64(last, "s"))
    assert times.from_.dtype == times.until.dtype == np.dtype("M8[s]")
    assert times.until.view(np.int64).tolist() == fields[1]
    assert times.offset_new.astype(int).tolist() == fields[3]


def test_differences_of_zones():
    """Of a year in which Volgograd kept another time than Moscow, and a zone and itself."""
    moscow, volgograd = Zone("Europe/Moscow"), Zone("Europe/Volgograd")
    ends = np.datetime64("2018-01-01"), np.datetime64("2022-01-01")
    found = moscow.differences(volgograd, *ends)
    # As the tz database says: Volgograd went from +03 to +04 at 02:00 on 2018-10-28, and back on 2020-12-27.
    assert found.from_.astype(str).tolist() == ["2018-10-27T23:00:00"]
    assert found.until.astype(str).tolist() == ["2020-12-26T22:00:00"]
    frame = found.to_frame()
    assert frame["until"][0] == pd.Timestamp("2020-12-26 22:00", tz="UTC")
    assert frame["offset_new"][0] - frame["offset_old"][0] == pd.Timedelta("1h")
    assert not NEW_YORK.differences(NEW_YORK, *ends)
    assert not NEW_YORK.differences(moscow, 0, 0) and NEW_YORK.differences(moscow, 0, 1)
    for ask in (NEW_YORK.differences, lambda *words: moved(NEW_YORK, *words[:2])):
        with pytest.raises(TypeError, match="a str is no Zone"):
            ask("Europe/Moscow", 0, 1)
    with pytest.raises(TypeError, match="both numbers"):
        NEW_YORK.differences(moscow, 0, np.datetime64("2021"))
    with pytest.raises(sahvumbi.NoOffsetError, match="^to: ") as raised:
        moscow.differences(NEW_YORK, 0, 2**63 - 1)
    assert raised.value.label == "to" and raised.value.row is None
    with pytest.raises(sahvumbi.NoOffsetError, match="^from_: "):
        Zone.from_text("EST5EDT,M3.2.0,M11.1.0").differences(moscow, -(2**63), 0)


# Moved rows


@settings(max_examples=200)
@given(COLUMNS, zones(), st.sampled_from(["shift", "nat"]), st.sampled_from(["earliest", "latest", "nat"]))
def test_moved(drawn, new, gap, fold):
    old, locals_ = drawn

    def instant(lists, local):
        seconds = lists.shown_at(local, WINDOW)
        if not seconds:
            return None if gap == "nat" else local - lists.before_gap(local, WINDOW)
        if fold == "nat" and shown_times(seconds) == 2:
            return None
        return seconds[-1 if fold == "latest" else 0]

    expected = []
    for row, local in enumerate(locals_):
        each = instant(old, local), instant(new, local)
        if each[0] != each[1]:
            expected.append((row, local, *each))
    zones_ = (Zone.from_bytes(each.file()) for each in (old, new))
    found = moved(*zones_, np.array(locals_, "M8[s]"), gap, fold)
    fields = [found.row.tolist()]
    for field in found[1:4]:
        fields.append([None if np.isnat(each) else int(each.view(np.int64)) for each in field])
    assert list(zip(*fields)) == expected and bool(found) == bool(expected) and found.label is None


def test_forms_of_moved():
    old = Zone.from_text("EST5")
    series = pd.Series(pd.to_datetime(["2021-01-01", "2021-07-01", None]), index=list("abc"), name="when")
    found = moved(old, NEW_YORK, series)
    frame = found.to_frame()
    assert frame.index.tolist() == ["b"] and list(frame.columns) == ["row", "value", "old", "new"]
    assert frame.loc["b"].tolist() == [
        1, pd.Timestamp("2021-07-01"), pd.Timestamp("2021-07-01 05:00Z"), pd.Timestamp("2021-07-01 04:00Z"),
    ]
    numbers = moved(old, NEW_YORK, [MARCH, NOVEMBER + 86_400])
    assert numbers.row.tolist() == [0] and numbers.to_frame()["new"].dtype == np.int64
    assert not moved(NEW_YORK, NEW_YORK, series)
    with pytest.raises(sahvumbi.GapError):
        moved(old, NEW_YORK, np.array(["2021-03-14T02:30"], "M8[s]"))
    twice = np.array(["2021-11-07T01:30"] * 2, "M8[s]")
    assert moved(old, NEW_YORK, twice, is_dst=[True, False]).row.tolist() == [0]
