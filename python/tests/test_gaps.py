"""Local times in gaps: the ends of the gap, and the instants by the offsets before and after it."""

from datetime import timedelta, timezone
from zoneinfo import ZoneInfo

import numpy as np
import pandas as pd
import pytest
from definitions import NEVER, Lists
from hypothesis import given, settings
from hypothesis import strategies as st
from test_definitions import COLUMNS, WINDOW

import sahvumbi
from sahvumbi import Zone

NEW_YORK = Zone("America/New_York")


def after_gap(lists, local):
    """The first second at which clocks show a later time."""
    return next(second for second in WINDOW if second + lists.offset(second) > local)


@settings(max_examples=300)
@given(
    COLUMNS,
    st.sampled_from(["s", "ms", "ns"]),
    st.integers(0, 999),
    st.sampled_from(["after", "before", "shift", "shift_back"]),
)
def test_gaps(drawn, unit, part, gap):
    lists, locals_ = drawn
    parts = {"s": 1, "ms": 10**3, "ns": 10**9}[unit]
    part = part if parts > 1 else 0
    values = np.array([local * parts + part for local in locals_], np.int64).view(f"M8[{unit}]")
    expected = []
    for local in locals_:
        seconds = lists.shown_at(local, WINDOW)
        end = None if seconds else after_gap(lists, local)
        if seconds:
            expected.append(seconds[0] * parts + part)
        elif gap in ("after", "before"):
            expected.append(end * parts - (gap == "before"))
        else:
            offset = lists.offset(end - 1 if gap == "shift" else end)
            expected.append((local - offset) * parts + part)
    answers = Zone.from_bytes(lists.file()).localize(values, gap=gap, fold="earliest")
    assert answers.view(np.int64).tolist() == expected


def around_gaps(zone):
    """Each quarter of an hour of the days at which clocks were set forward, from 1970 to 2036."""
    changes = zone.changes(np.datetime64("1970-01-03"), np.datetime64("2036-12-01"))
    forward = changes.at[changes.offset_after > changes.offset_before].astype("M8[D]")
    steps = np.arange(-2 * 86_400, 3 * 86_400, 900) * np.timedelta64(1, "s")
    return pd.Series(np.unique((forward[:, None] + steps).reshape(-1)).astype("M8[ns]"))


@pytest.mark.parametrize("name", ["America/New_York", "Europe/Paris", "America/Los_Angeles"])
def test_shifts_of_pandas(name):
    zone = Zone(name)
    locals_ = around_gaps(zone)
    assert (zone.explain(locals_)["shown"] == NEVER).any()
    folds = np.ones(len(locals_), bool)
    hour = pd.Timedelta("1h")
    words = {"after": "shift_forward", "before": "shift_backward", "shift": hour, "shift_back": -hour}
    for gap, word in words.items():
        theirs = locals_.dt.tz_localize(name, ambiguous=folds, nonexistent=word)
        ours = zone.localize(locals_, gap=gap, is_dst=folds)
        pd.testing.assert_series_equal(ours, theirs.dt.tz_convert("UTC"))


@pytest.mark.parametrize(
    "name, skipped, after",
    [
        ("Europe/London", "2021-03-28 01:30", "2021-03-28 02:00:00+01:00"),
        ("Australia/Lord_Howe", "2021-10-03 02:10", "2021-10-03 02:30:00+11:00"),
        ("Pacific/Apia", "2011-12-30 22:30", "2011-12-31 00:00:00+14:00"),
    ],
)
def test_where_shift_forward_of_pandas_differs(name, skipped, after):
    """pandas 1.5.3 takes 03:00 in London and on Lord Howe, and an earlier day in Apia."""
    answer = Zone(name).localize(pd.Series([pd.Timestamp(skipped)]), gap="after", tz=name)
    assert str(answer[0]) == after


@pytest.mark.parametrize(
    "name",
    ["America/New_York", "Europe/London", "Australia/Lord_Howe", "Pacific/Apia"],
)
def test_gaps_beside_zoneinfo(name):
    """At the instant a clock shows a later time, and a second before an earlier one."""
    zone, theirs = Zone(name), ZoneInfo(name)
    locals_ = around_gaps(zone)
    locals_ = locals_[zone.explain(locals_)["shown"] == NEVER]
    assert len(locals_)
    after, before, *shifted = (zone.localize(locals_, gap) for gap in ("after", "before", "shift", "shift_back"))
    assert (after - before == pd.Timedelta(1, "ns")).all()
    for fold, ours in enumerate(shifted):  # PEP 495
        moments = (local.to_pydatetime().replace(tzinfo=theirs, fold=fold) for local in locals_)
        assert ours.tolist() == [moment.astimezone(timezone.utc) for moment in moments]
    for local, instant in zip(locals_, after):
        moment = instant.to_pydatetime().astimezone(ZoneInfo("UTC"))
        before = (moment - timedelta(seconds=1)).astimezone(theirs).replace(tzinfo=None)
        assert before < local < moment.astimezone(theirs).replace(tzinfo=None)


def test_before_of_a_timestamp():
    """A nanosecond before the change, whatever unit it has."""
    skipped = pd.Timestamp("2021-03-14 02:30")
    assert NEW_YORK.localize(skipped, gap="before") == pd.Timestamp("2021-03-14 06:59:59.999999999Z")


def test_after_far_from_today():
    """By the rule, and beyond the years of datetime."""
    for year in (2500, 9_999, 200_000):
        years = (np.datetime64(each - 1970, "Y") for each in (year, year + 1))
        change = NEW_YORK.changes(*years).at[0]
        skipped = change + np.timedelta64(-5 * 3_600 + 1_800, "s")
        assert NEW_YORK.localize(skipped, gap="after") == change
        assert NEW_YORK.localize(skipped, gap="shift") == change + np.timedelta64(1_800, "s")
        assert NEW_YORK.localize(skipped, gap="shift_back") == change - np.timedelta64(1_800, "s")


def test_after_may_not_fit():
    """The instant of the change comes before the first nanosecond of 64 bits."""
    change = -(2**63) // 10**9
    zone = Zone.from_bytes(Lists([(change, 1)], [0, 100]).file())
    skipped = np.array([-(2**63) + 2 * 10**9], np.int64).view("M8[ns]")
    assert zone.explain(skipped).shown.tolist() == [NEVER]
    with pytest.raises(sahvumbi.OutOfRangeError, match="does not fit"):
        zone.localize(skipped, gap="after")
    first = np.array([change * 10**9 + 10**9], np.int64).view("M8[ns]")
    zone = Zone.from_bytes(Lists([(change + 1, 1)], [0, 100]).file())
    assert zone.localize(first, gap="after") == first
    assert zone.localize(first, gap="before").view(np.int64) == first.view(np.int64) - 1


def times(*values):
    return np.array(values, "M8[s]")


def test_after_and_infer():
    day = "2021-03-14T"
    clocks = times(f"{day}01:50", f"{day}02:10", f"{day}02:50", f"{day}03:10")
    expected = times(f"{day}06:50", f"{day}07:00", f"{day}07:00", f"{day}07:10")
    np.testing.assert_array_equal(NEW_YORK.localize(clocks, "after", "infer"), expected)
