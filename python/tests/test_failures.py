"""Errors that are collected, and which row an error names."""

import itertools

import numpy as np
import pandas as pd
import pytest
from definitions import NEVER, ONCE, SEVERAL_TIMES, shown_times
from hypothesis import given
from hypothesis import strategies as st
from test_definitions import COLUMNS, WINDOW

import sahvumbi
from sahvumbi import Zone

NEW_YORK = Zone("America/New_York")
GAP, FOLD, SUMMER = "2021-03-14T02:30", "2021-11-07T01:30", "2021-07-01T12:00"


def column(*values):
    return np.array(values, "M8[s]")


@given(
    COLUMNS,
    st.sampled_from(["raise", "shift", "after", "nat"]),
    st.sampled_from(["raise", "latest", "nat"]),
)
def test_collect(drawn, gap, fold):
    lists, locals_ = drawn
    values = np.array(locals_, "M8[s]")
    zone = Zone.from_bytes(lists.file())
    times = [shown_times(lists.shown_at(local, WINDOW)) for local in locals_]
    numbers = {ONCE: 0, NEVER: 21 * (gap == "raise"), SEVERAL_TIMES: 22 * (fold == "raise")}
    wrong = [(row, numbers[each]) for row, each in enumerate(times) if numbers[each]]
    answers, failures = zone.localize(values, gap, fold, errors="collect")
    assert list(zip(failures.row.tolist(), failures.number.tolist())) == wrong
    assert bool(failures) == bool(wrong) and failures.label is None
    np.testing.assert_array_equal(failures.value, values[failures.row])
    instead = zone.localize(values, gap.replace("raise", "nat"), fold.replace("raise", "nat"))
    np.testing.assert_array_equal(answers, instead)


def test_each_kind_of_failure():
    greatest = np.int64(2**63 - 1).view("M8[ns]")
    values = np.array([greatest, GAP, SUMMER, FOLD, "NaT", greatest], "M8[ns]")
    series = pd.Series(values, index=list("abcdef"), name="when")
    answers, failures = NEW_YORK.localize(series, errors="collect")
    assert answers.isna().tolist() == [True, True, False, True, True, True]
    assert failures.row.tolist() == [0, 1, 3, 5] and failures.number.tolist() == [23, 21, 22, 23]
    assert failures.label.tolist() == ["a", "b", "d", "f"]
    frame = failures.to_frame()
    assert frame.index.tolist() == ["a", "b", "d", "f"] and frame["row"].tolist() == [0, 1, 3, 5]
    assert frame["words"]["b"] == "the local time lies in a gap"
    answers, failures = NEW_YORK.localize(series, fold=[0] * 6, gap="shift", errors="collect")
    assert failures.row.tolist() == [0, 5]
    far = np.array([0, 10**12, -(10**12)], "M8[D]")
    answers, failures = NEW_YORK.localize(far, errors="collect")
    assert failures.row.tolist() == [1, 2] and failures.number.tolist() == [23, 23]
    _, failures = NEW_YORK.localize(column(SUMMER, GAP), errors="collect")
    assert failures.to_frame()["words"].tolist() == ["the local time lies in a gap"]
    answer, failures = NEW_YORK.localize(pd.Timestamp(GAP), errors="collect")
    assert answer is pd.NaT and failures.number.tolist() == [21]
    index, failures = NEW_YORK.localize(pd.DatetimeIndex(values), errors="collect")
    assert index.isna().sum() == 5 and failures.label.equals(pd.DatetimeIndex(failures.value))
    with pytest.raises(ValueError, match="int64 has no NaT"):
        NEW_YORK.localize([0], errors="collect")


def test_the_first_row_of_each_kind_is_told():
    """Whichever kind of error it has."""
    undecided, greatest = np.datetime64(FOLD, "ns"), np.int64(2**63 - 1).view("M8[ns]")
    kinds = {
        undecided: sahvumbi.FoldError,
        np.datetime64(GAP, "ns"): sahvumbi.GapError,
        greatest: sahvumbi.OutOfRangeError,
    }
    for values in itertools.permutations(kinds):
        rows = np.array([SUMMER, *values], "M8[ns]")
        with pytest.raises(kinds[values[0]]) as raised:
            NEW_YORK.localize(rows, offset=np.zeros(4, int))
        assert raised.value.row == 1


def test_failures_over_blocks():
    values = np.full(200_000, SUMMER, "M8[s]")
    values[::1_000] = GAP
    answers, failures = NEW_YORK.localize(values, errors="collect")
    assert failures.row.tolist() == list(range(0, 200_000, 1_000))
    assert np.isnat(answers).sum() == 200
