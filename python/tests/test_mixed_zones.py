"""Columns of mixed zones: each row as if its zone was asked about it alone."""

from zoneinfo import ZoneInfo

import numpy as np
import pandas as pd
import pytest
from hypothesis import given
from hypothesis import strategies as st
from test_definitions import WINDOW, zones

import sahvumbi
from sahvumbi import Zone, localize_many, to_local_many

NAMES = ["America/New_York", "Asia/Kolkata", "Australia/Lord_Howe"]
ZONES = [Zone(name) for name in NAMES]
GAP, FOLD, SUMMER = "2021-03-14T02:30", "2021-11-07T01:30", "2021-07-01T12:00"


@given(st.lists(zones(), min_size=1, max_size=3), st.data())
def test_rows_of_random_zones(lists, data):
    row = st.tuples(st.integers(0, len(lists) - 1), st.integers(-400, 400))
    rows = data.draw(st.lists(row, max_size=12))
    codes, values = [code for code, _ in rows], [value for _, value in rows]
    made = [Zone.from_bytes(each.file()) for each in lists]
    expected = [value + lists[code].offset(value) for code, value in rows]
    assert to_local_many(made, np.array(codes, int), values).tolist() == expected
    expected = []
    for code, local in rows:
        seconds = lists[code].shown_at(local, WINDOW)
        expected.append(seconds[0] if seconds else local - lists[code].before_gap(local, WINDOW))
    answers = localize_many(made, np.array(codes, np.uint8), values, gap="shift", fold="earliest")
    assert answers.tolist() == expected


def test_zones_by_key():
    values = pd.Series(pd.date_range("2021-01-01", periods=300, freq="7h13min"), name="when")
    keys = pd.Series(np.array(NAMES)[np.arange(300) % 3])
    expected = pd.concat(
        [zone.localize(values[keys == zone.key], "shift", "latest") for zone in ZONES]
    ).sort_index()
    by_name = dict(zip(NAMES, ZONES))
    for codes in (keys, keys.astype("category"), keys.tolist()):
        answer = localize_many(by_name, codes, values, "shift", "latest")
        pd.testing.assert_series_equal(answer, expected)
        shown = to_local_many(by_name, codes, expected)
        pd.testing.assert_series_equal(shown, to_local_many(ZONES, np.arange(300) % 3, expected))
    answer = localize_many(by_name, keys, values, "shift", "latest", tz="Asia/Tokyo")
    assert answer.dtype == pd.DatetimeTZDtype("ns", ZoneInfo("Asia/Tokyo"))


def test_choices_of_mixed_zones():
    values = np.array([FOLD, FOLD, SUMMER, FOLD], "M8[s]")
    codes = [0, 1, 2, 0]
    first, last = (np.datetime64(f"2021-11-07T{clock}", "s") for clock in ("05:30", "06:30"))
    answers = localize_many(ZONES, codes, values, fold=[1, 0, 0, 0])
    assert answers[[0, 3]].tolist() == [last, first]
    answers = localize_many(ZONES, codes, values, is_dst=[True, True, True, False])
    assert answers[[0, 3]].tolist() == [first, last]
    meters = np.array(["2021-11-07T01:50", "2021-11-07T01:10"] * 2, "M8[s]")
    answers = localize_many(ZONES, [0, 0, 0, 0], meters, fold="infer", by=[7, 7, 8, 8])
    assert (answers[:2] == answers[2:]).all() and answers[1] > answers[0]


def test_categories():
    """Codes of a Categorical are taken as they are: in any order, with categories that no row has."""
    names = pd.Series(["b", "a", "b", "a"], dtype=pd.CategoricalDtype(["unused", "b", "a"]), index=list("wxyz"))
    zones = {"a": Zone("America/New_York"), "b": Zone("Asia/Kolkata")}
    seconds = pd.Series([0, 0, 1, 1], index=names.index)
    want = [19_800, -18_000, 19_801, -17_999]
    for keys in (names, pd.Categorical(names), pd.CategoricalIndex(names), names.astype(str)):
        assert to_local_many(zones, keys, seconds).tolist() == want
    with pytest.raises(ValueError, match="row 1: the zone's name is missing"):
        to_local_many(zones, names.where([True, False, True, True]), seconds)
    with pytest.raises(ValueError, match="row 0: 'b' is not a key of zones"):
        to_local_many({"a": zones["a"]}, names, seconds)
    with pytest.raises(ValueError, match="another index"):
        to_local_many(zones, names[::-1], seconds)


def test_the_first_row_is_told():
    values = pd.Series(np.array([SUMMER, FOLD, SUMMER, GAP, GAP], "M8[ns]"), index=list("abcde"))
    with pytest.raises(sahvumbi.FoldError) as raised:
        localize_many(ZONES[::-1], [2, 2, 1, 2, 1], values)
    assert (raised.value.row, raised.value.label) == (1, "b")
    answers, failures = localize_many(ZONES, [1, 0, 0, 0, 0], values, errors="collect")
    assert failures.row.tolist() == [1, 3, 4] and failures.label.tolist() == ["b", "d", "e"]
    assert answers.isna().tolist() == [False, True, False, True, True]
    with pytest.raises(sahvumbi.NoOffsetError) as raised:
        to_local_many(ZONES, [1, 0, 0], [0, 2**63 - 1, -(2**63)])
    assert raised.value.row == 1


def test_empty_and_shapes():
    assert localize_many(ZONES, np.empty((0, 2), int), np.empty((0, 2), "M8[s]")).shape == (0, 2)
    assert localize_many([], np.array([], int), []).shape == (0,)
    codes = np.array([[0, 1], [2, 0]])
    answers = to_local_many(ZONES, codes, np.zeros((2, 2), int))
    assert answers.tolist() == [[-18_000, 19_800], [36_000, -18_000]]


@pytest.mark.parametrize(
    "zones_, codes, error, words",
    [
        (ZONES, [0, 3], ValueError, "row 1: zones has no place 3"),
        (ZONES, [-1, 0], ValueError, "row 0: zones has no place -1"),
        (ZONES, [0], ValueError, "has the shape"),
        (ZONES, [0.0, 1.0], TypeError, "codes= must be integers"),
        (ZONES, NAMES[:2], TypeError, "codes= must be integers"),
        ({"a": ZONES[0]}, ["a", "b"], ValueError, "row 1: 'b' is not a key of zones"),
        ({"a": ZONES[0]}, ["a", None], ValueError, "row 1: the zone's name is missing"),
        (["America/New_York"], [0, 0], TypeError, "a str that is no Zone"),
    ],
)
def test_what_is_no_code(zones_, codes, error, words):
    for ask in (localize_many, to_local_many):
        with pytest.raises(error, match=words):
            ask(zones_, codes, [0, 1])
