"""Folds decided row by row, and by the order of the rows of a key."""

import itertools
import pickle
from zoneinfo import ZoneInfo

import numpy as np
import pandas as pd
import pytest
from definitions import SEVERAL_TIMES, Lists, choices_in_order, inferred, offset_of, shown_times
from hypothesis import given, settings
from hypothesis import strategies as st
from test_definitions import COLUMNS, WINDOW

import sahvumbi
from sahvumbi import Zone

NEW_YORK = Zone("America/New_York")
GAP, FOLD, SUMMER = "2021-03-14T02:30", "2021-11-07T01:30", "2021-07-01T12:00"
FIRST, LAST = np.datetime64("2021-11-07T05:30", "s"), np.datetime64("2021-11-07T06:30", "s")


def column(*values):
    return np.array(values, "M8[s]")


# Folds row by row


@given(COLUMNS, st.data())
def test_fold_of_each_row(drawn, data):
    lists, locals_ = drawn
    count = len(locals_)
    folds = data.draw(st.lists(st.sampled_from([0, 1]), min_size=count, max_size=count))
    expected = []
    for local, fold in zip(locals_, folds):
        seconds = lists.shown_at(local, WINDOW)
        expected.append(seconds[-fold] if seconds else local - lists.before_gap(local, WINDOW))
    zone = Zone.from_bytes(lists.file())
    for values in (folds, np.array(folds, bool), np.array(folds, np.uint8)):
        assert zone.localize(locals_, gap="shift", fold=values).tolist() == expected


@given(COLUMNS, st.data())
def test_offset_of_each_row(drawn, data):
    """Of a time that is shown several times, any instant at which that offset is in force."""
    lists, locals_ = drawn
    zone, expected, given_ = Zone.from_bytes(lists.file()), [], []
    wrong = None
    for row, local in enumerate(locals_):
        seconds = lists.shown_at(local, WINDOW)
        right = [local - second for second in seconds]
        offset = data.draw(st.sampled_from([*right, *lists.offsets]))
        given_.append(offset)
        if shown_times(seconds) == SEVERAL_TIMES:
            expected.append(local - offset)
            if local - offset not in seconds and wrong is None:
                wrong = row
        else:
            expected.append(seconds[0] if seconds else local - lists.before_gap(local, WINDOW))
    if wrong is None:
        assert zone.localize(locals_, "shift", offset=given_).tolist() == expected
        lengths = np.array(given_, "m8[s]").astype("m8[ms]")
        assert zone.localize(locals_, "shift", offset=lengths).tolist() == expected
    else:
        with pytest.raises(sahvumbi.FoldError, match="offset= does not say which") as raised:
            zone.localize(locals_, "shift", offset=given_)
        assert raised.value.row == wrong


@settings(max_examples=200)
@given(COLUMNS, st.lists(st.booleans(), min_size=1, max_size=5), st.data())
def test_is_dst_of_each_row(drawn, flags, data):
    lists, locals_ = drawn
    flags = itertools.cycle(flags)
    types = [(offset, flag, "UTC") for offset, flag in zip(lists.offsets, flags)]
    lists = Lists(lists.transitions, types)
    zone, expected, given_, wrong = Zone.from_bytes(lists.file()), [], [], None
    for row, local in enumerate(locals_):
        is_dst = data.draw(st.booleans())
        given_.append(is_dst)
        seconds = lists.shown_at(local, WINDOW)
        if shown_times(seconds) != SEVERAL_TIMES:
            expected.append(seconds[0] if seconds else local - lists.before_gap(local, WINDOW))
            continue
        right = [second for second in (seconds[0], seconds[-1]) if lists.type(second)[1] == is_dst]
        expected.append(right[0] if right else None)
        if len(right) != 1 and wrong is None:
            wrong = row
    if wrong is None:
        assert zone.localize(locals_, "shift", is_dst=given_).tolist() == expected
    else:
        with pytest.raises(sahvumbi.FoldError, match="is_dst= does not say which") as raised:
            zone.localize(locals_, "shift", is_dst=given_)
        assert raised.value.row == wrong


@pytest.mark.parametrize(
    "name", ["America/New_York", "Australia/Lord_Howe", "Europe/Dublin", "Africa/Casablanca"]
)
def test_flags_of_pandas(name):
    """pandas' array for `ambiguous` is true for the first instant."""
    instants = pd.Series(pd.date_range("1990-01-01", "2025-01-01", freq="30min", tz="UTC"))
    zone = Zone(name)
    types, locals_ = zone.types(instants), zone.to_local(instants)
    folds = locals_.duplicated()
    theirs = locals_.dt.tz_localize(name, ambiguous=~folds.to_numpy()).dt.tz_convert("UTC")
    pd.testing.assert_series_equal(theirs, instants)
    for given_ in (
        {"fold": folds},
        {"is_dst": types["is_dst"]},
        {"offset": types["offset"]},
    ):
        pd.testing.assert_series_equal(zone.localize(locals_, **given_), instants)


def test_flags_of_dublin():
    """Its winter time is the daylight saving time of the tz database."""
    twice = pd.Series(pd.to_datetime(["2021-10-31 01:30"] * 2))
    theirs = twice.dt.tz_localize("Europe/Dublin", ambiguous=[True, False]).dt.tz_convert("UTC")
    dublin = Zone("Europe/Dublin")
    pd.testing.assert_series_equal(dublin.localize(twice, fold=[0, 1]), theirs)
    pd.testing.assert_series_equal(dublin.localize(twice, is_dst=[False, True]), theirs)


def test_what_is_given_for_rows():
    twice = column(FOLD, SUMMER, FOLD)
    noon = np.datetime64("2021-07-01T16:00", "s")
    for given_ in (
        {"fold": [0, 1, 1]},
        {"fold": np.array([[0, 0, 1]])[0]},
        {"is_dst": [True, False, False]},
        {"offset": [-14_400, 7, -18_000]},
        {"offset": np.array([-4, 0, -5], "m8[h]")},
        {"offset": np.array([-4 * 3_600_000_000_000, "NaT", -5 * 3_600_000_000_000], "m8[ns]")},
        {"fold": pd.array([0, None, 1], dtype="Int64")},
        {"is_dst": pd.Series([True, None, False], dtype="boolean")},
    ):
        assert NEW_YORK.localize(twice, **given_).tolist() == [FIRST, noon, LAST]
    assert NEW_YORK.localize(twice, fold=1).tolist() == [LAST, noon, LAST]
    assert NEW_YORK.localize(column(FOLD)[0], fold=0) == FIRST
    assert NEW_YORK.localize(twice.reshape(3, 1), fold=[[0], [0], [1]]).shape == (3, 1)
    index = NEW_YORK.localize(pd.DatetimeIndex(twice), fold=pd.Series([0, 0, 1]))
    assert index[0] == pd.Timestamp(str(FIRST), tz="UTC") and index[2] > index[0]
    series = pd.Series(twice, index=[7, 8, 9])
    folds = pd.Series([0, 0, 1], index=[7, 8, 9])
    assert NEW_YORK.localize(series, fold=folds)[9] == pd.Timestamp(str(LAST), tz="UTC")


@pytest.mark.parametrize(
    "given_, error, words",
    [
        ({"fold": [0, 1]}, ValueError, "has the shape"),
        ({"fold": [0, 1, 2]}, ValueError, "has 0 and 1"),
        ({"fold": [0.0, 1.0, 0.0]}, TypeError, "booleans, and not float64"),
        ({"fold": ["a", "b", "c"]}, TypeError, "booleans, and not <U1"),
        ({"is_dst": [True, None, False]}, TypeError, "is_dst= is an object column: pd.array"),
        ({"offset": [1.5, 1.5, 1.5]}, TypeError, "seconds or timedelta64"),
        ({"offset": np.array([1, 1, 1], "m8[ms]")}, ValueError, "parts of a second"),
        ({"offset": np.array([1, 1, 1], "m8")}, TypeError, "without a unit"),
        ({"is_dst": [True] * 3, "offset": [0] * 3}, ValueError, "by one of"),
        ({"is_dst": [True] * 3, "fold": "latest"}, ValueError, "by one of"),
        ({"by": [0, 0, 0]}, ValueError, "goes with fold='infer'"),
        ({"by": [0, 0], "fold": "infer"}, ValueError, "has the shape"),
        ({"by": [0, None, 0], "fold": "infer"}, ValueError, "row 1: the key of by= is missing"),
        ({"errors": "ignore"}, ValueError, "errors is one of raise, collect"),
        ({"errors": "collect", "fold": "infer"}, ValueError, "does not go with fold='infer'"),
        ({"fold": "x" * 10**5}, ValueError, "fold is one of raise, "),
    ],
)
def test_what_is_no_choice(given_, error, words):
    with pytest.raises(error, match=words) as raised:
        NEW_YORK.localize(column(FOLD, SUMMER, FOLD), **given_)
    assert len(str(raised.value)) < 300


def test_an_index_that_differs():
    series = pd.Series(column(FOLD, SUMMER), index=[1, 2])
    for given_ in ({"fold": pd.Series([0, 1])}, {"is_dst": pd.Series([True, True], index=[2, 1])}):
        with pytest.raises(ValueError, match="has another index"):
            NEW_YORK.localize(series, **given_)


def test_rows_for_which_nothing_is_given():
    for given_ in (
        {"fold": pd.array([0, None], dtype="Int64")},
        {"is_dst": pd.array([True, None], dtype="boolean")},
        {"offset": np.array([-14_400, "NaT"], "m8[s]")},
        {"offset": [-14_400, 0]},
        {"offset": [-14_400, -(2**31)]},
        {"offset": [-14_400, 2**62]},
    ):
        with pytest.raises(sahvumbi.FoldError, match="does not say which it is") as raised:
            NEW_YORK.localize(column(FOLD, FOLD), **given_)
        assert raised.value.row == 1


# The order of rows


def choices_of(zone, clocks):
    """The first and the last instant that shows each local time."""
    return [sorted({int(first), int(last)}) for first, last in zip(*zone.explain(clocks)[1:3])]


def test_infer_by_all_choices():
    """Columns of half hours around a fold: one choice of each run keeps the order, or one of them has no row twice,
    or no answer is given."""
    random, midnight = np.random.default_rng(0), np.datetime64("2021-11-07T00:30", "s").astype(int)
    counts = dict.fromkeys(["in order", "distinct", "none"], 0)
    for _ in range(3_000):
        clocks = midnight + 1_800 * random.integers(0, 5, random.integers(1, 7))
        if random.integers(2):
            clocks.sort()
        candidates = choices_of(NEW_YORK, clocks)
        if all(len(each) == 1 for each in candidates):
            continue
        expected, row = inferred(candidates)
        if row is None:
            assert NEW_YORK.localize(clocks, fold="infer").tolist() == expected
            counts["in order" if len(choices_in_order(candidates)) == 1 else "distinct"] += 1
        else:
            with pytest.raises(sahvumbi.FoldError) as raised:
                NEW_YORK.localize(clocks, fold="infer")
            assert raised.value.row == row
            counts["none"] += 1
    assert min(counts.values()) > 50


def test_infer_in_folds_of_two_lengths():
    """Clocks showed 0 at -1 and at 0, and -1 at -2 and at 1: both (-1, 1) and (0, 1) are in order."""
    lists = Lists([(-5, 0), (-4, 0), (-3, 0), (-2, 2), (0, 1), (1, 0), (2, 1), (3, 0)], [-2, 0, 1, 1, 0])
    zone = Zone.from_bytes(lists.file())
    with pytest.raises(sahvumbi.FoldError) as raised:
        zone.localize([0, -1], fold="infer")
    assert raised.value.row == 0


@pytest.mark.parametrize("minutes", [60, 30, 20, 15])
@pytest.mark.parametrize(
    "name",
    [
        "America/New_York",
        "Europe/Berlin",
        "Australia/Sydney",
        "America/Santiago",
        "Asia/Tehran",
        "Australia/Lord_Howe",
    ],
)
def test_infer_in_steps(name, minutes):
    """Three years in equal steps, as zoneinfo shows them; one column, and two mixed in one."""
    zone, theirs = Zone(name), ZoneInfo(name)
    instants = np.arange("2019-01-01", "2022-01-01", 60 * minutes, "M8[s]")
    local = np.array([offset_of(theirs, second) for second in instants.astype(int).tolist()], "m8[s]") + instants
    if name == "Australia/Lord_Howe" and minutes == 60:
        # Its clocks go back by half an hour: one of these steps lies in a fold, and none says which.
        with pytest.raises(sahvumbi.FoldError, match="order of rows doesn't decide it"):
            zone.localize(local, fold="infer")
        return
    np.testing.assert_array_equal(zone.localize(local, fold="infer"), instants)
    both, keys = np.repeat(local, 2), np.arange(2 * local.size) % 2
    np.testing.assert_array_equal(zone.localize(both, fold="infer", by=keys), np.repeat(instants, 2))
    if minutes == (30 if name == "Australia/Lord_Howe" else 60):
        with pytest.raises(sahvumbi.FoldError, match="order of rows doesn't decide it"):
            zone.localize(both, fold="infer")


def hours_of_2021():
    """The hours of New York's year 2021, as zoneinfo shows them, and their instants."""
    there, begin = ZoneInfo("America/New_York"), 1_609_477_200
    instants = list(range(begin, begin + 8_760 * 3_600, 3_600))
    local = [second + offset_of(there, second) for second in instants]
    return [pd.Series(np.array(each, "M8[s]").astype("M8[ns]")) for each in (local, instants)]


def pandas_infers(local, **others):
    """The answer of pandas, whose own zone is pytz's."""
    return local.dt.tz_localize("America/New_York", ambiguous="infer", **others).dt.tz_convert("UTC")


def test_only_rows_in_folds_decide():
    """Elsewhere rows may be equal, out of order, or moved to the end of a gap."""
    local, instants = hours_of_2021()
    twice = [column.iloc[[0, 0, *range(1, 8_760)]].reset_index(drop=True) for column in (local, instants)]
    swapped = [column.iloc[[*range(4_500), 4_501, 4_500, *range(4_502, 8_760)]] for column in (local, instants)]
    for clocks, expected in (twice, swapped):
        expected = expected.dt.tz_localize("UTC")
        pd.testing.assert_series_equal(NEW_YORK.localize(clocks, fold="infer"), expected)
        pd.testing.assert_series_equal(pandas_infers(clocks), expected)
    # Of the row for 02:00 on 14 March, which no clock showed.
    place = int((local == "2021-03-14 03:00").to_numpy().argmax())
    with_gap = pd.concat([local[:place], pd.Series(pd.to_datetime(["2021-03-14 02:00"])), local[place:]], ignore_index=True)
    expected = pd.concat([instants[:place], instants[place : place + 1], instants[place:]], ignore_index=True).dt.tz_localize("UTC")
    pd.testing.assert_series_equal(NEW_YORK.localize(with_gap, "after", "infer"), expected)
    pd.testing.assert_series_equal(pandas_infers(with_gap, nonexistent="shift_forward"), expected)


def test_two_years_are_decided_each():
    clocks = column("2021-11-07T01:00", "2021-11-07T01:00", "2020-11-01T01:00", "2020-11-01T01:00")
    expected = column("2021-11-07T05:00", "2021-11-07T06:00", "2020-11-01T05:00", "2020-11-01T06:00")
    np.testing.assert_array_equal(NEW_YORK.localize(clocks, fold="infer"), expected)


#: When clocks are set back in 2021 (zdump -v).
SET_BACK = {
    "America/New_York": "2021-11-07T06:00",
    "Europe/Dublin": "2021-10-31T01:00",
    "Australia/Lord_Howe": "2021-04-03T15:00",
}


@pytest.mark.parametrize("name", SET_BACK)
def test_infer_as_pandas_does(name):
    """Instants in order around a fold, some of them twice or without a row, and rows in no order in other months:
    pandas' answer if it has one, and else an error or the instants themselves."""
    random, zone, there = np.random.default_rng(5), Zone(name), ZoneInfo(name)
    middle, counts = np.datetime64(SET_BACK[name], "s").astype(int), {"both": 0, "ours": 0, "none": 0}
    for _ in range(600):
        step = int(random.choice([600, 900, 1_800, 3_600]))
        times = random.choice(3, 18, p=[0.1, 0.85, 0.05])
        instants = [middle + step * int(place) for place in np.repeat(np.arange(-9, 9), times)]
        instants += [middle + 86_400 * place for place in random.integers(20, 99, 6).tolist()]
        shown = np.array([second + offset_of(there, second) for second in instants], "M8[s]")
        local = pd.Series(shown.astype("M8[ns]"))
        try:
            theirs = local.dt.tz_localize(name, ambiguous="infer").dt.tz_convert("UTC")
        except Exception as error:
            # pandas 1 and 2 raise pytz's error, and pandas 3 a ValueError.
            assert type(error).__name__ in ("AmbiguousTimeError", "ValueError"), error
            theirs = None
        try:
            ours = zone.localize(local, fold="infer")
        except sahvumbi.FoldError:
            counts["none"] += 1
            assert theirs is None
            continue
        if theirs is None:
            counts["ours"] += 1
            assert ours.astype("int64").tolist() == [second * 10**9 for second in instants]
        else:
            counts["both"] += 1
            pd.testing.assert_series_equal(ours, theirs)
    assert counts["both"] > 200 and counts["none"] > 20 and counts["ours"] > 20, counts


def test_why_the_order_does_not_decide():
    hour = ["2021-11-07T01:00", "2021-11-07T01:30"]
    for clocks, row, words in (
        ([hour[0]], 0, "none of the neighbouring rows in this fold goes back to an earlier time or repeats one"),
        ([SUMMER, hour[0], "NaT", hour[0], hour[0]], 1, "rows 3 and 4 both repeat the time above, so one of them is the same instant as the row above"),
        ([hour[1], hour[0], hour[1], hour[0]], 3, "rows 1 and 3 both go back to an earlier time, and clocks are set back once"),
    ):
        with pytest.raises(sahvumbi.FoldError) as raised:
            NEW_YORK.localize(column(*clocks), fold="infer")
        lies = f"the local time lies in a fold, and the order of rows doesn't decide it: {words}"
        advice = "pass is_dst=, offset= or fold= for each row, or by= for several series"
        assert raised.value.words == lies
        value = column(clocks[row])[0]
        assert str(raised.value) == f"zone.localize: row {row}: {value}: {lies} (error 22); {advice}"
        assert str(pickle.loads(pickle.dumps(raised.value))) == str(raised.value)
    zones = [Zone("UTC"), NEW_YORK]
    with pytest.raises(sahvumbi.FoldError, match="row 1: .* rows 3 and 4 both repeat"):
        sahvumbi.localize_many(zones, [0, 1, 0, 1, 1], column(*[hour[0]] * 5), fold="infer")


# Series one after another


@settings(max_examples=300)
@given(COLUMNS, st.data())
def test_infer_by_keys(drawn, data):
    lists, locals_ = drawn
    keys = data.draw(st.lists(st.sampled_from("abc"), min_size=len(locals_), max_size=len(locals_)))
    if data.draw(st.booleans()):
        locals_ = [instant + lists.offset(instant) for instant in sorted(locals_)]
    candidates = []
    for local in locals_:
        seconds = lists.shown_at(local, WINDOW)
        ends = {seconds[0], seconds[-1]} if seconds else {local - lists.before_gap(local, WINDOW)}
        candidates.append(sorted(ends))
    expected, wrong = [None] * len(locals_), []
    for key in set(keys):
        rows = [row for row, other in enumerate(keys) if other == key]
        mine = [candidates[row] for row in rows]
        if all(len(each) == 1 for each in mine):
            told, row = [each[0] for each in mine], None
        else:
            told, row = inferred(mine)
        if row is None:
            for place, instant in zip(rows, told):
                expected[place] = instant
        else:
            wrong.append(rows[row])
    zone = Zone.from_bytes(lists.file())
    for by in (keys, np.array([ord(key) for key in keys]), pd.Categorical(keys)):
        if not wrong:
            assert zone.localize(locals_, "shift", "infer", by=by).tolist() == expected
        else:
            with pytest.raises(sahvumbi.FoldError) as raised:
                zone.localize(locals_, "shift", "infer", by=by)
            assert raised.value.row == min(wrong)


def test_meters_one_after_another():
    """Two meters, one after another, as pandas' 'infer' takes them too, and row by row."""
    instants = pd.Series(pd.date_range("2018-01-01", "2020-01-01", freq="15min", tz="UTC"))
    local = NEW_YORK.to_local(instants)
    both = pd.concat([local, local], keys=["one", "two"])
    keys = both.index.get_level_values(0)
    expected = pd.concat([instants, instants], keys=["one", "two"])
    for given_ in ({}, {"by": keys}):
        pd.testing.assert_series_equal(NEW_YORK.localize(both, fold="infer", **given_), expected)
    mixed = both.iloc[np.argsort(expected.to_numpy(), kind="stable")]
    answer = NEW_YORK.localize(mixed, fold="infer", by=mixed.index.get_level_values(0))
    pd.testing.assert_series_equal(answer, expected[mixed.index])


@settings(max_examples=300)
@given(COLUMNS, st.data())
def test_infer_with_nat_between(drawn, data):
    """As without NaT, but for the numbers of rows."""
    lists, locals_ = drawn
    if data.draw(st.booleans()):
        locals_ = [instant + lists.offset(instant) for instant in sorted(locals_)]
    places = sorted(data.draw(st.sets(st.integers(0, 19), min_size=len(locals_), max_size=20)))
    places = places[: len(locals_)]
    clocks, short = np.full(20, "NaT", "M8[s]"), np.array(locals_, "M8[s]")
    clocks[places] = short
    zone = Zone.from_bytes(lists.file())
    for by in (None, [0] * 20):
        try:
            expected = zone.localize(short, "shift", "infer")
        except sahvumbi.FoldError as error:
            with pytest.raises(sahvumbi.FoldError) as raised:
                zone.localize(clocks, "shift", "infer", by=by)
            assert raised.value.row == places[error.row]
            assert raised.value.words == error.words
        else:
            answers = zone.localize(clocks, "shift", "infer", by=by)
            np.testing.assert_array_equal(answers[places], expected)
            assert np.isnat(np.delete(answers, places)).all()


def test_infer_passes_over_nat():
    clocks = column("NaT", "2021-11-07T01:50", "NaT", "2021-11-07T01:10", GAP)
    expected = column("NaT", "2021-11-07T05:50", "NaT", "2021-11-07T06:10", "NaT")
    for by in (None, ["a"] * 5):
        answers = NEW_YORK.localize(clocks, "nat", "infer", by=by)
        np.testing.assert_array_equal(answers, expected)


@pytest.mark.parametrize(
    ("ask", "size"),
    [
        (lambda rows: NEW_YORK.localize(rows, fold="infer"), 8),
        (lambda rows: NEW_YORK.localize(rows, "after", fold=np.zeros(rows.size, bool)), 8),
        (lambda rows: NEW_YORK.localize(rows, offset=np.full(rows.size, -14_400)), 8 + 8),
        (NEW_YORK.explain, 1 + 4 * 8),
        (NEW_YORK.to_local, 8),
        (NEW_YORK.offsets, 8),
        (NEW_YORK.types, 8 + 1 + 4 * 7),
        (NEW_YORK.start_of_day, 8),
        (NEW_YORK.day, 3 * 8),
        (lambda rows: NEW_YORK.floor(rows, "h"), 8),
    ],
)
def test_a_call_takes_little_memory(ask, size):
    """At most 16 bytes for each row, above the question and the answer."""
    tracemalloc = pytest.importorskip("tracemalloc")
    rows = 1_000_000
    instants = np.arange(1_600_000_000, 1_600_000_000 + 60 * rows, 60).astype("M8[s]")
    local = NEW_YORK.to_local(instants)
    with_nat = local.copy()
    with_nat[::1_000] = "NaT"
    for times in (local, with_nat):
        tracemalloc.start()
        ask(times)
        peak = tracemalloc.get_traced_memory()[1]
        tracemalloc.stop()
        assert peak < (size + 16) * rows
