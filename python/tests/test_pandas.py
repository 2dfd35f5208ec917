"""Series: name, index and NaT are kept."""

import pickle
from types import SimpleNamespace

import numpy as np
import pandas as pd
import pytest
from hypothesis import given
from hypothesis import strategies as st

import sahvumbi
from sahvumbi import Zone, _containers, _lookups, _native, _plain
from sahvumbi._columns import taken

NEW_YORK = Zone.from_text("EST5EDT,M3.2.0,M11.1.0")
INDEX = pd.Index(["a", "b", "b"], name="row")
LOCALS = pd.Series(
    pd.to_datetime(["2021-07-01 08:00:00.5", None, "2021-01-01 07:00:00.0"]), index=INDEX, name="when"
)
INSTANTS = pd.Series(
    pd.to_datetime(["2021-07-01 12:00:00.5", None, "2021-01-01 12:00:00.0"], utc=True),
    index=INDEX,
    name="when",
)
GAP = pd.Series(
    pd.to_datetime(["2021-07-01 08:00", "2021-03-14 02:30"]), index=["x", "y"], name="when"
)


def test_localize():
    pd.testing.assert_series_equal(NEW_YORK.localize(LOCALS), INSTANTS)
    pd.testing.assert_series_equal(NEW_YORK.localize(LOCALS, fold="infer"), INSTANTS)


def test_to_local():
    pd.testing.assert_series_equal(NEW_YORK.to_local(INSTANTS), LOCALS)
    pd.testing.assert_series_equal(NEW_YORK.to_local(INSTANTS.dt.tz_localize(None)), LOCALS)
    pd.testing.assert_series_equal(NEW_YORK.to_local(INSTANTS.dt.tz_convert("Asia/Tokyo")), LOCALS)


def test_offsets():
    # Seconds, of which pandas 1.5 makes nanoseconds.
    lengths = np.array([-14_400, "NaT", -18_000], "m8[s]")
    expected = pd.Series(lengths, index=INDEX, name="when")
    pd.testing.assert_series_equal(NEW_YORK.offsets(INSTANTS), expected)
    seconds = pd.Series([0, 1_625_140_800], index=["x", "y"], name="when")
    expected = pd.Series(np.array([-18_000, -14_400], np.int32), index=["x", "y"], name="when")
    pd.testing.assert_series_equal(NEW_YORK.offsets(seconds), expected)


def test_explain():
    column = pd.Series(
        pd.to_datetime(["2021-11-07 01:30", "2021-03-14 02:30", None]), index=INDEX, name="when"
    )
    frame = NEW_YORK.explain(column)
    assert list(frame.columns) == list(sahvumbi.WallClocks._fields)
    assert frame.index.equals(INDEX) and frame["shown"].tolist() == [2, 0, -1]
    assert frame["first"].tolist()[0] == pd.Timestamp("2021-11-07 05:30", tz="UTC")
    assert frame["last"].tolist()[0] == pd.Timestamp("2021-11-07 06:30", tz="UTC")
    assert (
        frame["first"].isna().tolist()
        == frame["last_offset"].isna().tolist()
        == [False, False, True]
    )
    assert frame["first"].tolist()[1] == pd.Timestamp("2021-03-14 07:00", tz="UTC")
    assert frame["last_offset"].tolist()[0] == pd.Timedelta(-5, "h")


def test_errors_tell_row_and_label():
    with pytest.raises(sahvumbi.GapError) as raised:
        NEW_YORK.localize(GAP)
    assert (raised.value.row, raised.value.label, raised.value.value) == (
        1,
        "y",
        np.datetime64("2021-03-14T02:30", "ns"),
    )
    assert "row 1 (label 'y')" in str(raised.value)
    with pytest.raises(sahvumbi.OutOfRangeError) as raised:
        NEW_YORK.offsets(pd.Series([0, 2**63], index=["x", "y"], dtype="uint64"))
    assert (raised.value.row, raised.value.label, raised.value.value) == (1, "y", 2**63)


def test_shift_and_shift_forward_of_pandas():
    """pandas' shift_forward takes the end of the gap; 'shift' is its shift by the gap's hour."""
    ours = NEW_YORK.localize(GAP, gap="shift")
    by_an_hour = GAP.dt.tz_localize("America/New_York", nonexistent=pd.Timedelta("1h"))
    forward = GAP.dt.tz_localize("America/New_York", nonexistent="shift_forward")
    assert ours.tolist() == by_an_hour.tolist()
    assert ours["y"] == pd.Timestamp("2021-03-14 07:30", tz="UTC")
    assert forward["y"] == pd.Timestamp("2021-03-14 07:00", tz="UTC")


def test_choices():
    assert NEW_YORK.localize(GAP, gap="nat").isna().tolist() == [False, True]
    assert NEW_YORK.localize(GAP, gap="shift").tolist()[1] == pd.Timestamp(
        "2021-03-14 03:30", tz="America/New_York"
    )


def test_what_is_no_column_is_refused():
    for column in (
        INSTANTS,
        pd.Series([1.5]),
        pd.Series(["2021-01-01"]),
        LOCALS.dt.to_period("D"),
    ):
        with pytest.raises(TypeError):
            NEW_YORK.localize(column)


def test_empty_and_views():
    empty = LOCALS[:0]
    answer = NEW_YORK.localize(empty)
    assert len(answer) == 0 and answer.name == "when" and answer.dtype == INSTANTS.dtype
    frame = pd.DataFrame({"a": LOCALS.to_numpy(), "b": LOCALS.to_numpy()[::-1]})
    pd.testing.assert_series_equal(
        NEW_YORK.localize(frame["b"][::-1]).reset_index(drop=True),
        NEW_YORK.localize(frame["a"]),
        check_names=False,
    )
    before = LOCALS.copy()
    NEW_YORK.localize(LOCALS)
    pd.testing.assert_series_equal(LOCALS, before)


@pytest.mark.parametrize(
    "key",
    [
        "America/New_York",
        "Europe/London",
        "Australia/Lord_Howe",
        "Africa/Casablanca",
        "Pacific/Apia",
    ],
)
def test_beside_pandas(key):
    """From 1970 to 2036, where pandas is right, in each quarter of an hour of each third day."""
    zone = Zone.from_file(f"/usr/share/zoneinfo/{key}")
    days = np.arange("1970-01-05", "2036-12-25", 3, dtype="M8[D]").astype("M8[ns]")
    instants = pd.Series(
        (days[:, None] + np.arange(0, 86_400, 900) * np.timedelta64(1, "s")).reshape(-1)
    ).dt.tz_localize("UTC")
    local = instants.dt.tz_convert(key).dt.tz_localize(None)
    pd.testing.assert_series_equal(zone.to_local(instants), local)
    theirs = local.dt.tz_localize(key, ambiguous="NaT", nonexistent="NaT").dt.tz_convert("UTC")
    pd.testing.assert_series_equal(zone.localize(local, gap="nat", fold="nat"), theirs)


@pytest.mark.parametrize("key", ["America/New_York", "Europe/London", "Australia/Lord_Howe"])
def test_infer_beside_pandas(key):
    """Each ten minutes of four years, in order."""
    zone = Zone.from_file(f"/usr/share/zoneinfo/{key}")
    instants = pd.Series(pd.date_range("2018-01-01", "2022-01-01", freq="10min", tz="UTC"))
    local = zone.to_local(instants)
    pd.testing.assert_series_equal(zone.localize(local, fold="infer"), instants)
    theirs = local.dt.tz_localize(key, ambiguous="infer").dt.tz_convert("UTC")
    pd.testing.assert_series_equal(zone.localize(local, fold="infer"), theirs)


@pytest.mark.parametrize("name", ["when", None])
def test_answers_by_public_ways(monkeypatch, name):
    """A pandas that has lost what the quick answers are made by: they are made by its public ways, and are equal."""
    instants, local_times = INSTANTS.rename(name), LOCALS.rename(name)
    forms = {"Series": (instants, local_times), "Index": (pd.DatetimeIndex(instants, name=name), pd.DatetimeIndex(local_times, name=name))}

    def answers(instants, local_times):
        yield NEW_YORK.to_local(instants)
        yield NEW_YORK.localize(local_times)
        yield NEW_YORK.localize(local_times, tz="America/New_York")
        yield NEW_YORK.offsets(instants)

    quick = {form: list(answers(*columns)) for form, columns in forms.items()}
    arrays = SimpleNamespace(DatetimeArray=None, TimedeltaArray=None)
    public = {each: getattr(pd, each) for each in ("array", "Index", "DatetimeTZDtype", "__version__")}
    series = type("Series", (), {})
    kept = SimpleNamespace(arrays=arrays, DatetimeIndex=lambda *a, **k: pd.DatetimeIndex(*a, **k), Series=series, **public)
    monkeypatch.setattr(_containers, "sys", SimpleNamespace(modules={"pandas": kept}))
    _containers.quick_times.cache_clear()
    for kind in (pd.Series, pd.DatetimeIndex):
        monkeypatch.delitem(_plain.QUICK, kind)
        monkeypatch.delitem(_plain.QUICK_INSTANTS, kind)
    for form, columns in forms.items():
        equal = pd.testing.assert_series_equal if form == "Series" else pd.testing.assert_index_equal
        for answer, expected in zip(answers(*columns), quick[form]):
            assert answer.name == name
            equal(answer, expected)
    assert not _plain.QUICK and not _plain.QUICK_INSTANTS


# Columns that are answered without a `Column` made of them


def by_columns(instants):
    """The local times by the way that all columns take."""
    column = taken(instants, "", may_be_aware=True)
    return column.local_times(_lookups.local_times(NEW_YORK._native, column))


def quickly(instants):
    """Those by the quick way, or None."""
    answer = _plain.QUICK.get(type(instants))
    return answer and answer(NEW_YORK._native, instants)


def must_be_equal(answer, expected):
    assert type(answer) is type(expected)
    (pd.testing.assert_index_equal if isinstance(answer, pd.Index) else pd.testing.assert_series_equal)(answer, expected)


TIMES = pd.date_range("2021-03-13", periods=40, freq="h", tz="UTC", name="at")
ROWS = pd.Series(TIMES, index=pd.MultiIndex.from_product([range(8), [*"abcde"]]), name=("at", 1))


@pytest.mark.parametrize(
    "instants",
    [TIMES, TIMES[:0], TIMES.tz_localize(None), TIMES.tz_convert("Asia/Tokyo"), TIMES.insert(3, pd.NaT).rename(None), ROWS, ROWS[:0]]
    + [ROWS.dt.tz_localize(None), ROWS.dt.tz_convert("Asia/Tokyo"), ROWS.where(ROWS.index.codes[0] != 3).rename(None), ROWS.to_frame()[("at", 1)]],
)
def test_plain_columns(instants):
    """This version of pandas keeps them as they are read quickly, and their answers are those of all columns."""
    before = instants.copy(deep=True)
    NEW_YORK.to_local(instants)
    answer = quickly(instants)
    must_be_equal(answer, by_columns(instants))
    must_be_equal(NEW_YORK.to_local(instants), answer)
    must_be_equal(instants, before)
    if isinstance(answer, pd.Series):
        assert answer.index is instants.index
        answer.iloc[:] = pd.NaT
        must_be_equal(instants, before)
    else:
        assert answer.freq is None


@pytest.mark.parametrize("rows", [_native.FEW, _native.FEW + 1])
def test_plain_columns_with_the_lock_and_without(rows):
    instants = pd.Series((np.arange(rows) * 40_000).view("M8[s]").astype("M8[ns]"))
    for column in (instants, pd.DatetimeIndex(instants)):
        NEW_YORK.to_local(column)
        must_be_equal(quickly(column), by_columns(column))


def test_columns_that_are_left(monkeypatch):
    frozen = TIMES.tz_localize(None).to_numpy().copy()
    frozen.flags.writeable = False
    left = [TIMES[::2], ROWS[::-1], pd.Series([0, 1]), pd.Index([0, 1]), pd.Series(frozen, copy=False), pd.Series(TIMES, dtype="category")]
    for instants in left[:5]:
        must_be_equal(NEW_YORK.to_local(instants), by_columns(instants))
    assert [quickly(instants) for instants in left] == [None] * 6
    monkeypatch.setattr(_plain, "ROWS", 39)
    assert quickly(TIMES) is None and quickly(ROWS) is None and quickly(TIMES[1:]).size == 39
    for instants in (LOCALS.dt.to_period("D"), ROWS - ROWS, left[5], ROWS.astype(str), ROWS.to_frame()):
        with pytest.raises(TypeError, match="is no column of time"):
            NEW_YORK.to_local(instants)


# Local times around a gap and around a fold, and NaT.
CLOCKS = pd.DatetimeIndex([*pd.date_range("2021-03-14 01:00", "2021-03-14 04:00", freq="20min"), pd.NaT], name="read")
CLOCKS = CLOCKS.append(pd.date_range("2021-11-07", "2021-11-07 03:00", freq="20min"))


def localized(column, *words):
    """What is answered to the column as numbers, or the error and its row."""
    try:
        return pd.DatetimeIndex(NEW_YORK.localize(column, *words)).asi8.tolist()
    except sahvumbi.RowError as error:
        return type(error), error.row


@pytest.mark.parametrize("clocks", [CLOCKS, CLOCKS[:3], CLOCKS[6:13], CLOCKS[14:], CLOCKS[:0], CLOCKS.repeat(30)], ids=len)
@pytest.mark.parametrize("fold", ["raise", "earliest", "latest", "nat", "infer", 1])
@pytest.mark.parametrize("gap", ["raise", "shift", "after", "shift_back", "before", "nat"])
def test_plain_local_times(clocks, gap, fold):
    """Their instants are those of an array of the same times, also the second time, when the quick way is known."""
    expected = localized(clocks.to_numpy(), gap, fold)
    for column in (clocks, pd.Series(clocks, index=range(5, 5 + len(clocks)), name="read")):
        for _ in range(2):
            assert localized(column, gap, fold) == expected
        if not isinstance(expected, tuple):
            answer = NEW_YORK.localize(column, gap, fold)
            assert type(answer) is type(column) and answer.name == column.name and str(answer.dtype) == "datetime64[ns, UTC]"
            assert not isinstance(answer, pd.Series) or answer.index is column.index
    assert set(_plain.QUICK_INSTANTS) == {pd.Series, pd.DatetimeIndex}


def test_local_times_that_are_left():
    """Those with a zone of their own, and those that the words don't go with, have their errors."""
    NEW_YORK.localize(CLOCKS, "nat", "nat")
    for wrong, words, why in ((TIMES, (), "local times have no zone"), (CLOCKS, ("shift_forward",), "after"), (CLOCKS, ("nat", "first"), "fold is one of")):
        with pytest.raises((TypeError, ValueError), match=why):
            NEW_YORK.localize(wrong, *words)


@pytest.mark.skipif(pd.__version__ >= "2.2", reason="pandas has no such option")
def test_columns_without_blocks():
    with pd.option_context("mode.data_manager", "array"):
        instants = pd.Series(TIMES, name="when")
        assert quickly(instants) is None
        must_be_equal(NEW_YORK.to_local(instants), pd.Series(by_columns(TIMES), name="when"))


ENDS = st.sampled_from([-(2**63), -(2**63) + 1, 2**63 - 1])


@given(st.lists(st.integers(-(2**63), 2**63 - 1) | ENDS, max_size=8), st.booleans())
def test_plain_columns_of_any_instants(counts, is_index):
    """A row without an answer has the error that it has in all columns."""
    times = np.array(counts, np.int64).view("M8[ns]")
    instants = pd.DatetimeIndex(times) if is_index else pd.Series(times)
    try:
        expected = by_columns(instants)
    except sahvumbi.OutOfRangeError as error:
        with pytest.raises(sahvumbi.OutOfRangeError) as raised:
            NEW_YORK.to_local(instants)
        found = raised.value
        assert (found.row, found.value, found.label, found.number) == (error.row, error.value, error.label, error.number)
    else:
        must_be_equal(NEW_YORK.to_local(instants), expected)


def test_answers_are_what_pandas_makes():
    """An answer that is made without pandas' checks behaves as one that pandas makes."""
    made = NEW_YORK.to_local(INSTANTS)
    pd.testing.assert_series_equal(made, INSTANTS.dt.tz_convert("America/New_York").dt.tz_localize(None))
    made.loc["c"] = pd.Timestamp("2022-01-01")
    made.iloc[0] = pd.NaT
    assert made.isna().tolist() == [True, True, False, False] and made.name == "when"
    assert made.sort_values().index[0] == "b" and made.dt.year.dropna().tolist() == [2021.0, 2022.0]
    assert pd.concat([made, made]).size == 8 and made.to_frame().columns.tolist() == ["when"]
    assert pickle.loads(pickle.dumps(made)).equals(made) and made.rename("then").name == "then"
    there, here = NEW_YORK.localize(pd.DatetimeIndex(LOCALS, name="when")), NEW_YORK.to_local(pd.DatetimeIndex(INSTANTS, name="when"))
    for index, expected in ((there, INSTANTS), (here, LOCALS)):
        assert index.freq is None and index.name == "when" and index.get_loc(expected.iloc[2]) == 2
        assert pickle.loads(pickle.dumps(index)).equals(index) and index.insert(0, pd.NaT).size == 4
        assert index.union(index).size == 3 and index.isin(expected).all() and index.rename("then").name == "then"
    # What is written to an answer is not written to its question.
    assert LOCALS.iloc[0] == pd.Timestamp("2021-07-01 08:00:00.5")


def test_partitions_of_dask():
    """A zone goes to the partitions of a data frame of Dask as it is."""
    frames = pytest.importorskip("dask.dataframe")
    instants = pd.Series(
        pd.date_range("2021-01-01", "2021-12-31", freq="1h", tz="UTC"), name="when"
    )
    answer = frames.from_pandas(instants, npartitions=3).map_partitions(
        NEW_YORK.to_local, meta=("when", "M8[ns]")
    )
    pd.testing.assert_series_equal(
        answer.compute(scheduler="synchronous"), NEW_YORK.to_local(instants)
    )
