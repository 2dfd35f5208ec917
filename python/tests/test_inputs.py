"""What may be handed over besides arrays and Series, and what a TypeError says of the rest."""

import pickle
import re
from array import array
from datetime import date, datetime, timedelta, timezone
from zoneinfo import ZoneInfo

import numpy as np
import pandas as pd
import pytest
import pytz
from dateutil import tz
from hypothesis import given
from hypothesis import strategies as st

import sahvumbi
from sahvumbi import Zone, localize_many, moved, to_local_many

NEW_YORK = Zone("America/New_York")
THEIRS = ZoneInfo("America/New_York")
CLOCKS = ["2021-07-01 08:00:00.5", None, "2021-01-01 07:00:00.0"]
LOCAL = pd.DatetimeIndex(CLOCKS, name="when")
UTC = ["2021-07-01 12:00:00.5", None, "2021-01-01 12:00:00.0"]
INSTANTS = pd.DatetimeIndex(UTC, name="when", tz="UTC")
GAP, FOLD = datetime(2021, 3, 14, 2, 30), datetime(2021, 11, 7, 1, 30)


# Indexes


def test_an_index():
    pd.testing.assert_index_equal(NEW_YORK.localize(LOCAL), INSTANTS)
    pd.testing.assert_index_equal(NEW_YORK.to_local(INSTANTS), LOCAL)
    pd.testing.assert_index_equal(NEW_YORK.to_local(INSTANTS.tz_localize(None)), LOCAL)
    pd.testing.assert_index_equal(NEW_YORK.to_local(INSTANTS.tz_convert("Asia/Tokyo")), LOCAL)
    offsets = pd.Index(np.array([-14_400, "NaT", -18_000], "m8[s]"), name="when")
    pd.testing.assert_index_equal(NEW_YORK.offsets(INSTANTS), offsets)
    with pytest.raises(TypeError, match=r"these are .*: to_local and floor take instants; .* tz_localize\(None\) removes their zone"):
        NEW_YORK.localize(INSTANTS)
    with pytest.raises(TypeError, match="with utc=True"):
        NEW_YORK.to_local(pd.Series(["2021-07-01 12:00-04:00", "2021-12-01 12:00-05:00"]))


def test_an_index_of_numbers():
    for index in (pd.Index([0, 1_625_140_800], name="at"), pd.RangeIndex(0, 10, 5, name="at")):
        answer = NEW_YORK.to_local(index)
        assert isinstance(answer, pd.Index) and answer.name == "at"
        assert answer.tolist() == NEW_YORK.to_local(index.to_numpy()).tolist()


def test_tables_of_an_index():
    frame = NEW_YORK.explain(LOCAL)
    assert frame.index is LOCAL or frame.index.equals(LOCAL)
    assert frame["shown"].tolist() == [1, -1, 1] and frame["first"].tolist()[0] == INSTANTS[0]
    frame = NEW_YORK.types(INSTANTS)
    assert frame.index.equals(INSTANTS)
    assert frame["abbreviation"].tolist() == ["EDT", "", "EST"]


def test_an_error_tells_the_index():
    with pytest.raises(sahvumbi.GapError) as raised:
        NEW_YORK.localize(pd.DatetimeIndex([LOCAL[0], GAP]))
    assert (raised.value.row, raised.value.label) == (1, pd.Timestamp(GAP))


# Moments


def test_a_timestamp():
    local, instant = pd.Timestamp("2021-07-01 08:00:00.123456789"), pd.Timestamp(
        "2021-07-01 12:00:00.123456789", tz="UTC"
    )
    assert NEW_YORK.localize(local) == instant and NEW_YORK.localize(local).tz is not None
    assert NEW_YORK.to_local(instant) == local
    assert NEW_YORK.to_local(instant.tz_localize(None)) == local
    assert NEW_YORK.to_local(instant.tz_convert("Asia/Tokyo")) == local
    assert NEW_YORK.offsets(instant) == pd.Timedelta(-4, "h")
    assert NEW_YORK.localize(pd.NaT) is pd.NaT and NEW_YORK.to_local(pd.NaT) is pd.NaT
    assert NEW_YORK.localize(pd.Timestamp(GAP), gap="nat") is pd.NaT
    assert NEW_YORK.types(instant).abbreviation == "EDT"
    assert NEW_YORK.explain(pd.Timestamp(FOLD)).last == pd.Timestamp("2021-11-07 06:30", tz="UTC")
    change = pd.Timestamp("2021-03-14 07:00", tz="UTC")
    sides = pd.Timedelta(-5, "h"), pd.Timedelta(-4, "h")
    assert NEW_YORK.explain(pd.Timestamp(GAP)) == (0, change, change, *sides)
    with pytest.raises(TypeError, match="a local time has no zone"):
        NEW_YORK.localize(instant)
    with pytest.raises(sahvumbi.GapError):
        NEW_YORK.localize(pd.Timestamp(GAP))


def test_a_datetime():
    local = datetime(2021, 7, 1, 8, 0, 0, 5)
    instant = datetime(2021, 7, 1, 12, 0, 0, 5, timezone.utc)
    answer = NEW_YORK.localize(local)
    assert type(answer) is datetime and answer == instant and answer.tzinfo is timezone.utc
    assert type(NEW_YORK.to_local(instant)) is datetime and NEW_YORK.to_local(instant) == local
    assert NEW_YORK.to_local(instant.replace(tzinfo=None)) == local
    assert NEW_YORK.to_local(instant.astimezone(ZoneInfo("Asia/Tokyo"))) == local
    assert NEW_YORK.offsets(instant) == timedelta(hours=-4)
    assert NEW_YORK.types(instant) == (timedelta(hours=-4), True, "EDT")
    assert NEW_YORK.explain(FOLD).first == datetime(2021, 11, 7, 5, 30, tzinfo=timezone.utc)
    change = datetime(2021, 3, 14, 7, tzinfo=timezone.utc)
    assert NEW_YORK.explain(GAP) == (0, change, change, timedelta(hours=-5), timedelta(hours=-4))
    assert NEW_YORK.localize(FOLD, fold=1) == datetime(2021, 11, 7, 6, 30, tzinfo=timezone.utc)
    assert NEW_YORK.localize(local, tz=THEIRS).tzinfo is THEIRS
    assert NEW_YORK.localize(local, tz="America/New_York") == NEW_YORK.localize(local, tz=THEIRS)
    assert NEW_YORK.localize(local, tz="Asia/Tokyo").tzinfo is ZoneInfo("Asia/Tokyo")
    with pytest.raises(TypeError, match="a local time has no zone"):
        NEW_YORK.localize(instant)
    with pytest.raises(ValueError, match="datetime has no NaT"):
        NEW_YORK.localize(GAP, gap="nat")
    for moment, ask in ((datetime.max, NEW_YORK.localize), (datetime.min, NEW_YORK.to_local)):
        with pytest.raises(sahvumbi.OutOfRangeError, match="does not fit datetime"):
            ask(moment)


MOMENTS = st.datetimes(datetime(1, 1, 3), datetime(9999, 12, 29))


@given(MOMENTS)
def test_datetimes_beside_zoneinfo(moment):
    instant = moment.replace(tzinfo=timezone.utc)
    expected = instant.astimezone(THEIRS)
    assert NEW_YORK.to_local(instant) == expected.replace(tzinfo=None)
    assert NEW_YORK.offsets(instant) == expected.utcoffset()
    assert NEW_YORK.types(instant)[1:] == (bool(expected.dst()), expected.tzname())
    back = NEW_YORK.localize(expected.replace(tzinfo=None), fold=expected.fold)
    assert back == instant


@given(MOMENTS, st.sampled_from([0, 1]))
def test_local_times_beside_zoneinfo(moment, fold):
    expected = moment.replace(tzinfo=THEIRS, fold=fold).astimezone(timezone.utc)
    if expected.astimezone(THEIRS).replace(tzinfo=None) != moment:  # in a gap
        expected = moment.replace(tzinfo=THEIRS, fold=0).astimezone(timezone.utc)
    assert NEW_YORK.localize(moment, gap="shift", fold=fold) == expected


# Nullable integers


@pytest.mark.parametrize("dtype", ["Int64", "Int32", "UInt32", "UInt64"])
def test_nullable_integers(dtype):
    column = pd.Series([0, None, 1_625_140_800], index=["a", "b", "b"], name="at", dtype=dtype)
    answer = NEW_YORK.to_local(column)
    expected = pd.Series([-18_000, None, 1_625_126_400], column.index, "Int64", "at")
    pd.testing.assert_series_equal(answer, expected)
    back = pd.Series([0, None, 1_625_140_800], column.index, "Int64", "at")
    pd.testing.assert_series_equal(NEW_YORK.localize(expected), back)
    offsets = pd.Series([-18_000, None, -14_400], column.index, "Int32", "at")
    pd.testing.assert_series_equal(NEW_YORK.offsets(column), offsets)
    explained = NEW_YORK.explain(expected)
    assert explained["shown"].tolist() == [1, -1, 1]
    assert explained["first"].tolist() == [0, pd.NA, 1_625_140_800]
    assert NEW_YORK.types(column)["offset"].tolist() == [-18_000, pd.NA, -14_400]
    skipped = pd.Series([1_615_689_000, None], dtype="Int64")
    assert NEW_YORK.localize(skipped, gap="nat").isna().tolist() == [True, True]
    index = NEW_YORK.to_local(pd.Index(column))
    assert isinstance(index, pd.Index) and index.isna().tolist() == [False, True, False]


def test_nullable_integers_may_not_fit():
    with pytest.raises(sahvumbi.OutOfRangeError):
        NEW_YORK.to_local(pd.Series([0, 2**63], dtype="UInt64"))
    with pytest.raises(sahvumbi.OutOfRangeError):
        NEW_YORK.to_local(pd.Series([-(2**63), None], dtype="Int64"))


# What is kept


class Kept(pd.Series):
    """A subclass, as geopandas has one."""

    @property
    def _constructor(self):
        return Kept


def test_attrs_and_subclasses_are_kept():
    column = Kept(LOCAL, name="when")
    column.attrs["source"] = "meter 7"
    for answer in (
        NEW_YORK.localize(column),
        NEW_YORK.to_local(column),
        NEW_YORK.offsets(column),
        NEW_YORK.localize(column, tz="Asia/Tokyo"),
    ):
        assert type(answer) is Kept and answer.attrs == {"source": "meter 7"}
        assert answer.name == "when" and answer.index.equals(column.index)
    assert NEW_YORK.explain(column).attrs == NEW_YORK.types(column).attrs == {"source": "meter 7"}
    flagged = pd.Series(LOCAL).set_flags(allows_duplicate_labels=False)
    assert not NEW_YORK.localize(flagged).flags.allows_duplicate_labels


def test_a_zone_of_the_answer():
    expected = INSTANTS.tz_convert(ZoneInfo("Europe/Paris"))
    pd.testing.assert_index_equal(NEW_YORK.localize(LOCAL, tz="Europe/Paris"), expected)
    answer = NEW_YORK.localize(pd.Series(LOCAL), tz=NEW_YORK)
    assert answer.dtype == pd.DatetimeTZDtype("ns", THEIRS)
    assert answer[0] == INSTANTS[0]
    assert NEW_YORK.localize(LOCAL[0], tz="Europe/Paris").tz is ZoneInfo("Europe/Paris")
    for fixed in (timezone(timedelta(hours=2)), pytz.FixedOffset(120), pytz.UTC, tz.tzoffset(None, 7_200)):
        assert (NEW_YORK.localize(LOCAL, tz=fixed) == INSTANTS)[[0, 2]].all()
    for name in ("America/New_Yrok", "../America/New_York", "America", "", "\ud800"):
        with pytest.raises(sahvumbi.ZoneNotFoundError, match="no zone has the name"):
            NEW_YORK.localize(LOCAL, tz=name)
    for column in ([0], np.array(["2021"], "M8[s]"), pd.Series([0]), pd.Index([0]), pd.Series([0], dtype="Int64")):
        with pytest.raises(TypeError, match="tz= is for .* an array and numbers have no zone"):
            NEW_YORK.localize(column, tz="Europe/Paris")
    with pytest.raises(ValueError, match="a zone with a name"):
        NEW_YORK.localize(LOCAL, tz=Zone.from_text("EST5"))
    with pytest.raises(ValueError, match="leave it out for UTC"):
        NEW_YORK.localize(LOCAL, tz=None)


YEARS = pd.to_datetime([f"{year}-07-01 12:00" for year in (1890, 2021, 2037, 2038, 2050, 2261)])


@pytest.mark.parametrize("zone", ["America/New_York", NEW_YORK, THEIRS], ids=["name", "Zone", "ZoneInfo"])
def test_what_is_shown_is_what_was_given(zone):
    """Also from 2038 on, for which pytz, whose zones pandas takes for names, has no rule."""
    import sahvumbi.pandas  # noqa: F401

    series = pd.Series(YEARS)
    for answer in (
        NEW_YORK.localize(series, tz=zone),
        NEW_YORK.localize(series, errors="collect", tz=zone)[0],
        localize_many([NEW_YORK], [0] * len(YEARS), series, tz=zone),
        series.sahvumbi.localize(NEW_YORK, tz=zone),
    ):
        pd.testing.assert_series_equal(answer.dt.tz_localize(None), series)
    pd.testing.assert_index_equal(NEW_YORK.localize(YEARS, tz=zone).tz_localize(None), YEARS)
    for stamp in YEARS:
        assert NEW_YORK.localize(stamp, tz=zone).tz_localize(None) == stamp
        moment = stamp.to_pydatetime()
        assert NEW_YORK.localize(moment, tz=zone).replace(tzinfo=None) == moment


def test_what_would_be_shown_wrong():
    other = pickle.loads(pickle.dumps(NEW_YORK))
    other._native = Zone("Asia/Tokyo")._native
    for zone, words in (
        (pytz.timezone("America/New_York"), "and not pytz America/New_York: pass the name"),
        (tz.gettz("America/New_York"), "and not dateutil tzfile: pass the name"),
        (5, "and not int$"),
        (other, "another zone of that name: tz='America/New_York'"),
    ):
        for local in (LOCAL, pd.Series(LOCAL), LOCAL[0], GAP.replace(hour=5)):
            with pytest.raises(TypeError, match=words):
                NEW_YORK.localize(local, tz=zone)


def test_what_pandas_cannot_show():
    """Near the ends of 64 bits it would show another year."""
    ends = pd.Series([pd.Timestamp.min, pd.NaT, pd.Timestamp("2021"), pd.Timestamp.max])
    utc = Zone("Etc/UTC")
    for zone, row in (("Asia/Tokyo", 3), ("America/New_York", 0)):
        assert utc.localize(ends.drop(row), tz=zone).isna().sum() == 1
        for column in (ends, pd.DatetimeIndex(ends), ends[row]):
            with pytest.raises(sahvumbi.OutOfRangeError, match="can't be shown in tz=") as raised:
                utc.localize(column, tz=zone)
            assert raised.value.row == (None if isinstance(column, pd.Timestamp) else row)
    for moment, zone in ((datetime.max, "Asia/Tokyo"), (datetime.min, "America/New_York")):
        with pytest.raises(sahvumbi.OutOfRangeError, match="can't be shown in tz="):
            utc.localize(moment, tz=zone)
    if pd.__version__ >= "2":
        far = pd.Series(np.array(["12000-07-01", "2021-07-01"], "M8[s]"))
        with pytest.raises(sahvumbi.OutOfRangeError, match="can't be shown in tz="):
            utc.localize(far, tz="Europe/Paris")
        assert utc.localize(pd.Timestamp("3000-07-01 12:00"), tz=timezone.utc) == pd.Timestamp("3000-07-01 12:00Z")


def test_what_is_not_a_time():
    """NaT, and of a datetime None."""
    for ask in (NEW_YORK.offsets, NEW_YORK.to_local, NEW_YORK.localize, NEW_YORK.start_of_day, NEW_YORK.end_of_day):
        assert ask(pd.NaT) is pd.NaT
    assert NEW_YORK.floor(pd.NaT, "h") is NEW_YORK.ceil(pd.NaT, "D") is pd.NaT
    assert NEW_YORK.types(pd.NaT) == (pd.NaT, False, "") and NEW_YORK.types(pd.NaT).offset is pd.NaT
    for answer, others in (
        (NEW_YORK.explain(pd.NaT), [-1]),
        (NEW_YORK.spans(pd.NaT), [False, ""]),
        (NEW_YORK.day(pd.NaT), []),
    ):
        assert [each for each in answer if each is not pd.NaT] == others
    for unit in ("s", "ms", "us", "ns"):
        assert np.isnat(NEW_YORK.explain(np.datetime64("NaT", unit))[1:]).all()


# The index of a Series

TIMES = pd.date_range("2021-07-01", periods=3, tz="UTC")
CALLS = {
    "zone.offsets(s.index)": NEW_YORK.offsets,
    "zone.to_local(s.index)": NEW_YORK.to_local,
    "zone.types(s.index)": NEW_YORK.types,
    "zone.spans(s.index)": NEW_YORK.spans,
    "zone.localize(s.index)": NEW_YORK.localize,
    "zone.explain(s.index)": NEW_YORK.explain,
    "zone.start_of_day(s.index)": NEW_YORK.start_of_day,
    "zone.end_of_day(s.index)": NEW_YORK.end_of_day,
    "zone.day(s.index)": NEW_YORK.day,
    "zone.floor(s.index, step)": lambda column: NEW_YORK.floor(column, "h"),
    "zone.ceil(s.index, step)": lambda column: NEW_YORK.ceil(column, "h"),
    "moved(old, new, s.index)": lambda column: moved(NEW_YORK, NEW_YORK, column),
    "localize_many(zones, codes, s.index)": lambda column: localize_many([NEW_YORK], [0] * 3, column),
    "to_local_many(zones, codes, s.index)": lambda column: to_local_many([NEW_YORK], [0] * 3, column),
    "from_: a Series s": lambda column: NEW_YORK.changes(column, 0),
}


@pytest.mark.parametrize("line", CALLS)
def test_times_in_the_index_of_a_series(line):
    """Its values are what was measured then, and no seconds."""
    meters = pd.MultiIndex.from_arrays([[1, 2, 3], TIMES])
    for index in (TIMES, TIMES.tz_localize(None), meters, pd.period_range("2021-07", periods=3, freq="D")):
        for dtype in ("int64", "uint8", "Int64", "float64", "Float64", "bool"):
            with pytest.raises(TypeError, match=f"{re.escape(line)}.*") as raised:
                CALLS[line](pd.Series([0, 1, 1], index).astype(dtype))
            assert "with times in its index: " in str(raised.value)


def test_an_index_of_times_is_no_fault():
    local, numbers = pd.Series(TIMES, TIMES), pd.Series([0, 1, 2], ["a", "b", "c"])
    assert NEW_YORK.to_local(local).index is TIMES or NEW_YORK.to_local(local).index.equals(TIMES)
    assert NEW_YORK.to_local(numbers).tolist() == [-18_000, -17_999, -17_998]
    assert NEW_YORK.to_local(pd.Series([0], TIMES[:1]).to_numpy()).tolist() == [-18_000]


# Refusals


class HiddenZone:
    """What gives an array of UTC for a column with a zone, as those of other libraries may."""

    def __array__(self, dtype=None):
        return INSTANTS.to_numpy("M8[ns]")


@pytest.mark.parametrize(
    "column, words",
    [
        (HiddenZone(), "pass its instants in UTC, or its local times"),
        (pd.DataFrame({"when": LOCAL}), "pandas DataFrame .* one of its columns"),
        (pd.DataFrame({"when": LOCAL[:0]}), "pandas DataFrame"),
        (INSTANTS.array, "pandas DatetimeArray .* a Series or an Index"),
        (INSTANTS.array[:0], "pandas DatetimeArray"),
        (pd.array([1, None], dtype="Int64"), "pandas IntegerArray .* a Series or an Index"),
        (pd.array([], dtype="Int64"), "pandas IntegerArray"),
        (pd.MultiIndex.from_product([[0], [1]]), "get_level_values"),
        (pd.Series([GAP], dtype=object), "pandas.to_datetime"),
        (pd.Series(["2021-01-01"]), "pandas.to_datetime"),
        (pd.Series([1.0, None], dtype="Float64"), "Series of Float64"),
        (pd.period_range("2021", periods=2, freq="D"), "Index of period"),
        (pd.Series([True]), "array of bool"),
        ("2021-01-01", "a str .* read a text"),
        (date(2021, 1, 1), "a date .* a time of day"),
        (array("q", [0]), "is no column of time"),
        ({0: 1}, "a dict .* a Series, an Index and a datetime are"),
        (iter([0]), "is no column of time"),
        ([1.5], "astype makes int64 of whole seconds"),
        ([GAP], "pandas.to_datetime"),
        (["2021-01-01"], "pandas.to_datetime"),
    ],
)
def test_each_refusal_says_what_to_do(column, words):
    zone = NEW_YORK
    for ask in (zone.offsets, zone.to_local, zone.types, zone.localize, zone.explain):
        with pytest.raises(TypeError, match=words):
            ask(column)


def test_parts_of_dask_are_refused():
    frames, arrays = pytest.importorskip("dask.dataframe"), pytest.importorskip("dask.array")
    for column in (
        frames.from_pandas(pd.Series(LOCAL), npartitions=2),
        frames.from_pandas(pd.DataFrame({"when": LOCAL}), npartitions=2),
        arrays.from_array(np.arange(4), chunks=2),
    ):
        with pytest.raises(TypeError, match="a dask .* map_partitions"):
            NEW_YORK.to_local(column)


def test_lists():
    assert NEW_YORK.to_local([]).dtype == np.int64
    assert NEW_YORK.to_local(()).shape == (0,)
    assert NEW_YORK.to_local(range(3)).tolist() == [-18_000, -17_999, -17_998]
    assert NEW_YORK.to_local([[0], [1]]).shape == (2, 1)
    days = [np.datetime64("2021-07-01"), np.datetime64("2021-01-01T12", "h")]
    assert NEW_YORK.to_local(days).tolist() == [datetime(2021, 6, 30, 20), datetime(2021, 1, 1, 7)]


# The accessor


def test_the_accessor():
    import sahvumbi.pandas  # noqa: F401

    for column in (pd.Series(LOCAL), LOCAL):
        for zone in ("America/New_York", NEW_YORK, THEIRS):
            instants = column.sahvumbi.localize(zone, gap="shift")
            assert (instants.dropna() == INSTANTS.dropna()).all()
            assert (instants.sahvumbi.to_local(zone).dropna() == LOCAL.dropna()).all()
            assert instants.sahvumbi.offsets(zone)[0] == pd.Timedelta(-4, "h")
            assert instants.sahvumbi.types(zone)["is_dst"].tolist() == [True, False, False]
            assert column.sahvumbi.explain(zone)["shown"].tolist() == [1, -1, 1]
            assert instants.sahvumbi.spans(zone)["abbreviation"].tolist() == ["EDT", "", "EST"]
            starts = column.sahvumbi.start_of_day(zone)
            for days in (instants.sahvumbi.day(zone)["start"], instants.sahvumbi.floor(zone, "D")):
                assert days.dropna().tolist() == starts.dropna().tolist()
            assert (column.sahvumbi.end_of_day(zone) > starts).tolist() == [True, False, True]


def test_ends_of_a_stretch():
    ends = [
        (pd.Timestamp("2021"), pd.Timestamp("2022")),
        (pd.Timestamp("2021", tz="UTC"), datetime(2022, 1, 1)),
        (datetime(2021, 1, 1, tzinfo=timezone.utc), np.datetime64("2022")),
    ]
    for first, last in ends:
        assert NEW_YORK.changes(first, last).name_after.tolist() == ["EDT", "EST"]
    with pytest.raises(TypeError, match="from_ is a text: .*pandas.Timestamp"):
        NEW_YORK.changes("2021", 0)
    with pytest.raises(TypeError, match="to: a .*DataFrame is no column"):
        NEW_YORK.changes(0, pd.DataFrame())
    with pytest.raises(ValueError, match="from_ is NaT"):
        NEW_YORK.changes(pd.NaT, pd.Timestamp("2022"))
