"""Days, and steps of clocks: against the definitions, the library's own steps, zoneinfo and pandas."""

import ctypes
from ctypes import byref, c_int64, c_size_t, c_uint32, c_void_p
from datetime import date, datetime, timedelta, timezone
from functools import lru_cache
from zoneinfo import ZoneInfo

import numpy as np
import pandas as pd
import pytest
from definitions import DAY, QUARTER, Lists, first_in, floor_in, pieces
from hypothesis import given, settings
from hypothesis import strategies as st

import sahvumbi
from sahvumbi import Zone, _library

NEW_YORK = Zone("America/New_York")
# Zones that change by quarters of an hour, so that a look at each of those is enough.
EDGE, GREATEST = 400, 60
WINDOW = range(-QUARTER * (EDGE + 700), QUARTER * (EDGE + 700), QUARTER)
QUARTERS = st.integers(-EDGE, EDGE).map(lambda quarters: QUARTER * quarters)


@st.composite
def zones(draw):
    quarters = draw(st.lists(st.integers(-GREATEST, GREATEST), min_size=1, max_size=5))
    offsets = [QUARTER * each for each in quarters]
    seconds = sorted(draw(st.sets(QUARTERS, max_size=8)))
    return Lists([(second, draw(st.integers(0, len(offsets) - 1))) for second in seconds], offsets)


INSTANTS = st.lists(st.tuples(QUARTERS, st.integers(0, QUARTER - 1)).map(sum), min_size=1, max_size=6)


@settings(max_examples=200)
@given(zones(), st.lists(st.integers(-5, 5), min_size=1, max_size=5), st.integers(0, DAY - 1))
def test_start_and_end_of_day(lists, dates, time):
    zone = Zone.from_bytes(lists.file())
    starts = [lists.first_at_or_after(DAY * each, WINDOW) for each in dates]
    untils = [lists.first_at_or_after(DAY * (each + 1), WINDOW) for each in dates]
    assert zone.start_of_day([DAY * each + time for each in dates]).tolist() == starts
    days = np.array(dates, "M8[D]")
    assert zone.start_of_day(days).view(np.int64).tolist() == starts
    milliseconds = (days.astype("M8[ms]") + np.timedelta64(time, "s"))
    ends = zone.end_of_day(milliseconds)
    expected = [
        None if start == until else until * 1_000 - 1 for start, until in zip(starts, untils)
    ]
    assert [None if np.isnat(each) else int(each.view(np.int64)) for each in ends] == expected
    if None in expected:
        with pytest.raises(sahvumbi.GapError, match="shows a time of that day") as raised:
            zone.end_of_day([DAY * each for each in dates])
        assert raised.value.row == expected.index(None)
    else:
        seconds = zone.end_of_day([DAY * each for each in dates])
        assert seconds.tolist() == [until - 1 for until in untils]


@st.composite
def hasty_zones(draw):
    """Zones whose clocks are changed several times in a day."""
    offsets = [QUARTER * each for each in draw(st.lists(st.integers(-GREATEST, GREATEST), min_size=2, max_size=4))]
    quarters = sorted(draw(st.sets(st.integers(-20, 20), min_size=2, max_size=8)))
    return Lists([(QUARTER * each, draw(st.integers(0, len(offsets) - 1))) for each in quarters], offsets)


@settings(max_examples=100)
@given(hasty_zones())
def test_many_local_times_are_asked_together(lists):
    """Some lie near changes, and some as far as days after them."""
    window = range(-200 * QUARTER, 500 * QUARTER, QUARTER)
    local = np.arange(-90 * QUARTER, 400 * QUARTER, 5 * QUARTER)
    found = Zone.from_bytes(lists.file())._native.first_at_or_after(local)
    assert found["instant"].tolist() == [lists.first_at_or_after(each, window) for each in local.tolist()]
    assert (found["number"] == 0).all()
    assert found["offset"].tolist() == [lists.offset(each) for each in found["instant"].tolist()]


@settings(max_examples=40)
@given(hasty_zones(), st.sampled_from([("h", 3_600), ("3h", 10_800), ("12h", 43_200)]))
def test_steps_that_go_on_over_changes(lists, step):
    word, seconds = step
    zone, window = Zone.from_bytes(lists.file()), range(-200 * QUARTER, 200 * QUARTER, QUARTER)
    for asked in (np.arange(-25 * QUARTER, 75 * QUARTER, 2 * QUARTER), np.array([5 * QUARTER])):
        floors = [lists.floor(each, seconds, window) for each in asked.tolist()]
        assert zone.floor(asked, word).tolist() == floors
        ceils = [lists.ceil(each, seconds, window) for each in asked.tolist()]
        assert zone.ceil(asked, word).tolist() == ceils


@settings(max_examples=200)
@given(zones(), INSTANTS)
def test_day(lists, instants):
    days = Zone.from_bytes(lists.file()).day(instants)
    for instant, day, start, until in zip(instants, *(field.tolist() for field in days)):
        number = lists.day(instant, WINDOW)
        assert day == DAY * number
        assert start == lists.first_at_or_after(DAY * number, WINDOW)
        assert until == lists.first_at_or_after(DAY * (number + 1), WINDOW)
        assert start <= instant < until


@settings(max_examples=400)
@given(zones(), INSTANTS, st.sampled_from([("15min", 900), ("h", 3_600), ("3h", 10_800), ("12h", 43_200)]))
def test_floor(lists, instants, step):
    word, seconds = step
    zone = Zone.from_bytes(lists.file())
    expected = [lists.floor(instant, seconds, WINDOW) for instant in instants]
    assert zone.floor(instants, word).tolist() == expected
    assert zone.floor(instants, timedelta(seconds=seconds)).tolist() == expected
    parts = np.array(instants, "M8[s]").astype("M8[us]") + np.timedelta64(999_999, "us")
    assert zone.floor(parts, word).astype("M8[s]").view(np.int64).tolist() == expected
    assert zone.floor(instants, "D").tolist() == zone.day(instants).start.tolist()


@settings(max_examples=200)
@given(zones(), st.lists(QUARTERS, min_size=1, max_size=4), st.sampled_from([("h", 3_600), ("3h", 10_800)]))
def test_ceil(lists, instants, step):
    word, seconds = step
    zone = Zone.from_bytes(lists.file())
    expected = [lists.ceil(instant, seconds, WINDOW) for instant in instants]
    assert zone.ceil(instants, word).tolist() == expected
    part, times = np.timedelta64(1, "us"), np.array(instants, "M8[s]").astype("M8[us]")
    assert zone.ceil(times - part, word).astype("M8[s]").view(np.int64).tolist() == expected
    following = [lists.ceil(instant + QUARTER, seconds, WINDOW) for instant in instants]
    assert zone.ceil(times + part, word).astype("M8[s]").view(np.int64).tolist() == following
    days = zone.day(instants)
    until = np.where(days.start == instants, instants, days.until)
    assert zone.ceil(instants, "D").tolist() == until.tolist()


def test_clocks_that_are_changed_twice_in_an_hour():
    """From 10:15 to 12:15, and a quarter of an hour later back from 12:30 to 10:30."""
    zone = Zone.from_bytes(Lists([(36_900, 1), (37_800, 0)], [0, 7_200]).file())
    assert zone.floor([36_899, 36_900, 37_799, 37_800, 38_700], "h").tolist() == [
        36_000, 36_900, 36_900, 37_800, 37_800,
    ]
    assert zone.ceil([36_000, 36_001, 36_901, 37_801], "h").tolist() == [
        36_000, 36_900, 37_800, 39_600,
    ]


YEARS = [
    ("America/Toronto", 1919),  # midnight of 31 March was skipped, from 23:30 on
    ("America/St_Johns", 2005),  # set back at 00:01, over midnight
    ("Antarctica/Casey", 2010),  # set back by three hours, over midnight
    ("Pacific/Apia", 2011),  # 30 December was skipped
    ("Pacific/Kwajalein", 1993),  # 21 August was skipped
    ("America/Sao_Paulo", 2009),  # midnight was skipped
    ("America/Havana", 2009),  # midnight was shown twice
    ("Australia/Lord_Howe", 2021),
    ("Africa/Casablanca", 2021),
    ("America/New_York", 2021),
]


def year_of(name, year):
    """The zone, its pieces in a year and a day more at both ends, and the days of the year."""
    first, end = (int(datetime(each, 1, 1, tzinfo=timezone.utc).timestamp()) for each in (year, year + 1))
    return Zone(name), pieces(ZoneInfo(name), first - 3 * DAY, end + 3 * DAY), np.arange(first, end, DAY)


@pytest.mark.parametrize("name, year", YEARS)
def test_long_columns_beside_zoneinfo(name, year):
    """In order, in no order, and among rows of other centuries: each row has the same day and the same hour."""
    zone, found, days = year_of(name, year)
    changes = [until for _, until, _ in found[:-1] if days[0] + 2 * DAY < until < days[-1]]
    near = (change + 900 * place + part for change in changes for place in range(-110, 111) for part in (-1, 0))
    seconds = np.unique([*near, *range(int(days[0]) + 2 * DAY, int(days[-1]), 7_201)])
    starts = np.array([first_in(found, day) for day in [*days.tolist(), int(days[-1]) + DAY]])
    dates = starts[np.searchsorted(starts, seconds, "right") - 1]
    hours = np.array([floor_in(found, second, 3_600) for second in seconds.tolist()])
    order = np.random.default_rng(3).permutation(seconds.size)
    far = np.array([-(10**10), 10**10])
    for column, places in ((seconds, slice(None)), (seconds[order], order), (np.append(seconds, far), slice(None))):
        count = seconds.size
        assert zone.floor(column, "D")[:count].tolist() == dates[places].tolist()
        assert zone.floor(column, "h")[:count].tolist() == hours[places].tolist()
        assert zone.day(column).start[:count].tolist() == dates[places].tolist()
        assert zone.start_of_day(zone.day(column).date)[:count].tolist() == dates[places].tolist()


@pytest.mark.parametrize("name, year", YEARS)
def test_days_beside_zoneinfo(name, year):
    zone, found, days = year_of(name, year)
    starts = [first_in(found, day) for day in days.tolist()]
    untils = [first_in(found, day + DAY) for day in days.tolist()]
    assert zone.start_of_day(days).tolist() == starts
    assert zone.start_of_day(days.view("M8[s]").astype("M8[D]")).view(np.int64).tolist() == starts
    # The first and the last second of each day, and one within.
    for places in (starts, [until - 1 for until in untils], [(a + b) // 2 for a, b in zip(starts, untils)]):
        kept = [row for row in range(len(days)) if starts[row] < untils[row]]
        asked = np.array(places)[kept]
        day = zone.day(asked)
        assert day.date.tolist() == days[kept].tolist()
        assert day.start.tolist() == np.array(starts)[kept].tolist()
        assert day.until.tolist() == np.array(untils)[kept].tolist()
        assert zone.floor(asked, "D").tolist() == day.start.tolist()


@pytest.mark.parametrize("name, year", YEARS)
def test_floor_beside_zoneinfo(name, year):
    zone, found, _ = year_of(name, year)
    asked = {first + step for first, _, _ in found[1:] for step in range(-7_200, 14_400, 433)}
    asked |= {first + step for first, _, _ in found[1:] for step in (-1, 0, 1)}
    asked = sorted(each for each in asked)
    for word, step in (("15min", 900), ("h", 3_600), ("6h", 21_600)):
        expected = [floor_in(found, second, step) for second in asked]
        assert zone.floor(np.array(asked), word).tolist() == expected
        following = zone.ceil(np.array(asked) + 1, word).tolist()
        assert [floor_in(found, second, step) for second in following] == following
        assert [floor_in(found, second - 1, step) for second in following] == expected


@pytest.mark.parametrize("step", ["h", "15min", "D"])
def test_floor_and_ceil_beside_pandas(step):
    """Where clocks are changed by a whole number of steps, or between two of them."""
    times = pd.Series(pd.date_range("2021-01-01", "2021-12-31", freq="433s", tz="UTC"), name="when")
    local = times.dt.tz_convert("America/New_York")
    is_dst = NEW_YORK.types(times)["is_dst"].to_numpy()
    theirs = local.dt.floor(step, ambiguous=is_dst).dt.tz_convert("UTC")
    pd.testing.assert_series_equal(NEW_YORK.floor(times, step), theirs)
    pd.testing.assert_series_equal(NEW_YORK.floor(local, step), theirs)
    theirs = local.dt.ceil(step, ambiguous=is_dst, nonexistent="shift_forward").dt.tz_convert("UTC")
    ours = NEW_YORK.ceil(times, step)
    # By the DST flag of the question pandas takes the wrong one of two hours at the end of a fold.
    is_other = NEW_YORK.types(ours)["is_dst"].to_numpy() != is_dst
    pd.testing.assert_series_equal(ours[~is_other], theirs[~is_other])


def by_library(call, zone, seconds, *step):
    """The answers of a proved call about columns of seconds, which the package itself doesn't use."""
    ask, answers = getattr(ctypes.CDLL(str(_library.PATH)), call), np.empty_like(seconds)
    arrays = [part for each in (seconds, answers) for part in (c_void_p(each.ctypes.data), c_size_t(each.size))]
    number = ask(zone._native._zone, *map(c_uint32, step), c_int64(1), *arrays, byref(c_size_t()))
    assert number == 0
    return answers.tolist()


@pytest.mark.parametrize("name", ["America/New_York", "America/St_Johns", "America/Toronto", "Pacific/Apia", "Africa/Casablanca", "UTC"])
def test_days_are_those_of_the_library(name):
    zone = Zone(name)
    changes = zone.changes(int(np.datetime64("1900", "s").astype(int)), int(np.datetime64("2100", "s").astype(int))).at
    anywhere = np.random.default_rng(1).integers(-2_200_000_000, 4_100_000_000, 3_000)
    seconds = np.concatenate([anywhere, *(changes + 1_800 * half_hours for half_hours in range(-50, 51, 5))])
    # The numbers are those of the header: `zoned_step`.
    for step, number in {"D": 86_400, "W": 100_001, "MS": 200_000, "YS": 300_000}.items():
        assert zone.floor(seconds, step).tolist() == by_library("zoned_column_floors", zone, seconds, number)
        assert zone.ceil(seconds, step).tolist() == by_library("zoned_column_ceils", zone, seconds, number)
    reached = np.array(by_library("zoned_column_reached", zone, seconds))
    assert (zone.day(seconds).date == reached // DAY * DAY).all()


@pytest.mark.parametrize("name", ["America/New_York", "Australia/Lord_Howe", "America/Toronto", "Pacific/Apia", "Asia/Kolkata"])
def test_hours_are_those_of_the_library(name):
    """More than two days from where clocks are set back: a step of the library doesn't begin again there, and here it does."""
    zone = Zone(name)
    changes = zone.changes(int(np.datetime64("1890", "s").astype(int)), int(np.datetime64("2110", "s").astype(int)))
    anywhere = np.random.default_rng(2).integers(-2_200_000_000, 4_100_000_000, 3_000)
    seconds = np.concatenate([anywhere, *(changes.at + 450 * eighths for eighths in range(-20, 21))])
    back = np.concatenate([[-(2**40)], changes.at[changes.offset_after < changes.offset_before], [2**40]])
    places = np.searchsorted(back, seconds, "right")
    seconds = seconds[(seconds - back[places - 1] > 2 * DAY) & (back[places] - seconds > 2 * DAY)]
    assert seconds.size > 2_000
    for step, number in {"15min": 900, "h": 3_600, "6h": 21_600}.items():
        assert zone.floor(seconds, step).tolist() == by_library("zoned_column_floors", zone, seconds, number)
        assert zone.ceil(seconds, step).tolist() == by_library("zoned_column_ceils", zone, seconds, number)


@lru_cache(None)
def shown_by_zoneinfo(name, first, last):
    """Each minute from one moment of UTC to another, and the local time that zoneinfo shows then."""
    seconds = np.arange(*(int(np.datetime64(each, "s").astype(int)) for each in (first, last)), 60)
    there = ZoneInfo(name)
    moments = (datetime.fromtimestamp(each, timezone.utc).astimezone(there) for each in seconds.tolist())
    return seconds, np.array([each.replace(tzinfo=None) for each in moments], "M8[s]").view(np.int64)


@pytest.mark.parametrize("name, first, last", [
    ("America/New_York", "2021-10-20", "2021-11-12"),
    ("America/New_York", "2021-03-01", "2021-03-20"),
    ("America/St_Johns", "2005-10-20", "2005-11-10"),
    ("America/Toronto", "1919-03-20", "1919-04-10"),
    ("America/Sao_Paulo", "2017-10-01", "2017-10-20"),
    ("Pacific/Apia", "2011-12-20", "2012-01-10"),
])
@pytest.mark.parametrize("unit", ["s", "ms", "ns"])
def test_columns_in_order(name, first, last, unit):
    """Rows in order of time, many of a day, have the answers of zoneinfo: a day begins at the first minute at which
    it is midnight there, or later, for the first time. So have the same rows in another order."""
    seconds, local = shown_by_zoneinfo(name, first, last)
    numbers = np.maximum.accumulate(local // DAY)
    begins = np.flatnonzero(np.diff(numbers, prepend=numbers[0]))
    # The first day of the window has begun before it, and the last one ends after it.
    rows = np.arange(begins[2], begins[-3])
    start = seconds[begins[np.searchsorted(begins, rows, "right") - 1]]
    until = seconds[begins[np.searchsorted(begins, rows, "right")]]
    pairs = seconds[begins[np.searchsorted(numbers[begins], numbers[rows] // 2 * 2)]]
    ceils = np.where(start == seconds[rows], start, until)
    mixed = np.random.default_rng(1).permutation(rows.size)
    zone, part = Zone(name), np.timedelta64(0 if unit == "s" else 1, unit)
    for order in (np.arange(rows.size), mixed):
        times = seconds[rows][order].astype("M8[s]").astype(f"M8[{unit}]")
        np.testing.assert_array_equal(zone.floor(times, "D").astype("M8[s]").view(np.int64), start[order])
        np.testing.assert_array_equal(zone.floor(times, "2D").astype("M8[s]").view(np.int64), pairs[order])
        np.testing.assert_array_equal(zone.ceil(times, "D").astype("M8[s]").view(np.int64), ceils[order])
        # A part of a second later the start of the day is past.
        later = ceils if unit == "s" else until
        np.testing.assert_array_equal(zone.ceil(times + part, "D").astype("M8[s]").view(np.int64), later[order])
        days = zone.day(times + part)
        expected = numbers[rows] * DAY, start, until
        for field, values in zip(days, expected):
            np.testing.assert_array_equal(field.astype("M8[s]").view(np.int64), values[order])
        dates = (numbers[rows][order]).astype("M8[D]").astype(f"M8[{unit}]")
        np.testing.assert_array_equal(zone.start_of_day(dates).astype("M8[s]").view(np.int64), start[order])


@pytest.mark.parametrize("name", ["America/New_York", "Europe/London", "Africa/Casablanca", "Asia/Kolkata"])
def test_months_in_order_beside_pandas(name):
    """Each hour of six years, of several blocks: the first of a month is that of pandas, where no clock changes at midnight."""
    column = pd.Series(pd.date_range("2015-01-03", "2021-01-01", freq="1h", tz="UTC")).repeat(2)
    shown = column.dt.tz_convert(name).dt.tz_localize(None)
    for step, period in {"MS": "M", "QS": "Q", "YS": "Y", "W": "W-SUN"}.items():
        begun = shown.dt.to_period(period).dt.to_timestamp()
        expected = begun.dt.tz_localize(name).dt.tz_convert("UTC")
        pd.testing.assert_series_equal(Zone(name).floor(column, step), expected, check_freq=False)


def test_errors_of_columns_in_order():
    """The first row whose answer doesn't fit, among many of a day: midnight of 2262-04-12 is too late for nanoseconds."""
    utc, hour = Zone("UTC"), np.timedelta64(3_600 * 10**9, "ns")
    times = np.datetime64("2262-04-10T00:00", "ns") + hour * np.arange(47)
    with pytest.raises(sahvumbi.OutOfRangeError, match="does not fit datetime64.ns") as raised:
        utc.ceil(times, "D")
    assert raised.value.row == 25
    assert (utc.floor(times, "D") == times.astype("M8[D]")).all()
    with pytest.raises(sahvumbi.OutOfRangeError) as raised:
        utc.day(times)
    assert raised.value.row == 24
    last = 8_210_266_876_799
    with pytest.raises(sahvumbi.OutOfRangeError, match="outside the years") as raised:
        utc.ceil(last - DAY + np.arange(0, DAY, 600), "D")
    assert raised.value.row == 1


def test_missing_times_among_rows_in_order():
    """NaT, the least number, comes first in order of numbers, and last as pandas sorts."""
    known = pd.Series(pd.date_range("2021-11-06", "2021-11-09", freq="1h", tz="UTC"))
    begun = known.dt.tz_convert("America/New_York").dt.normalize().dt.tz_convert("UTC")
    none = pd.Series([pd.NaT], dtype=known.dtype)
    for before, after in ((none, none[:0]), (none[:0], none)):
        column, expected = (pd.concat([before, each, after], ignore_index=True) for each in (known, begun))
        pd.testing.assert_series_equal(NEW_YORK.floor(column, "D"), expected)


def test_forms():
    """Answers have the form of the question; days are shown as local times."""
    moment = datetime(2021, 3, 14, 9, 30, tzinfo=timezone.utc)
    start = datetime(2021, 3, 14, 5, tzinfo=timezone.utc)
    assert NEW_YORK.start_of_day(date(2021, 3, 14)) == start
    assert NEW_YORK.start_of_day(datetime(2021, 3, 14, 23)) == start
    assert NEW_YORK.end_of_day(date(2021, 3, 14)) == datetime(2021, 3, 15, 3, 59, 59, 999_999, timezone.utc)
    assert NEW_YORK.floor(moment, "D") == start
    assert NEW_YORK.floor(moment, "h") == datetime(2021, 3, 14, 9, tzinfo=timezone.utc)
    days = NEW_YORK.day(moment)
    assert days == (datetime(2021, 3, 14), start, datetime(2021, 3, 15, 4, tzinfo=timezone.utc))
    stamp = pd.Timestamp("2021-03-14 09:30", tz="UTC")
    assert NEW_YORK.floor(stamp, "D") == pd.Timestamp(start)
    # Its last nanosecond, whatever unit a Timestamp has.
    assert NEW_YORK.end_of_day(pd.Timestamp("2021-03-14")) == pd.Timestamp("2021-03-15 03:59:59.999999999Z")
    series = pd.Series([stamp, pd.NaT], index=["a", "b"], name="when")
    frame = NEW_YORK.day(series)
    assert list(frame.columns) == ["date", "start", "until"] and frame.index.tolist() == ["a", "b"]
    assert frame.loc["a"].tolist() == [pd.Timestamp("2021-03-14"), start, pd.Timestamp("2021-03-15 04:00Z")]
    assert frame.loc["b"].isna().all()
    assert NEW_YORK.floor(series, "h").isna().tolist() == [False, True]
    local = pd.DatetimeIndex(["2021-03-14 12:00", "NaT"], name="day")
    assert NEW_YORK.start_of_day(local).equals(pd.DatetimeIndex([start, pd.NaT]))
    assert NEW_YORK.end_of_day(local).isna().tolist() == [False, True]
    counted = pd.Series([1_615_714_200, None], dtype="Int64")
    assert NEW_YORK.floor(counted, "D").tolist() == [int(start.timestamp()), pd.NA]
    shaped = np.zeros((2, 3), "M8[ms]")
    assert NEW_YORK.floor(shaped, "h").shape == NEW_YORK.start_of_day(shaped).shape == (2, 3)
    for empty in (np.empty(0, "M8[ns]"), np.empty((0, 4), "M8[s]"), []):
        assert NEW_YORK.floor(empty, "D").size == NEW_YORK.day(empty).date.size == 0
        assert NEW_YORK.start_of_day(empty).size == NEW_YORK.end_of_day(empty).size == 0


def test_months_and_years():
    """The day of a month or of a year is its first one."""
    months = np.array(["2021-03", "2021-11", "NaT"], "M8[M]")
    days = np.array(["2021-03-01", "2021-11-01", "NaT"], "M8[D]")
    np.testing.assert_array_equal(NEW_YORK.start_of_day(months), NEW_YORK.start_of_day(days))
    assert NEW_YORK.start_of_day(np.datetime64("2021")) == np.datetime64("2021-01-01T05:00:00")


def test_columns_of_many_rows():
    """Days of a column in several blocks: few, many, and of a wide range."""
    random = np.random.default_rng(0)
    for values in (
        random.integers(0, 2 * 10**9, 150_000),
        np.arange(150_000) * 7_201,
        random.integers(-(10**12), 10**12, 5_000),
    ):
        days = NEW_YORK.day(values)
        assert (days.start <= values).all() and (values < days.until).all()
        np.testing.assert_array_equal(NEW_YORK.start_of_day(days.date), days.start)
        np.testing.assert_array_equal(NEW_YORK.start_of_day(days.date + DAY), days.until)
        np.testing.assert_array_equal(NEW_YORK.end_of_day(days.date), days.until - 1)
        np.testing.assert_array_equal(NEW_YORK.floor(values, "D"), days.start)
        hours = NEW_YORK.floor(values, "h")
        np.testing.assert_array_equal(hours, values - NEW_YORK.to_local(values) % 3_600)


def test_errors():
    first, last = -8_334_601_228_800, 8_210_266_876_799
    far = np.array([0, last + 2 * DAY, 10**18])
    for ask in (NEW_YORK.start_of_day, NEW_YORK.end_of_day, NEW_YORK.day):
        with pytest.raises(sahvumbi.OutOfRangeError, match="outside the years") as raised:
            ask(far)
        assert raised.value.row == 1
    for step in ("D", "h"):
        with pytest.raises(sahvumbi.OutOfRangeError, match="outside the years") as raised:
            NEW_YORK.floor(np.array([0, first - 2 * DAY, -(10**18)]), step)
        assert raised.value.row == 1
    assert NEW_YORK.day([first + 2 * DAY, last - 2 * DAY]).date[1] < last
    nanoseconds = np.array([-(2**63) + 1, 2**63 - 1]).view("M8[ns]")
    for ask in (NEW_YORK.day, lambda column: NEW_YORK.floor(column, "h")):
        with pytest.raises(sahvumbi.OutOfRangeError, match="does not fit datetime64.ns") as raised:
            ask(nanoseconds)
        assert raised.value.row == 0
    with pytest.raises(sahvumbi.OutOfRangeError) as raised:
        NEW_YORK.end_of_day(nanoseconds[1:])
    assert raised.value.row == 0
    assert str(NEW_YORK.floor(nanoseconds[1:], "h")[0]) == "2262-04-11T23:00:00.000000000"
    lengths = timedelta(hours=7), timedelta(milliseconds=700), timedelta(0), timedelta(-1)
    for step in ("", "7h", "0h", "h1", "25min", "1.5h", *lengths):
        with pytest.raises(ValueError, match="step is a number of days"):
            NEW_YORK.floor([0], step)
    with pytest.raises(TypeError, match="step is 'D'"):
        NEW_YORK.floor([0], 3_600)
    for ask in (NEW_YORK.start_of_day, NEW_YORK.end_of_day):
        with pytest.raises(TypeError, match="a local time has no zone"):
            ask(datetime(2021, 1, 1, tzinfo=timezone.utc))


def test_hostile_offsets():
    """Clocks set back by 60 years, and offsets of many days."""
    years = 60 * 365 * DAY
    lists = Lists([(0, 1), (10 * DAY, 2)], [years, 0, 40 * DAY])
    zone = Zone.from_bytes(lists.file())
    asked = np.array([-1, 0, 9 * DAY, 10 * DAY, years - 1, years + 3 * DAY])
    days = zone.day(asked)
    shown = [years - 1] * 4 + [years - 1 + 40 * DAY, years + 43 * DAY]
    assert (days.date // DAY).tolist() == [each // DAY for each in shown]
    assert zone.floor(asked, "h")[:3].tolist() == [-3_600, 0, 9 * DAY]
