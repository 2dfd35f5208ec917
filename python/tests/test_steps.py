"""Steps of days, weeks, months and parts of a second, against pandas."""

from datetime import timedelta

import numpy as np
import pandas as pd
import pytest

from sahvumbi import OutOfRangeError, Zone

# Zones whose clocks were not changed at a midnight since 1950, so that pandas localizes each of them.
NAMES = ["America/New_York", "Asia/Kolkata", "Europe/Berlin"]
SECONDS = np.random.default_rng(7).integers(-600_000_000, 2_000_000_000, 2_000)
INSTANTS = pd.Series(pd.to_datetime(SECONDS * 10**9 + 123_456_789, utc=True))


def local(name):
    """The local times that pandas has at the instants."""
    return INSTANTS.dt.tz_convert(name).dt.tz_localize(None)


def instants(name, starts):
    return pd.Series(starts).dt.tz_localize(name).dt.tz_convert("UTC")


@pytest.mark.parametrize("name", NAMES)
@pytest.mark.parametrize("step, period", [("D", "D"), ("W", "W"), ("MS", "M"), ("QS", "Q"), ("YS", "A")])
def test_calendar_steps(name, step, period):
    if period == "A" and pd.__version__ >= "2.2":
        period = "Y"
    periods = local(name).dt.to_period(period)
    zone = Zone(name)
    floors = instants(name, periods.dt.start_time)
    pd.testing.assert_series_equal(zone.floor(INSTANTS, step), floors)
    pd.testing.assert_series_equal(zone.floor(floors, step), floors)
    ceils = instants(name, (periods + 1).dt.start_time)
    pd.testing.assert_series_equal(zone.ceil(INSTANTS, step), ceils)
    pd.testing.assert_series_equal(zone.ceil(floors, step), floors)
    is_later = (INSTANTS - floors) >= (ceils - INSTANTS)
    pd.testing.assert_series_equal(zone.round(INSTANTS, step), floors.mask(is_later, ceils))


@pytest.mark.parametrize("name", NAMES)
@pytest.mark.parametrize("days", [2, 7, 10])
def test_counts_of_days(name, days):
    zone, shown = Zone(name), local(name)
    floors = instants(name, shown.dt.floor(f"{days}D"))
    pd.testing.assert_series_equal(zone.floor(INSTANTS, f"{days}D"), floors)
    pd.testing.assert_series_equal(zone.floor(INSTANTS, timedelta(days=days)), floors)
    ceils = instants(name, shown.dt.ceil(f"{days}D"))
    pd.testing.assert_series_equal(zone.ceil(INSTANTS, f"{days}D"), ceils)


@pytest.mark.parametrize("step", ["500ms", "ms", "250us", "us", "100ns"])
def test_parts_of_a_second(step):
    zone = Zone("Europe/Berlin")
    for length in (step, pd.Timedelta(step) if step[0] != "m" and step[0] != "u" else pd.Timedelta(f"1{step}")):
        pd.testing.assert_series_equal(zone.floor(INSTANTS, length), INSTANTS.dt.floor(step))
        pd.testing.assert_series_equal(zone.ceil(INSTANTS, length), INSTANTS.dt.ceil(step))
    column = np.array(["1969-12-31T23:59:59.750", "NaT", "2021-07-01T12:00:00.250"], "M8[ms]")
    expected = np.array(["1969-12-31T23:59:59.500", "NaT", "2021-07-01T12:00:00.000"], "M8[ms]")
    np.testing.assert_array_equal(zone.floor(column, "500ms"), expected)
    assert zone.floor(column.astype("M8[s]"), "500ms")[2] == np.datetime64("2021-07-01T12:00:00")


def test_units_and_ends():
    zone = Zone("Europe/Berlin")
    with pytest.raises(ValueError, match="parts of the column's unit, ms"):
        zone.floor(np.array([0], "M8[ms]"), "400us")
    least, greatest = np.array([-(2**63) + 1], "M8[ns]"), np.array([2**63 - 1], "M8[ns]")
    for wrong, ask in ((least, zone.floor), (greatest, zone.ceil)):
        with pytest.raises(OutOfRangeError, match="does not fit"):
            ask(wrong, "500ms")
    with pytest.raises(OutOfRangeError):
        zone.floor(np.array([2**62], "M8[s]"), "500ms")


def test_a_day_that_clocks_skipped_is_in_its_step():
    """Apia skipped 30 December 2011, an even day since 1970. Its step has the 31st only."""
    apia = Zone("Pacific/Apia")
    noon = np.array(["2011-12-29T22:00", "2011-12-30T22:00"], "M8[s]")  # the 29th and the 31st, 12:00
    np.testing.assert_array_equal(apia.to_local(noon), np.array(["2011-12-29T12", "2011-12-31T12"], "M8[s]"))
    expected = np.array(["2011-12-28T10:00", "2011-12-30T10:00"], "M8[s]")
    np.testing.assert_array_equal(apia.floor(noon, "2D"), expected)
    expected = np.array(["2011-12-30T10:00", "2011-12-31T10:00"], "M8[s]")
    np.testing.assert_array_equal(apia.ceil(noon, "2D"), expected)


@pytest.mark.parametrize(
    "step", ["7min", "0D", "2W", "2MS", "M", "", "-1h", "0.5s", "1500ms", timedelta(0), timedelta(hours=-1), "300ms", "100000000000D"]
)
def test_what_is_no_step(step):
    with pytest.raises(ValueError, match="step is a number of days"):
        Zone("Europe/Berlin").floor([0], step)


def test_words_of_pandas_1():
    for theirs, ours in {"H": "h", "15T": "15min", "MS": "MS", "M": "MS"}.items():
        if theirs != ours:
            with pytest.raises(ValueError, match=f"is '{ours}' here"):
                Zone("Europe/Berlin").floor([0], theirs)
    with pytest.raises(TypeError):
        Zone("Europe/Berlin").floor([0], 60)
