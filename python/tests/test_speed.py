"""One value costs at most three times what zoneinfo takes for it, and a column of 1,000 or of 10,000 rows at most a third or a
tenth of what pandas takes, or two and a half times that where other work runs.

The least times of many rounds are compared, in which both are asked by turns, so that what else runs doesn't matter.
"""

from datetime import datetime, timezone
from time import perf_counter
from zoneinfo import ZoneInfo

import numpy as np
import pandas as pd
import pytest

from sahvumbi import Zone

NAME, UTC = "America/New_York", timezone.utc
ZONE, THERE = Zone(NAME), ZoneInfo(NAME)
# Far from a change of the clocks, some hours after one, and the day after it.
MOMENTS = [datetime(2021, 7, 1, 12, 30, tzinfo=UTC), datetime(2021, 11, 7, 12, 30, tzinfo=UTC), datetime(2021, 11, 8, 12, 30, tzinfo=UTC)]


def types_of(moment):
    shown = moment.astimezone(THERE)
    return shown.utcoffset(), shown.dst(), shown.tzname()


# What zoneinfo is asked for each call, about an instant or about a local time.
OF_INSTANTS = {
    "to_local": lambda moment: moment.astimezone(THERE).replace(tzinfo=None),
    "offsets": lambda moment: moment.astimezone(THERE).utcoffset(),
    "types": types_of,
}
OF_LOCAL_TIMES = {
    "localize": lambda clock: clock.replace(tzinfo=THERE).astimezone(UTC),
    "start_of_day": lambda clock: clock.replace(hour=0, minute=0, tzinfo=THERE).astimezone(UTC),
}


def time_of(ask, value, calls):
    begun = perf_counter()
    for _ in range(calls):
        ask(value)
    return perf_counter() - begun


def takes_at_most(share, ours, theirs, value, calls):
    """Whether our time is at most that share of theirs, by one of ten tries."""
    for _ in range(10):
        rounds = [(time_of(ours, value, calls), time_of(theirs, value, calls)) for _ in range(60)]
        if min(own for own, _ in rounds) <= share * min(other for _, other in rounds):
            return True
    return False


@pytest.mark.parametrize("moment", MOMENTS, ids=str)
@pytest.mark.parametrize("call", [*OF_INSTANTS, *OF_LOCAL_TIMES])
def test_one_value(call, moment):
    is_local = call in OF_LOCAL_TIMES
    value = moment.astimezone(THERE).replace(tzinfo=None) if is_local else moment
    assert takes_at_most(3, getattr(ZONE, call), {**OF_INSTANTS, **OF_LOCAL_TIMES}[call], value, 100)


# Columns

ZONES = [NAME, "Europe/Dublin", "Australia/Lord_Howe", "Africa/Casablanca", "Pacific/Apia", "Asia/Kolkata"]
#: Seconds since 1970, as many as there are rows, in the orders of python/bench/side_by_side.py.
ORDERS = {
    "in no order": lambda rows: years(1970, 2037, rows),
    "sorted": lambda rows: np.sort(years(1970, 2037, rows)),
    "one day": lambda rows: 1_625_097_600 + np.random.default_rng(2).integers(0, 86_400, rows),
    "equal": lambda rows: np.full(rows, 1_625_140_800),
    "old among new": lambda rows: np.where(np.arange(rows) % 1_000, years(1970, 2037, rows), years(1850, 1970, rows)),
}
#: What is made of seconds since 1970, and how it is asked here and by pandas.
FORMS = {
    "a Series to local times": (
        lambda seconds: pd.Series(pd.to_datetime(seconds, unit="s", utc=True)),
        lambda rows, zone: zone.to_local(rows),
        lambda rows, name: rows.dt.tz_convert(name).dt.tz_localize(None),
    ),
    "a DatetimeIndex to local times": (
        lambda seconds: pd.to_datetime(seconds, unit="s", utc=True),
        lambda rows, zone: zone.to_local(rows),
        lambda rows, name: rows.tz_convert(name).tz_localize(None),
    ),
    "a DatetimeIndex to instants": (
        lambda seconds: pd.to_datetime(seconds, unit="s"),
        lambda rows, zone: zone.localize(rows, gap="nat", fold="nat"),
        lambda rows, name: rows.tz_localize(name, ambiguous="NaT", nonexistent="NaT").tz_convert("UTC"),
    ),
}
#: By number of rows: how many times as fast as pandas a column is on an idle machine.
RATIOS = {1_000: 3, 10_000: 10}
# What part of that is asked of any machine.
SURE = 0.4


def years(first, end, rows):
    """Seconds between the beginnings of two years, in no order."""
    ends = (int(np.datetime64(str(year), "s").astype(int)) for year in (first, end))
    return np.random.default_rng(1).integers(*ends, rows)


@pytest.mark.parametrize("order", ORDERS)
@pytest.mark.parametrize("name", ZONES)
@pytest.mark.parametrize("form", FORMS)
@pytest.mark.parametrize("rows", RATIOS)
def test_columns(rows, form, name, order):
    made, ours, theirs = FORMS[form]
    column, zone = made(ORDERS[order](rows)), Zone(name)
    calls = 5_000 // rows or 1
    share = 1 / (SURE * RATIOS[rows])
    assert takes_at_most(share, lambda column: ours(column, zone), lambda column: theirs(column, name), column, calls)
