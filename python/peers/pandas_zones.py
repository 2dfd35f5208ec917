"""A plugin of pytest with which pandas' own tests, unmodified, get local times and instants from this package.

usage: PYTHONPATH=python/peers python -m pytest -p pandas_zones -p no:cacheprovider --pyargs pandas.tests.indexes.datetimes.test_timezones ..

`tz_localize` of pandas makes its array, or raises its error; the instants in the array, or the local times for
`tz_localize(None)`, are then those of `Zone`, and whether there is an error must be the same. Zones
are those of pytz, dateutil and zoneinfo by their names, where this package opens one. At the end the
plugin prints how many calls and rows were asked.
"""

import os
from collections import Counter

import numpy as np
import pandas
from pandas._libs.tslibs import timezones
from pandas.core.arrays import DatetimeArray

import sahvumbi.pandas
from sahvumbi import RowError, Zone, ZoneNotFoundError

COUNTS = Counter()
theirs = DatetimeArray.tz_localize


def zone_of(tz):
    """The zone of the same name, or None."""
    tz = timezones.maybe_get_tz(tz)
    name = getattr(tz, "zone", None) or getattr(tz, "key", None) or getattr(tz, "_filename", None)
    if tz is None or timezones.is_utc(tz) or not isinstance(name, str):
        return None
    try:
        return Zone(os.path.relpath(name, "/usr/share/zoneinfo") if name.startswith("/") else name)
    except ZoneNotFoundError:
        return None


def unit_of(array):
    return getattr(array, "unit", "ns")


def ask(array, tz, ambiguous, nonexistent):
    """The instants of local times, or the error."""
    unit = f"M8[{unit_of(array)}]"
    accessor = sahvumbi.pandas.Accessor(pandas.Series(array.asi8.reshape(-1).view(unit)))
    try:
        return accessor.tz_localize(tz, ambiguous, nonexistent).to_numpy(unit).view("i8").reshape(array.shape)
    except (RowError, TypeError, ValueError) as error:
        return error


def tz_localize(self, tz, ambiguous="raise", nonexistent="raise"):
    zone = zone_of(tz if tz is not None else self.tz)
    if zone is None or (tz is not None and self.tz is not None):
        return theirs(self, tz, ambiguous, nonexistent)
    COUNTS["calls"] += 1
    COUNTS["rows"] += self.size
    if tz is None:
        made = theirs(self, None)
        ours = zone.to_local(self.asi8.view(f"M8[{unit_of(self)}]")).view("i8")
    else:
        ours = ask(self, zone, ambiguous, nonexistent)
        try:
            made = theirs(self, tz, ambiguous, nonexistent)
        except Exception:
            assert isinstance(ours, Exception), "pandas raises an error here, and this package does not"
            raise
        if isinstance(ours, Exception):
            raise ours
    COUNTS["rows that differ"] += int((made.asi8 != ours).sum())
    made._ndarray.view("i8")[:] = ours
    return made


def pytest_configure(config):
    DatetimeArray.tz_localize = tz_localize


def pytest_terminal_summary(terminalreporter):
    terminalreporter.write_line(f"asked of sahvumbi: {dict(COUNTS)}")
