"""A plugin of pytest with which dateutil's own tests, unmodified, get the answers of its `tzfile` from this package.

usage: PYTHONPATH=python/peers python -m pytest -p dateutil_zones -p no:cacheprovider -W ignore TESTS/test_tz.py

TESTS is the folder of the tests in dateutil's source. A `tzfile` reads its file as ever; what it answers comes from
the `tzinfo` of a `Zone` of the same bytes, except for the amount of `dst()`, which a TZif file hasn't.
Zones of TZ strings (`tzstr`) and of the system (`tzlocal`) are dateutil's own.
"""

import io
from collections import Counter
from datetime import timedelta

from dateutil import tz

from sahvumbi import Zone

COUNTS = Counter()
theirs_init, theirs_dst = tz.tzfile.__init__, tz.tzfile.dst


def init(self, file, filename=None):
    if file is None:
        # It is being unpickled: its fields come next.
        return theirs_init(self, None, filename)
    if isinstance(file, str):
        with open(file, "rb") as opened:
            data = opened.read()
        filename = filename or file
    else:
        data = file.read()
        filename = filename or getattr(file, "name", None) or repr(file)
    theirs_init(self, io.BytesIO(data), filename)
    self._ours = Zone.from_bytes(data).tzinfo


def utcoffset(self, when):
    COUNTS["utcoffset"] += 1
    return self._ours.utcoffset(when)


def tzname(self, when):
    COUNTS["tzname"] += 1
    return self._ours.tzname(when)


def dst(self, when):
    amount = theirs_dst(self, when)
    if when is not None:
        COUNTS["dst"] += 1
        assert (amount == timedelta(0)) == (self._ours.dst(when) == timedelta(0)), "the DST flag is another one"
    return amount


def is_ambiguous(self, when, idx=None):
    COUNTS["is_ambiguous"] += 1
    return int(self._ours.zone.explain(when.replace(tzinfo=None)).shown) == 2


def fromutc(self, when):
    COUNTS["fromutc"] += 1
    if when.tzinfo is not self:
        return self._ours.fromutc(when)
    shown = self._ours.fromutc(when.replace(tzinfo=self._ours))
    return tz.enfold(shown.replace(tzinfo=self), fold=shown.fold)


def pytest_configure(config):
    for name, call in dict(__init__=init, utcoffset=utcoffset, tzname=tzname, dst=dst).items():
        setattr(tz.tzfile, name, call)
    tz.tzfile.is_ambiguous, tz.tzfile.fromutc = is_ambiguous, fromutc


def pytest_terminal_summary(terminalreporter):
    terminalreporter.write_line(f"asked of sahvumbi: {dict(COUNTS)}")
