"""Runs CPython's own tests of zoneinfo, unmodified, with the answers of this package.

usage: python python/peers/cpython_zoneinfo.py

It needs the package `test` of Python's library (Debian: libpython3.11-testsuite). The class under test is the
ZoneInfo of that library, with its files, cache and pickles; what it answers comes from the `tzinfo` of a
`Zone` of the same bytes. Some tests write files with a block that has no local time type, which RFC 8536
forbids and `Zone` rejects (5): such a block gets a type.
"""

import io
import struct
import sys
import unittest
from collections import Counter
from datetime import datetime, timedelta

from test.test_zoneinfo import test_zoneinfo as tests

from sahvumbi import Zone

MODULE = tests.py_zoneinfo
Theirs = MODULE.ZoneInfo


class ZoneInfo(Theirs):
    """Its answers are ours."""

    def _load_file(self, file):
        data = file.read()
        super()._load_file(io.BytesIO(data))
        self._ours = Zone.from_bytes(with_types(data)).tzinfo

    def utcoffset(self, when):
        return self._ours.utcoffset(when)

    def tzname(self, when):
        return self._ours.tzname(when)

    def dst(self, when):
        return self._ours.dst(when)

    def fromutc(self, when):
        if not isinstance(when, datetime) or when.tzinfo is not self:
            return self._ours.fromutc(when)
        return self._ours.fromutc(when.replace(tzinfo=self._ours)).replace(tzinfo=self)


def with_types(data):
    """A TZif file with a type in each block that has none."""
    first, rest = block_with_type(data, 4)
    if data[4:5] == b"\0":
        return first + rest
    second, footer = block_with_type(rest, 8)
    return first + second + footer


def block_with_type(data, size):
    """The block that a file begins with, and what follows it. Times have `size` bytes (RFC 8536, section 3)."""
    begin, (utc, standard, leaps, times, types, names) = data[:20], struct.unpack(">6L", data[20:44])
    place = 44 + times * (size + 1)
    end = place + types * 6 + names + leaps * (size + 4) + standard + utc
    if types:
        return data[:end], data[end:]
    header = begin + struct.pack(">6L", utc, standard, leaps, times, 1, 4)
    return header + data[44:place] + struct.pack(">lBB", 0, 0, 0) + b"UTC\0" + data[place:end], data[end:]


class Result(unittest.TextTestResult):
    """Counts subtests too."""

    def __init__(self, *words, **choices):
        super().__init__(*words, **choices)
        self.subtests = Counter()

    def addSubTest(self, test, subtest, wrong):
        self.subtests["passed" if wrong is None else "failed"] += 1
        super().addSubTest(test, subtest, wrong)


def main():
    ZoneInfo.__module__, ZoneInfo.__qualname__ = Theirs.__module__, Theirs.__qualname__
    MODULE.ZoneInfo = ZoneInfo
    suite = unittest.TestSuite()
    for case in vars(tests).values():
        if isinstance(case, type) and getattr(case, "module", None) is MODULE:
            suite.addTests(unittest.defaultTestLoader.loadTestsFromTestCase(case))
    result = unittest.TextTestRunner(resultclass=Result, verbosity=0).run(suite)
    print(f"{result.testsRun} tests, {len(result.skipped)} of them skipped; subtests: {dict(result.subtests)}")
    return not result.wasSuccessful()


if __name__ == "__main__":
    sys.exit(main())
