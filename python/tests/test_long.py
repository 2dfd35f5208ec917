"""Long columns, in which few rows or many were skipped or shown twice, compared with zoneinfo."""

from datetime import datetime, timedelta, timezone
from zoneinfo import ZoneInfo

import numpy as np
import pytest

import sahvumbi
from sahvumbi import Zone, _native
from sahvumbi._columns import BLOCK

NAT = np.iinfo(np.int64).min
EPOCH = datetime(1970, 1, 1)
PER_SECOND = {"s": 1, "ms": 10**3, "us": 10**6, "ns": 10**9}
RNG = np.random.default_rng(11)
ROWS = 2 * BLOCK + 1_000


class Expected:
    """What zoneinfo says of some local times: `times` in seconds, `first` and `last` the instants
    that show them, or NAT; `shift` and `after` those that are taken in a gap."""

    def __init__(self, key, *texts):
        self.zone = ZoneInfo(key)
        # Every 7 minutes of three hours round each text.
        self.times = np.concatenate(
            [np.arange(-5_400, 5_400, 420) + np.datetime64(text, "s").astype(int) for text in texts]
        )
        shown = [self.shown(time) for time in self.times.tolist()]
        self.first, self.last, self.shift, self.after = np.array(shown).T
        self.is_gap, self.is_fold = self.first == NAT, self.first != self.last

    def local(self, instant):
        moment = datetime.fromtimestamp(instant, timezone.utc).astimezone(self.zone)
        return (moment.replace(tzinfo=None) - EPOCH) // timedelta(seconds=1)

    def shown(self, time):
        moment = (EPOCH + timedelta(seconds=time)).replace(tzinfo=self.zone)
        before, after = (int(moment.replace(fold=fold).timestamp()) for fold in (0, 1))
        found = [each for each in (before, after) if self.local(each) == time]
        if found:
            return min(found), max(found), min(found), min(found)
        low, high = after, before
        while high - low > 1:
            middle = (low + high) // 2
            low, high = (low, middle) if self.local(middle) > time else (middle, high)
        return NAT, NAT, before, high

    def taken(self, gap, fold):
        in_gap = {"shift": self.shift, "after": self.after, "before": self.after}.get(gap, self.first)
        in_fold = {"earliest": self.first, "latest": self.last}.get(fold, NAT)
        return np.where(self.is_gap, in_gap, np.where(self.is_fold, in_fold, self.first))


NEW_YORK = Expected("America/New_York", "2021-03-14T02:30", "2021-11-07T01:30", "2021-07-01T12:00")
LORD_HOWE = Expected("Australia/Lord_Howe", "2021-10-03T02:15", "2021-04-04T01:45")
DUBLIN = Expected("Europe/Dublin", "1971-10-31T02:30", "2021-03-28T01:30", "2021-10-31T01:30")


def columns(expected):
    """Places in the times of `expected`: few odd rows, many, runs of them, and none but them."""
    odd = np.flatnonzero(expected.is_gap | expected.is_fold)
    plain = np.flatnonzero(~expected.is_gap & ~expected.is_fold)
    few = RNG.choice(plain, ROWS)
    few[RNG.integers(0, ROWS, 40)] = RNG.choice(odd, 40)
    few[[0, BLOCK - 1, BLOCK, -1]] = odd[0]
    runs = RNG.choice(plain, ROWS)
    for begin in RNG.integers(0, ROWS, 30):
        run = runs[begin : begin + RNG.integers(1, 4_000)]
        run[:] = RNG.choice(odd, run.size)
    yield "few", few
    yield "many", RNG.integers(0, expected.times.size, ROWS)
    yield "runs", runs
    yield "odd", RNG.choice(odd, ROWS)


@pytest.mark.parametrize("unit", PER_SECOND)
@pytest.mark.parametrize("expected", [NEW_YORK, LORD_HOWE, DUBLIN], ids=lambda each: each.zone.key)
def test_each_choice(expected, unit):
    assert expected.is_gap.any() and expected.is_fold.any()
    zone, per_second = Zone(expected.zone.key), PER_SECOND[unit]
    for name, places in columns(expected):
        parts = RNG.integers(0, per_second, ROWS)
        is_nat = RNG.integers(0, 50, ROWS) == 0
        column = expected.times[places] * per_second + parts
        column[is_nat] = NAT
        for gap in ("shift", "after", "before", "nat"):
            for fold in ("earliest", "latest", "nat"):
                taken = expected.taken(gap, fold)[places]
                answers = taken * per_second + parts
                if gap in ("after", "before"):
                    cut = parts + (gap == "before")
                    answers -= np.where(expected.is_gap[places], cut, 0)
                answers[is_nat | (taken == NAT)] = NAT
                found = zone.localize(column.view(f"M8[{unit}]"), gap, fold)
                np.testing.assert_array_equal(found.view(np.int64), answers, f"{name} {gap} {fold}")


@pytest.mark.parametrize("expected", [NEW_YORK, DUBLIN], ids=lambda each: each.zone.key)
def test_each_row_of_a_fold_and_all_failures(expected):
    zone = Zone(expected.zone.key)
    for name, places in columns(expected):
        column = expected.times[places].view("M8[s]")
        fold = RNG.integers(0, 2, ROWS)
        taken = np.where(fold == 1, expected.last[places], expected.first[places])
        found, failures = zone.localize(column, fold=fold, errors="collect")
        np.testing.assert_array_equal(found.view(np.int64), taken, name)
        np.testing.assert_array_equal(failures.row, np.flatnonzero(expected.is_gap[places]))
        assert (failures.number == 21).all()
        found, failures = zone.localize(column, errors="collect")
        is_odd = (expected.is_gap | expected.is_fold)[places]
        np.testing.assert_array_equal(failures.row, np.flatnonzero(is_odd))
        np.testing.assert_array_equal(failures.number, np.where(expected.is_gap[places], 21, 22)[is_odd])
        np.testing.assert_array_equal(failures.value, column[is_odd])
        for gap, fold, number, bad in (
            ("raise", "nat", 21, expected.is_gap),
            ("nat", "raise", 22, expected.is_fold),
        ):
            with pytest.raises(sahvumbi.RowError) as raised:
                zone.localize(column, gap, fold)
            row = int(np.flatnonzero(bad[places])[0])
            assert (raised.value.row, raised.value.number) == (row, number)
            assert raised.value.value == column[row]


def test_a_column_in_many_calls(monkeypatch):
    """As one of millions of rows is asked."""
    monkeypatch.setattr(_native, "ROWS", 777)
    zone = Zone("Europe/Dublin")
    for name, places in columns(DUBLIN):
        taken = DUBLIN.taken("shift", "latest")[places]
        found = zone.localize(DUBLIN.times[places], "shift", "latest")
        np.testing.assert_array_equal(found, taken, name)
        local = np.array([DUBLIN.local(each) for each in DUBLIN.taken("shift", "latest").tolist()])
        np.testing.assert_array_equal(zone.to_local(taken), local[places], name)


def test_infer_by_key_in_a_long_column():
    """Two meters, row by row through a year by quarters of an hour, and all rows of one of them."""
    instants = np.arange(1_609_459_200, 1_640_995_200, 900)
    zone = Zone("America/New_York")
    local = np.repeat(zone.to_local(instants), 2)
    keys = np.tile([1, 2], instants.size)
    answers = zone.localize(local, fold="infer", by=keys)
    np.testing.assert_array_equal(answers, np.repeat(instants, 2))
