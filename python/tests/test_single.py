"""One value has the answer of a column that has it as its only row, near changes of the clocks and far from them."""

from datetime import date, datetime, timedelta, timezone

import numpy as np
import pandas as pd
import pytest

from definitions import tzif
from sahvumbi import Zone
from sahvumbi import _columns as columns

# An offset of five days, for a while; changes a minute apart; and changes at the ends of the days that a zone keeps together.
WIDE = Zone.from_bytes(tzif([(0, 1), (86_400 * 30, 0)], [(0, 0, "UTC"), (432_000, 0, "FAR")]))
EDGES = Zone.from_bytes(tzif([(86_400 * 8, 1), (86_400 * 24, 0)], [(0, 0, "UTC"), (-18_000, 0, "FIVE")]))
CLOSE = Zone.from_bytes(tzif([(0, 1), (60, 2), (120, 0)], [(0, 0, "UTC"), (3600, 1, "ONE"), (-3600, 0, "TWO")]))
ZONES = [WIDE, EDGES, CLOSE, *map(Zone, ["America/New_York", "Pacific/Apia", "Australia/Lord_Howe", "America/Toronto", "UTC"])]
# Half hours around changes of these zones, and some far away.
STARTS = [datetime(1970, 1, 1), datetime(1970, 1, 9), datetime(1970, 1, 25), datetime(1970, 1, 31), datetime(1970, 2, 3), datetime(2021, 3, 14), datetime(2021, 11, 7), datetime(2011, 12, 30)]
STARTS += [datetime(1919, 3, 31), datetime(2021, 4, 4), datetime(1, 1, 2), datetime(9999, 12, 27), datetime(2038, 1, 19)]
MOMENTS = [start + timedelta(minutes=30 * half_hours) for start in STARTS for half_hours in range(-40, 140, 3) if start.year > 1 or half_hours > 0]


def answer(call, *words, **choices):
    """What a call returns, or the type of its error."""
    try:
        return call(*words, **choices)
    except Exception as error:
        return type(error)


def rows(call, moment, **choices):
    """The answer for a column of one row."""
    found = answer(call, np.array([moment], "M8[us]"), **choices)
    return found if isinstance(found, type) else found[0]


@pytest.mark.parametrize("zone", ZONES, ids=repr)
def test_one_value_is_a_row(zone):
    for moment in MOMENTS:
        utc = moment.replace(tzinfo=timezone.utc)
        for value in (moment, utc):
            assert answer(zone.to_local, value) == rows(zone.to_local, moment), value
            assert answer(zone.offsets, value) == rows(zone.offsets, moment), value
        types, row = zone.types(moment), zone.types(np.array([moment], "M8[s]"))
        assert (types.offset, types.is_dst, types.abbreviation) == (row.offset[0], row.is_dst[0], row.abbreviation[0]), moment
        for fold in ("earliest", "latest"):
            found = answer(zone.localize, moment, gap="shift", fold=fold)
            due = rows(zone.localize, moment, gap="shift", fold=fold)
            assert (found.replace(tzinfo=None) if isinstance(found, datetime) else found) == due, moment
        day, row = answer(zone.day, moment), answer(zone.day, np.array([moment], "M8[us]"))
        if isinstance(day, tuple):
            assert [each.replace(tzinfo=None) for each in day] == [field[0] for field in row], moment
            assert day.start.tzinfo == timezone.utc and day.date.tzinfo is None
            assert zone.day(utc) == day
        second = int(np.datetime64(moment, "s").astype(int))
        found, row = answer(zone.day, second), answer(zone.day, [second])
        assert found == row or [int(each) for each in found] == [int(field[0]) for field in row], moment
        start = answer(zone.start_of_day, moment)
        assert (start.replace(tzinfo=None) if isinstance(start, datetime) else start) == rows(zone.start_of_day, moment), moment
        assert answer(zone.start_of_day, date(moment.year, moment.month, moment.day)) == start, moment


@pytest.mark.parametrize("zone", ZONES, ids=repr)
def test_one_value_at_the_second_of_a_change_is_a_row(zone):
    changes = zone.changes(-(2**31), 2**31)
    for at, *offsets in zip(changes.at.tolist(), changes.offset_before.tolist(), changes.offset_after.tolist()):
        for second in (at - 1, at, at + 1):
            assert zone.to_local(second) == zone.to_local([second])[0], second
            assert zone.types(second).abbreviation == zone.types([second]).abbreviation[0], second
        for local in {at + offset + near for offset in offsets for near in (-1, 0, 1)}:
            for fold in ("earliest", "latest"):
                assert zone.localize(local, gap="shift", fold=fold) == zone.localize([local], gap="shift", fold=fold)[0], local
            assert zone.start_of_day(local) == zone.start_of_day([local])[0], local


@pytest.mark.parametrize("zone", ZONES, ids=repr)
def test_the_tzinfo_is_of_the_same_types(zone):
    for moment in MOMENTS:
        shown = answer(zone.to_local, moment)
        there = answer(moment.replace(tzinfo=timezone.utc).astimezone, zone.tzinfo)
        if isinstance(shown, datetime) and isinstance(there, datetime):
            types = zone.types(moment)
            assert there.replace(tzinfo=None, fold=0) == shown, moment
            assert there.tzname() == types.abbreviation and (there.dst() != timedelta(0)) == bool(types.is_dst), moment
            if abs(types.offset) < timedelta(days=1):
                assert there.utcoffset() == types.offset, moment


#: What makes each form of one value, and of a column of one row, of the seconds since 1970-01-01.
FORMS = {
    "int": (int, lambda seconds: np.array([seconds])),
    "np.int64": (np.int64, lambda seconds: np.array([seconds])),
    "Timestamp": (lambda seconds: pd.Timestamp(seconds, unit="s"), lambda seconds: pd.Series([seconds * 10**9]).astype("M8[ns]")),
}
for unit in ("s", "ms", "us", "ns", "ps"):
    FORMS[f"M8[{unit}]"] = (
        lambda seconds, unit=unit: np.datetime64(seconds, "s").astype(f"M8[{unit}]"),
        lambda seconds, unit=unit: np.array([seconds], "M8[s]").astype(f"M8[{unit}]"),
    )


def parts(answer):
    """An answer with its type; a Timestamp without its zone."""
    if isinstance(answer, pd.Timestamp):
        return pd.Timestamp, answer.to_datetime64()
    return answer if isinstance(answer, type) else (getattr(answer, "dtype", type(answer)), answer)


@pytest.mark.parametrize("form", FORMS)
def test_each_form_of_one_value_is_a_row(form):
    of_value, of_row = FORMS[form]
    most = {"M8[ps]": 2**63 // 10**12, "M8[ns]": 2**63 // 10**9, "Timestamp": 2**63 // 10**9}.get(form, 2**63)
    moments = [int(np.datetime64(moment, "s").astype(int)) for moment in MOMENTS[::31]]
    # Both ends of nanoseconds and of the calendar, and one near the end of 64 bits.
    moments += [-1, 2**63 // 10**9, -(2**63) // 10**9 + 1, 8_210_266_876_799, -8_334_601_228_800, 2**62]
    for zone in ZONES[:5]:
        for seconds in [each for each in moments if abs(each) < most]:
            value, row = of_value(seconds), of_row(seconds)
            for call in (zone.to_local, zone.offsets, zone.start_of_day):
                found, due = answer(call, value), answer(call, row)
                assert parts(found) == parts(due if isinstance(due, type) else due[0]), (call, value)
            for fold in ("earliest", "latest"):
                found = answer(zone.localize, value, gap="shift", fold=fold)
                due = answer(zone.localize, row, gap="shift", fold=fold)
                assert parts(found) == parts(due if isinstance(due, type) else due[0]), (fold, value)
            found, due = answer(zone.types, value), answer(zone.types, row)
            if isinstance(found, type) or isinstance(due, type):
                assert found is due, value
            else:
                first = [column[0] for column in due] if isinstance(due, tuple) else due.iloc[0].tolist()
                assert (found.offset, found.is_dst, found.abbreviation) == tuple(first), value


def test_one_value_is_no_array(monkeypatch):
    """The answer comes without a column, whatever the value counts."""
    monkeypatch.setattr(columns.Column, "__init__", None)
    zone, clock = Zone("America/New_York"), datetime(2021, 11, 7, 1, 30)
    utc = clock.replace(tzinfo=timezone.utc)
    values = [clock, 1_636_248_600, np.int64(1_636_248_600), np.datetime64(clock), np.datetime64("2021-07-01"), pd.Timestamp(clock)]
    for value in [*values, utc, pd.Timestamp(utc)]:
        for call in (zone.to_local, zone.offsets, zone.types):
            assert call(value) is not None
    for value in [*values, clock + timedelta(days=30)]:
        assert zone.localize(value, fold="latest") is not None and zone.start_of_day(value) is not None
    assert zone.start_of_day(clock.date()) == datetime(2021, 11, 7, 4, tzinfo=timezone.utc)


def test_a_zone_keeps_a_limited_number_of_days():
    zone = Zone("UTC")
    for year in range(1, 10_000):
        zone.to_local(datetime(year, 6, 1))
    assert len(zone._native._kept) <= 1 << 12
