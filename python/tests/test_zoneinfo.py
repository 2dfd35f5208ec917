"""Columns against Python's zoneinfo, over zones of the tz database."""

from datetime import datetime, timedelta
from pathlib import Path
from zoneinfo import ZoneInfo

import numpy as np
import pytest
from hypothesis import given, settings
from hypothesis import strategies as st

from sahvumbi import Zone

DATABASE = Path("/usr/share/zoneinfo")
NAMES = [
    "America/New_York",
    "America/Sao_Paulo",
    "Europe/London",
    "Europe/Dublin",
    "Africa/Casablanca",
    "Africa/Monrovia",
    "Australia/Lord_Howe",
    "Asia/Tehran",
    "Asia/Kathmandu",
    "Asia/Manila",
    "Pacific/Apia",
    "Pacific/Kwajalein",
    "Antarctica/Troll",
    "America/Anchorage",
    "Etc/GMT+5",
]
EPOCH = datetime(1970, 1, 1)
DAY = 86_400
# From 1900 to 2037.
YEARS = -2_208_988_800, 2_145_916_800
# From 1850 to 2300, and the days near changes of clocks of the years 1900 to 2037.
SECONDS = st.integers(-3_786_825_600, 10_413_792_000)


def read(name):
    with (DATABASE / name).open("rb") as file:
        return Zone.from_file(DATABASE / name), ZoneInfo.from_file(file, key=name)


def different_files():
    """The files of the database, but for those with leap seconds; of those that are the same, one."""
    paths = [path for path in DATABASE.rglob("*") if path.is_file() and "right" not in path.parts]
    found = {path.read_bytes(): path for path in sorted(paths, reverse=True)}
    return sorted(path for data, path in found.items() if data.startswith(b"TZif"))


ZONES = {name: read(name) for name in NAMES}
FILES = different_files()
assert FILES


def clock(zone, instant):
    return zone.fromutc((EPOCH + timedelta(seconds=instant)).replace(tzinfo=zone))


def offset(reading):
    return int(reading.utcoffset().total_seconds())


def shown_at(zone, local):
    """The seconds at which a clock of the zone shows the local time, by both folds."""
    seconds = set()
    for fold in (0, 1):
        second = local - offset((EPOCH + timedelta(seconds=local)).replace(tzinfo=zone, fold=fold))
        if clock(zone, second).replace(tzinfo=None) == EPOCH + timedelta(seconds=local):
            seconds.add(second)
    return sorted(seconds)


def type_at(zone, instant):
    """Offset, mark and name."""
    reading = clock(zone, instant)
    return offset(reading), bool(reading.dst()), reading.tzname()


def changes(zone, first, last, step):
    """The changes from one second on and up to another one, as (second, type before, type after),
    by halving each step whose ends differ."""
    found, before = [], type_at(zone, first)
    for start in range(first, last, step):
        low, high = start, min(start + step, last)
        while type_at(zone, high) != before:
            ahead = high
            while ahead - low > 1:
                middle = (low + ahead) // 2
                low, ahead = (
                    (middle, ahead) if type_at(zone, middle) == before else (low, middle)
                )
            after = type_at(zone, ahead)
            found.append((ahead, before, after))
            low, before = ahead, after
    return found


@pytest.mark.parametrize("name", NAMES)
def test_near_changes(name):
    ours, theirs = ZONES[name]
    steps = [-7_200, -3_601, -3_600, -1_801, -1_800, -1, 0, 1, 1_799, 1_800, 3_599, 3_600, 7_200]
    near = [second for second, _, _ in changes(theirs, *YEARS, 30 * DAY)]
    instants = [second + step for second in near for step in steps] or [0]
    assert ours.offsets(instants).tolist() == [
        offset(clock(theirs, instant)) for instant in instants
    ]
    locals_ = sorted(
        {
            second + offset(clock(theirs, second - 1)) + step
            for second in near
            for step in steps
        }
    ) or [0]
    explained = ours.explain(locals_)
    shifted = ours.localize(locals_, gap="shift", fold="earliest")
    for row, local in enumerate(locals_):
        seconds = shown_at(theirs, local)
        assert explained.shown[row] == len(seconds), local
        if seconds:
            assert [explained.first[row], explained.last[row]] == [seconds[0], seconds[-1]], local
        # In a gap, fold=0 of zoneinfo is by the offset before it.
        reading = (EPOCH + timedelta(seconds=local)).replace(tzinfo=theirs)
        assert shifted[row] == local - offset(reading), local


def test_every_zone():
    """Of each file of the database instants and local times of the years 1850 to 2300."""
    random = np.random.default_rng(0)
    for path in FILES:
        ours, theirs = read(path)
        instants = random.integers(-3_786_825_600, 10_413_792_000, 60)
        locals_ = [clock(theirs, instant).replace(tzinfo=None) for instant in instants.tolist()]
        assert ours.to_local(instants.view("M8[s]")).tolist() == locals_, path
        for fold, choice in enumerate(["earliest", "latest"]):
            seconds = ours.localize(np.array(locals_, "M8[s]"), fold=choice).tolist()
            readings = [local.replace(tzinfo=theirs, fold=fold) for local in locals_]
            assert seconds == [
                local - reading.utcoffset() for local, reading in zip(locals_, readings)
            ], path


@settings(max_examples=60)
@given(st.sampled_from(NAMES), st.lists(SECONDS, min_size=1, max_size=40))
def test_anywhere(name, seconds):
    ours, theirs = ZONES[name]
    column = np.array(seconds, "M8[s]")
    readings = [clock(theirs, second) for second in seconds]
    assert ours.to_local(column).tolist() == [reading.replace(tzinfo=None) for reading in readings]
    assert ours.offsets(column).tolist() == [reading.utcoffset() for reading in readings]
    # Each instant is among those that show its local time.
    explained = ours.explain(ours.to_local(column))
    assert ((explained.first <= column) & (column <= explained.last)).all()
    assert (np.isin(column, [explained.first, explained.last])).all()


def listed(changes):
    """The changes as (second, type before, type after)."""
    at, *types = (field.tolist() for field in changes)
    return list(zip(at, zip(*types[0::2]), zip(*types[1::2])))


@pytest.mark.parametrize("name", NAMES)
def test_changes(name):
    """Each change of two centuries, by asking zoneinfo once a day."""
    ours, theirs = ZONES[name]
    first, last = YEARS[0], 4_102_444_800
    assert listed(ours.changes(first, last)) == changes(theirs, first, last - 1, DAY)


def test_changes_of_every_zone():
    """Of each file of the database the changes of the years 2000 to 2011, asked each five days."""
    first, last = 946_684_800, 1_325_376_000
    for path in FILES:
        ours, theirs = read(path)
        assert listed(ours.changes(first, last)) == changes(theirs, first, last - 1, 5 * DAY), path


@settings(max_examples=60)
@given(st.sampled_from(NAMES), SECONDS, st.integers(0, 40 * 366 * DAY))
def test_changes_between_any_ends(name, first, length):
    """The ends are a second on and a second before, wherever they lie."""
    ours, theirs = ZONES[name]
    found = listed(ours.changes(first, first + length))
    before = type_at(theirs, first - 1)
    for second, left, entered in found:
        assert left == before == type_at(theirs, second - 1)
        assert entered == type_at(theirs, second)
        before = entered
    assert length == 0 or before == type_at(theirs, first + length - 1)
    assert all(first <= second < first + length for second, _, _ in found)
