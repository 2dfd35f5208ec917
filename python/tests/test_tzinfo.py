"""The tzinfo of a zone against Python's zoneinfo, and by PEP 495."""

import copy
import pickle
from datetime import datetime, time, timedelta, timezone
from zoneinfo import ZoneInfo

import pytest
from hypothesis import given
from hypothesis import strategies as st

from sahvumbi import Zone

NAMES = ["America/New_York", "Europe/Dublin", "Australia/Lord_Howe", "Pacific/Apia", "Africa/Casablanca", "Asia/Kolkata"]
PAIRS = {name: (Zone(name).tzinfo, ZoneInfo(name)) for name in NAMES}
# Before the first transition zoneinfo takes another type.
MOMENTS = st.datetimes(datetime(1925, 1, 1), datetime(2200, 1, 1))


@given(st.sampled_from(NAMES), MOMENTS, st.integers(0, 1))
def test_local_times_have_the_offset_and_name_of_zoneinfo(name, local, fold):
    ours, theirs = (local.replace(tzinfo=zone, fold=fold) for zone in PAIRS[name])
    assert ours.utcoffset() == theirs.utcoffset()
    assert ours.tzname() == theirs.tzname()


@given(st.sampled_from(NAMES), MOMENTS)
def test_instants_are_shown_as_zoneinfo_shows_them(name, moment):
    utc = moment.replace(tzinfo=timezone.utc)
    ours, theirs = (utc.astimezone(zone) for zone in PAIRS[name])
    assert ours.replace(tzinfo=None) == theirs.replace(tzinfo=None)
    assert ours.fold == theirs.fold
    assert ours.astimezone(timezone.utc) == utc


def test_a_gap_has_the_offset_before_it_and_the_one_after_it():
    # New York's clocks went from 02:00 to 03:00 (zdump -v).
    skipped = datetime(2021, 3, 14, 2, 30, tzinfo=Zone("America/New_York").tzinfo)
    assert skipped.utcoffset() == timedelta(hours=-5)
    assert skipped.tzname() == "EST"
    assert skipped.replace(fold=1).utcoffset() == timedelta(hours=-4)
    assert skipped.replace(fold=1).tzname() == "EDT"


# By the column SAVE of the tz database's rules (tzdata.zi).
AMOUNTS = [
    ("America/New_York", datetime(2021, 1, 1), 0),
    ("America/New_York", datetime(2021, 7, 1), 60),
    ("Europe/Dublin", datetime(2021, 1, 1), -60),
    ("Europe/Dublin", datetime(2021, 7, 1), 0),
    ("Australia/Lord_Howe", datetime(2021, 1, 1), 30),
    ("Antarctica/Troll", datetime(2021, 7, 1), 120),
    ("Europe/London", datetime(1941, 3, 1), 60),
    ("Europe/London", datetime(1941, 6, 1), 120),
    ("Africa/Casablanca", datetime(2019, 5, 20), -60),
    ("Africa/Windhoek", datetime(2000, 7, 1), -60),
    ("America/Argentina/Buenos_Aires", datetime(2000, 1, 1), 60),
    ("Pacific/Rarotonga", datetime(1979, 1, 1), 30),
]


@pytest.mark.parametrize("name, local, minutes", AMOUNTS)
def test_dst_is_the_amount_of_the_tz_database(name, local, minutes):
    assert local.replace(tzinfo=Zone(name).tzinfo).dst() == timedelta(minutes=minutes)


def test_dst_is_inferred():
    # Clocks of Paris were two hours ahead of standard time (SAVE 2), and then an hour ahead of what came after.
    assert datetime(1944, 9, 1, tzinfo=Zone("Europe/Paris").tzinfo).dst() == timedelta(hours=1)


def test_dst_of_a_gap_and_a_fold_goes_by_the_fold():
    new_york = Zone("America/New_York").tzinfo
    skipped, repeated = datetime(2021, 3, 14, 2, 30, tzinfo=new_york), datetime(2021, 11, 7, 1, 30, tzinfo=new_york)
    assert skipped.dst() == timedelta(0) and skipped.replace(fold=1).dst() == timedelta(hours=1)
    assert repeated.dst() == timedelta(hours=1) and repeated.replace(fold=1).dst() == timedelta(0)


def test_it_is_pickled_and_compared_by_its_zone():
    new_york = Zone("America/New_York").tzinfo
    for other in (pickle.loads(pickle.dumps(new_york)), copy.deepcopy(new_york), Zone("America/New_York").tzinfo):
        assert other == new_york and hash(other) == hash(new_york)
    assert new_york != Zone("Europe/Paris").tzinfo
    moment = datetime(2021, 7, 1, 12, tzinfo=new_york)
    assert pickle.loads(pickle.dumps(moment)) == moment
    assert str(new_york) == "America/New_York"


def test_a_time_of_day_has_the_offset_of_a_zone_that_never_changes():
    """As with zoneinfo."""
    for name in ("UTC", "Etc/GMT+5", "America/New_York"):
        ours, theirs = (time(12, tzinfo=zone) for zone in (Zone(name).tzinfo, ZoneInfo(name)))
        assert (ours.utcoffset(), ours.tzname(), ours.dst()) == (theirs.utcoffset(), theirs.tzname(), theirs.dst())


def test_none_has_no_offset():
    new_york = Zone("America/New_York").tzinfo
    assert new_york.utcoffset(None) is None and new_york.tzname(None) is None and new_york.dst(None) is None


def test_fromutc_takes_a_datetime_of_its_own():
    new_york = Zone("America/New_York").tzinfo
    with pytest.raises(ValueError, match="has this tzinfo"):
        new_york.fromutc(datetime(2021, 1, 1))
