"""Changes of clocks: what ends are taken, the form of the answer, and the definition by asking."""

import pickle
from pathlib import Path

import numpy as np
import pandas as pd
import pytest
from definitions import Lists

import sahvumbi
from sahvumbi import Zone
from sahvumbi._native import ROOM, STRETCH

DATABASE = Path("/usr/share/zoneinfo")
NEW_YORK = Zone.from_text("EST5EDT,M3.2.0,M11.1.0")
MARCH, NOVEMBER = 1_615_705_200, 1_636_264_800
LEAST, GREATEST = np.iinfo(np.int64).min, np.iinfo(np.int64).max
NAMES = [
    "America/New_York",
    "Europe/Dublin",
    "Africa/Casablanca",
    "Australia/Lord_Howe",
    "Pacific/Apia",
    "Asia/Kolkata",
    "Antarctica/Troll",
]


def types(changes):
    """The types before, and those after."""
    _, *fields = (field.tolist() for field in changes)
    return list(zip(*fields[0::2])), list(zip(*fields[1::2]))


# By the definition


@pytest.mark.parametrize("name", [*NAMES, *(f"right/{name}" for name in NAMES)])
def test_asked_around_and_between(name):
    """The offsets before and at each change are those that are told, and no other lies between.

    Zones of right/ have leap seconds."""
    path = DATABASE / name
    if not path.exists():
        pytest.skip(f"no {path}")
    zone = Zone.from_file(path)
    first, last = -5_000_000_000, 5_000_000_000
    changes = zone.changes(first, last)
    before, after = types(changes)
    assert (np.diff(changes.at) > 0).all() and len(changes.at) > 1
    assert all(one != other for one, other in zip(before, after))
    assert before[1:] == after[:-1]
    np.testing.assert_array_equal(zone.offsets(changes.at - 1), changes.offset_before)
    np.testing.assert_array_equal(zone.offsets(changes.at), changes.offset_after)
    random = np.random.default_rng(0)
    seconds = random.integers(first, last, 20_000)
    seconds = np.concatenate([seconds, changes.at[:-1] + np.diff(changes.at) // 2])
    offsets = np.concatenate([changes.offset_before[:1], changes.offset_after])
    come = np.searchsorted(changes.at, seconds, side="right")
    np.testing.assert_array_equal(zone.offsets(seconds), offsets[come])


@pytest.mark.parametrize("name", NAMES)
def test_leap_seconds_change_no_clock(name):
    """In Unix seconds a zone of right/ has the changes of the other one, as far as its file goes:
    up to where its list of leap seconds expires, and without a rule."""
    path = DATABASE / "right" / name
    if not path.exists():
        pytest.skip(f"no {path}")
    ends = -2_208_988_800, 1_735_689_600
    others = Zone.from_file(DATABASE / name).changes(*ends)
    for field, other in zip(Zone.from_file(path).changes(*ends), others):
        np.testing.assert_array_equal(field, other)


def test_a_rule_over_many_years():
    """More than one call has room for, and than one call is asked: two changes in each year."""
    years = 5_000
    first = np.datetime64("2021-01-01", "s")
    changes = NEW_YORK.changes(first, np.datetime64(f"{2021 + years}-01-01", "s"))
    assert len(changes.at) == 2 * years > ROOM and years * 31_556_952 > STRETCH
    assert (np.diff(changes.at) > np.timedelta64(0)).all()
    np.testing.assert_array_equal(NEW_YORK.offsets(changes.at), changes.offset_after)
    one = np.timedelta64(1, "s")
    np.testing.assert_array_equal(NEW_YORK.offsets(changes.at - one), changes.offset_before)
    assert set(changes.name_after[0::2]) == {"EDT"} and set(changes.name_after[1::2]) == {"EST"}
    weekdays = (changes.at.astype("M8[D]").view(np.int64) - 3) % 7
    assert set(weekdays) == {0}  # Sundays


def test_a_change_of_the_mark_or_the_name_alone():
    kept, marked, named = (0, False, "AAA"), (0, True, "AAA"), (0, True, "BBB")
    zone = Zone.from_bytes(Lists([(10, 1), (20, 1), (30, 2)], [kept, marked, named]).file())
    changes = zone.changes(0, 100)
    assert changes.at.tolist() == [10, 30]
    assert types(changes) == ([kept, marked], [marked, named])


# Ends


def test_the_first_end_is_in_the_stretch_and_the_last_is_not():
    for first, last, at in (
        (MARCH, NOVEMBER, [MARCH]),
        (MARCH + 1, NOVEMBER + 1, [NOVEMBER]),
        (MARCH, NOVEMBER + 1, [MARCH, NOVEMBER]),
        (MARCH + 1, NOVEMBER, []),
        (MARCH, MARCH, []),
        (MARCH, MARCH + 1, [MARCH]),
        (NOVEMBER + 1, MARCH, []),
        (GREATEST, LEAST, []),
    ):
        assert NEW_YORK.changes(first, last).at.tolist() == at


def test_parts_of_a_second():
    """An end between two seconds comes after the first of them."""
    zone = Zone.from_bytes(Lists([(-1, 1), (1, 0)], [0, 60]).file())
    for first, last, at in (
        (-1_001, 1_001, [-1, 1]),
        (-1_000, 1_000, [-1]),
        (-999, 1_001, [1]),
        (-1_999, -999, [-1]),
        (-1_999, -1_000, []),
        (1, 999, []),
    ):
        for unit, parts in (("ms", 1), ("us", 10**3), ("ns", 10**6)):
            ends = (np.datetime64(end * parts, unit) for end in (first, last))
            assert zone.changes(*ends).at.view(np.int64).tolist() == at


@pytest.mark.parametrize(
    "first, last",
    [
        (np.datetime64("2021"), np.datetime64("2022")),
        (np.datetime64("2021-01"), np.datetime64("2022-01-01T00:00:00.000000001")),
        (np.datetime64("2021-03-14"), np.datetime64("2021-11-07T07", "h")),
        (np.datetime64("2021-03-14T07:00", "m"), np.datetime64("2022-01-01", "us")),
        (np.array("2021-01-01", "M8[D]"), np.array("2022-01-01", ">M8[s]")),
        (np.datetime64("2020-12-31", "W"), np.datetime64(11, "5Y")),
    ],
)
def test_units_of_ends(first, last):
    changes = NEW_YORK.changes(first, last)
    expected = NEW_YORK.changes(1_609_459_200, 1_640_995_200)
    if np.datetime64(last) > np.datetime64("2022-06-01"):
        changes = sahvumbi.Changes(*(field[:2] for field in changes))
    assert changes.at.view(np.int64).tolist() == expected.at.tolist() == [MARCH, NOVEMBER]


@pytest.mark.parametrize("kind", [int, np.int64, np.int32, np.uint32, np.uint64, np.array])
def test_numbers_as_ends(kind):
    changes = NEW_YORK.changes(kind(1_609_459_200), kind(1_640_995_200))
    assert changes.at.tolist() == [MARCH, NOVEMBER]


def test_ends_of_64_bits():
    """Where no rule goes on for ever, all changes are listed at once."""
    kolkata = Zone.from_file(DATABASE / "Asia/Kolkata")
    all_of_them = kolkata.changes(LEAST, GREATEST)
    assert types(all_of_them) == types(kolkata.changes(-5_000_000_000, 0))
    assert Zone.from_text("UTC0").changes(LEAST, GREATEST).at.shape == (0,)
    assert NEW_YORK.changes(GREATEST - 1, GREATEST).at.shape == (0,)
    assert NEW_YORK.changes(LEAST, LEAST + 10**12).at.shape == (0,)
    at_the_ends = Lists([(LEAST + 1, 1), (GREATEST - 1, 0)], [0, 60])
    changes = Zone.from_bytes(at_the_ends.file()).changes(LEAST, GREATEST)
    assert changes.at.tolist() == [LEAST + 1, GREATEST - 1]


def test_nat_is_no_end():
    day, nat = np.datetime64("2021-01-01"), np.datetime64("NaT", "s")
    with pytest.raises(ValueError, match="^from_ is NaT$"):
        NEW_YORK.changes(nat, day)
    with pytest.raises(ValueError, match="^to is NaT$"):
        NEW_YORK.changes(day, np.datetime64("NaT", "D"))
    assert NEW_YORK.changes(LEAST, LEAST + 1).at.shape == (0,)  # a number, and no NaT


@pytest.mark.parametrize(
    "value", [2**63, -(2**63) - 1, 2**70, np.uint64(2**63), np.datetime64(10**12, "Y")]
)
def test_ends_that_do_not_fit(value):
    day = np.datetime64("2021-01-01") if isinstance(value, np.datetime64) else 0
    for name, ends in (("from_", (value, day)), ("to", (day, value))):
        with pytest.raises(sahvumbi.OutOfRangeError) as raised:
            NEW_YORK.changes(*ends)
        error = raised.value
        assert (error.row, error.label, error.value, error.number) == (None, name, value, 23)
        assert str(error).startswith(f"{name}: {value}: it does not fit ")
        assert str(pickle.loads(pickle.dumps(error))) == str(error)


@pytest.mark.parametrize(
    "value",
    [1.5, True, None, "2021-01-01", [0], [], np.array([0]), pd.Series([0]), np.datetime64("NaT")],
)
def test_what_is_no_end(value):
    for ends in ((value, 0), (0, value)):
        with pytest.raises(TypeError):
            NEW_YORK.changes(*ends)


def test_ends_are_of_one_kind():
    with pytest.raises(TypeError, match="both numbers of seconds, or both datetime64"):
        NEW_YORK.changes(0, np.datetime64("2021-01-01"))


# Forms


@pytest.mark.parametrize(
    "ends, seconds, lengths",
    [
        ((0, 10**9), "i8", "i4"),
        ((np.datetime64(0, "ms"), np.datetime64(10**12, "ms")), "M8[s]", "m8[s]"),
    ],
)
def test_types_of_the_fields(ends, seconds, lengths):
    for zone in (NEW_YORK, Zone.from_text("UTC0")):
        changes = zone.changes(*ends)
        dtypes = [field.dtype for field in changes]
        forms = seconds, lengths, lengths, "?", "?", "U7", "U7"
        assert dtypes == [np.dtype(form) for form in forms]
        assert len({field.shape for field in changes}) == 1
        assert all(field.flags.c_contiguous for field in changes)


def test_a_frame():
    frame = NEW_YORK.changes(np.datetime64("2021"), np.datetime64("2022")).to_frame()
    assert list(frame.columns) == list(sahvumbi.Changes._fields)
    assert frame["at"].tolist() == [
        pd.Timestamp("2021-03-14 07:00", tz="UTC"),
        pd.Timestamp("2021-11-07 06:00", tz="UTC"),
    ]
    assert frame["offset_after"].tolist() == [pd.Timedelta(-4, "h"), pd.Timedelta(-5, "h")]
    assert frame["name_before"].tolist() == ["EST", "EDT"]
    assert frame["is_dst_after"].tolist() == [True, False]
    numbers = NEW_YORK.changes(MARCH, MARCH + 1).to_frame()
    assert numbers["at"].tolist() == [MARCH] and numbers["offset_after"].tolist() == [-14_400]
    assert len(NEW_YORK.changes(np.datetime64("2021"), np.datetime64("2021")).to_frame()) == 0


def test_names_of_digits():
    changes = Zone.from_text("<-03>3<-02>,M3.2.0,M11.1.0").changes(MARCH - 86_400, MARCH + 86_400)
    assert changes.name_before.tolist() == ["-03"] and changes.name_after.tolist() == ["-02"]
