"""What may be handed over: types, units, orders of bytes, shapes, NaT, values out of range."""

import pickle
from concurrent.futures import ThreadPoolExecutor
from datetime import datetime
from io import BytesIO
from zoneinfo import ZoneInfo

import numpy as np
import pytest
from definitions import Lists, tzif

import sahvumbi
from sahvumbi import Zone
from sahvumbi._columns import BLOCK, taken

NEW_YORK = Zone.from_text("EST5EDT,M3.2.0,M11.1.0")
SUMMER, WINTER, GAP, FOLD = (
    "2021-07-01T12:00",
    "2021-01-01T12:00",
    "2021-03-14T02:30",
    "2021-11-07T01:30",
)
UNITS = ["s", "ms", "us", "ns"]
LEAST, GREATEST = np.iinfo(np.int64).min, np.iinfo(np.int64).max
NAT = np.datetime64("NaT")


def asked(zone=NEW_YORK):
    return [zone.offsets, zone.to_local, zone.localize, zone.explain]


# Units


@pytest.mark.parametrize("unit", UNITS)
def test_an_answer_has_the_unit_of_its_question(unit):
    column = np.array([SUMMER, "NaT", WINTER], f"M8[{unit}]")
    assert NEW_YORK.to_local(column).dtype == column.dtype
    expected = np.array(["2021-07-01T08:00", "NaT", "2021-01-01T07:00"], column.dtype)
    np.testing.assert_array_equal(NEW_YORK.to_local(column), expected)
    np.testing.assert_array_equal(NEW_YORK.localize(expected), column)
    np.testing.assert_array_equal(
        NEW_YORK.offsets(column), np.array([-14_400, "NaT", -18_000], "m8[s]")
    )


def test_parts_of_a_second_are_kept():
    column = np.array(["2021-07-01T12:00:00.123456789", "1969-12-31T23:59:59.999999999"], "M8[ns]")
    expected = np.array(
        ["2021-07-01T08:00:00.123456789", "1969-12-31T18:59:59.999999999"], "M8[ns]"
    )
    np.testing.assert_array_equal(NEW_YORK.to_local(column), expected)
    np.testing.assert_array_equal(NEW_YORK.localize(expected), column)


@pytest.mark.parametrize("unit", ["ps", "fs", "as"])
def test_short_units(unit):
    zone = Zone.from_text("<-00>0:00:05")
    column = np.array([1, "NaT", -1], f"M8[{unit}]")
    moved = 5 * {"ps": 10**12, "fs": 10**15, "as": 10**18}[unit]
    np.testing.assert_array_equal(
        zone.to_local(column).view(np.int64), [1 - moved, LEAST, -1 - moved]
    )
    np.testing.assert_array_equal(
        zone.localize(column).view(np.int64), [1 + moved, LEAST, -1 + moved]
    )


def test_an_offset_may_not_fit_a_short_unit():
    with pytest.raises(sahvumbi.OutOfRangeError) as raised:
        NEW_YORK.to_local(np.array(["NaT", 1], "M8[as]"))
    assert (raised.value.row, raised.value.number) == (1, 23)


@pytest.mark.parametrize("unit", ["m", "h", "D", "W", "M", "Y"])
def test_long_units_become_seconds(unit):
    column = np.array(["2021-07-01", "NaT", "1969-12-01"], "M8[D]").astype(f"M8[{unit}]")
    answer = NEW_YORK.to_local(column)
    assert answer.dtype == np.dtype("M8[s]")
    np.testing.assert_array_equal(answer, NEW_YORK.to_local(column.astype("M8[s]")))
    np.testing.assert_array_equal(
        NEW_YORK.localize(column), NEW_YORK.localize(column.astype("M8[s]"))
    )


@pytest.mark.parametrize(
    "unit, base",
    [("25s", "s"), ("10ms", "ms"), ("7ns", "ns"), ("15m", "s"), ("6M", "s"), ("2W", "s")],
)
def test_multiples_of_units(unit, base):
    column = np.array([-3, "NaT", 1_000], f"M8[{unit}]")
    answer = NEW_YORK.to_local(column)
    assert answer.dtype == np.dtype(f"M8[{base}]")
    np.testing.assert_array_equal(answer, NEW_YORK.to_local(column.astype(f"M8[{base}]")))


@pytest.mark.parametrize("unit", ["m", "h", "D", "W", "M", "Y", "25s", "10ns"])
@pytest.mark.parametrize("value", [GREATEST, -GREATEST, GREATEST // 2])
def test_long_units_may_not_fit_seconds(unit, value):
    column = np.array([0, value], np.int64).view(f"M8[{unit}]")
    for ask in asked():
        with pytest.raises(sahvumbi.OutOfRangeError) as raised:
            ask(column)
        assert (raised.value.row, raised.value.number) == (1, 23)


@pytest.mark.parametrize(
    "unit, last", [("m", GREATEST // 60), ("D", GREATEST // 86_400), ("W", GREATEST // 604_800)]
)
def test_the_last_value_that_fits_seconds(unit, last):
    zone = Zone.from_text("UTC0")
    column = np.array([last, -last], np.int64).view(f"M8[{unit}]")
    seconds = {"m": 60, "D": 86_400, "W": 604_800}[unit] * last
    assert zone.to_local(column).view(np.int64).tolist() == [seconds, -seconds]
    with pytest.raises(sahvumbi.OutOfRangeError):
        zone.to_local(column + 1)


# NaT


def test_nat_stays_and_is_explained():
    column = np.array(["NaT", FOLD, GAP, "NaT", SUMMER], "M8[us]")
    explained = NEW_YORK.explain(column)
    assert explained.shown.tolist() == [-1, 2, 0, -1, 1]
    assert np.isnat(explained.first).tolist() == [True, False, False, True, False]
    assert np.isnat(explained.first_offset).tolist() == [True, False, False, True, False]
    answer = NEW_YORK.localize(column, gap="nat", fold="nat")
    assert np.isnat(answer).tolist() == [True, True, True, True, False]


def test_nat_is_asked_nothing():
    """NaT counts as no second, even where second 0 is skipped or shown twice."""
    skipping = Zone.from_text("AAA0BBB,J1/0,J365/23")
    column = np.array(["NaT"], "M8[s]")
    assert np.isnat(skipping.localize(column))
    assert np.isnat(skipping.localize(column, fold="infer"))
    alone = np.array(["NaT", "NaT"], "M8[ns]")
    for ask in asked()[1:3]:
        np.testing.assert_array_equal(ask(alone), alone)


def test_int64_has_no_nat():
    for choice in ({"gap": "nat"}, {"fold": "nat"}):
        with pytest.raises(ValueError, match="int64 has no NaT"):
            NEW_YORK.localize([0], **choice)
    fixed = Zone.from_text("UTC0")
    assert fixed.to_local([LEAST, GREATEST]).tolist() == [LEAST, GREATEST]
    assert fixed.explain([LEAST]).shown.tolist() == [3]


def test_an_answer_is_never_nat_by_chance():
    """The least int64 is NaT in datetime64, so an instant that would come to it does not fit."""
    zone = Zone.from_text("<-01>1")
    column = np.array([LEAST + 3_600 * 10**9], np.int64)
    assert zone.to_local(np.array([LEAST + 3_600])).tolist() == [LEAST]
    with pytest.raises(sahvumbi.OutOfRangeError):
        zone.to_local(column.view("M8[ns]"))
    assert zone.to_local((column + 1).view("M8[ns]")).view(np.int64).tolist() == [LEAST + 1]


# Arrays


def test_nothing_is_copied_that_need_not_be():
    for dtype in ("i8", "M8[s]", "M8[ns]"):
        column = np.arange(100).astype(dtype)
        column.flags.writeable = False
        assert np.shares_memory(taken(column, "", False).values, column)


@pytest.mark.parametrize("dtype", ["i8", "M8[s]", "M8[ns]"])
def test_arrays_of_each_form(dtype):
    plain = np.arange(1_600_000_000, 1_700_000_000, 777_777).astype("M8[s]").astype(dtype)
    expected = NEW_YORK.to_local(plain)
    big_endian = plain.astype(plain.dtype.newbyteorder(">"))
    twice = np.repeat(plain, 2)
    frozen = plain.copy()
    frozen.flags.writeable = False
    unaligned = np.frombuffer(b"x" + plain.tobytes(), np.uint8)[1:].view(plain.dtype)
    assert not unaligned.flags.aligned
    for form in (big_endian, twice[::2], frozen, unaligned, big_endian.copy()[::1]):
        asked = taken(form, "", False).values
        assert asked.flags.aligned and asked.flags.c_contiguous and asked.dtype.isnative
        before = form.copy()
        np.testing.assert_array_equal(NEW_YORK.to_local(form), expected)
        np.testing.assert_array_equal(
            NEW_YORK.localize(form, "shift", "latest"), NEW_YORK.localize(plain, "shift", "latest")
        )
        np.testing.assert_array_equal(form, before)
    np.testing.assert_array_equal(NEW_YORK.to_local(plain[::-1]), expected[::-1])
    assert NEW_YORK.to_local(big_endian).dtype.isnative


def test_shapes():
    column = np.arange(24).reshape(2, 3, 4) * 86_400
    answer = NEW_YORK.to_local(column)
    assert answer.shape == (2, 3, 4)
    np.testing.assert_array_equal(answer.reshape(-1), NEW_YORK.to_local(column.reshape(-1)))
    np.testing.assert_array_equal(NEW_YORK.to_local(column.T), answer.T)
    np.testing.assert_array_equal(NEW_YORK.to_local(np.asfortranarray(column)), answer)
    assert NEW_YORK.explain(column).first.shape == (2, 3, 4)
    assert NEW_YORK.to_local(0) == -18_000
    assert NEW_YORK.localize(np.datetime64("2021-07-01T08:00")) == np.datetime64(
        "2021-07-01T12:00:00"
    )
    assert np.isnat(NEW_YORK.to_local(np.datetime64("NaT", "s")))


@pytest.mark.parametrize("dtype", ["i8", "M8[s]", "M8[D]", ">M8[ns]"])
@pytest.mark.parametrize("shape", [(0,), (0, 3), (3, 0)])
def test_empty(dtype, shape):
    column = np.empty(shape, dtype)
    for ask in asked()[:3]:
        assert ask(column).shape == shape
    assert NEW_YORK.localize(column, fold="infer").shape == shape
    assert NEW_YORK.explain(column).shown.shape == shape
    assert NEW_YORK.to_local([]).shape == (0,)


@pytest.mark.parametrize("dtype", ["i1", "i2", "i4", "u1", "u2", "u4", "u8", ">i4", ">u8"])
def test_other_integers(dtype):
    column = np.array([0, 100], dtype)
    assert NEW_YORK.to_local(column).tolist() == [-18_000, -17_900]


def test_uint64_may_not_fit():
    with pytest.raises(sahvumbi.OutOfRangeError) as raised:
        NEW_YORK.offsets(np.array([0, 2**63], np.uint64))
    assert (raised.value.row, raised.value.value) == (1, 2**63)


@pytest.mark.parametrize(
    "column",
    [
        np.array([0.0]),
        np.array([True]),
        np.array(["2021-01-01"]),
        np.array([None]),
        np.array([1], "m8[s]"),
        np.array(["NaT"], "M8"),
        np.ma.array([0], mask=[True]),
        "2021-01-01",
        None,
        [1.5],
    ],
)
def test_what_is_no_column_is_refused(column):
    for ask in asked():
        with pytest.raises(TypeError):
            ask(column)


@pytest.mark.parametrize("values, row", [([0, 2**63], 1), ([-1, 2**63], 1), ([[0], [-(2**70)]], 1), (10**30, None)])
def test_integers_may_not_fit(values, row):
    """Neither those that numpy has another type for."""
    for ask in asked():
        with pytest.raises(sahvumbi.OutOfRangeError, match="it does not fit int64") as raised:
            ask(values)
        assert raised.value.row == row and raised.value.value in np.array(values, object).flat


# Rows that have no answer


@pytest.mark.parametrize("row", [0, 5, BLOCK - 1, BLOCK, 2 * BLOCK + 7])
@pytest.mark.parametrize(
    "value, kind, number", [(GAP, sahvumbi.GapError, 21), (FOLD, sahvumbi.FoldError, 22)]
)
def test_an_error_tells_its_row(row, value, kind, number):
    column = np.full(3 * BLOCK, SUMMER, "M8[s]")
    column[row] = value
    column[-1] = value
    with pytest.raises(kind) as raised:
        NEW_YORK.localize(column)
    assert (raised.value.row, raised.value.value, raised.value.number) == (
        row,
        np.datetime64(value, "s"),
        number,
    )
    said = f"zone.localize: row {row}: {value}:00: {raised.value.words} (error {number}); "
    assert str(raised.value).startswith(said)


def test_an_error_of_int64_tells_its_number():
    with pytest.raises(sahvumbi.GapError) as raised:
        NEW_YORK.localize([0, 1_615_689_000])
    assert raised.value.value == 1_615_689_000 and type(raised.value.value) is int


def test_one_value_has_no_row():
    for value in (1_615_689_000, np.datetime64(GAP, "s"), datetime.fromisoformat(GAP)):
        with pytest.raises(sahvumbi.GapError) as raised:
            NEW_YORK.localize(value)
        assert raised.value.row is None and "row" not in str(raised.value)


def test_the_first_row_is_told():
    for values in ([GAP, FOLD], [FOLD, GAP]):
        with pytest.raises(sahvumbi.RowError) as raised:
            NEW_YORK.localize(np.array([SUMMER, *values], "M8[s]"))
        assert raised.value.row == 1


def test_instants_without_an_offset():
    with pytest.raises(sahvumbi.NoOffsetError) as raised:
        NEW_YORK.offsets([0, GREATEST])
    assert (raised.value.row, raised.value.value, raised.value.number) == (1, GREATEST, 2)
    with pytest.raises(sahvumbi.NoOffsetError):
        NEW_YORK.to_local([LEAST])


def test_local_times_out_of_range():
    first, last = -8_334_601_228_800, 8_210_266_876_799
    zone = Zone.from_text("<+05>-5")
    assert zone.localize([first + 18_000, last]).tolist() == [first, last - 18_000]
    for local in (first - 1, last + 1, LEAST, GREATEST, first + 17_999):
        with pytest.raises(sahvumbi.OutOfRangeError) as raised:
            zone.localize([0, local])
        assert (raised.value.row, raised.value.value, raised.value.number) == (1, local, 23)
    assert zone.explain([first - 1, first, last, last + 1]).shown.tolist() == [3, 1, 1, 3]


def test_answers_that_do_not_fit():
    east, west = Zone.from_text("<+05>-5"), Zone.from_text("<-05>5")
    for zone, value in ((east, GREATEST - 17_999), (west, LEAST + 17_999)):
        with pytest.raises(sahvumbi.OutOfRangeError) as raised:
            zone.to_local([0, value])
        assert (raised.value.row, raised.value.value, raised.value.number) == (1, value, 23)
    assert east.to_local([GREATEST - 18_000]).tolist() == [GREATEST]
    nanoseconds = np.array([0, GREATEST - 10**9], np.int64).view("M8[ns]")
    for ask in (east.to_local, west.localize, west.explain):
        with pytest.raises(sahvumbi.OutOfRangeError) as raised:
            ask(nanoseconds)
        assert (raised.value.row, raised.value.value) == (1, nanoseconds[1])


def test_choices():
    column = np.array([GAP, FOLD], "M8[s]")
    shifted = ["2021-03-14T07:30", "2021-11-07T05:30"]
    np.testing.assert_array_equal(
        NEW_YORK.localize(column, "shift", "earliest"), np.array(shifted, "M8[s]")
    )
    shifted[1] = "2021-11-07T06:30"
    np.testing.assert_array_equal(
        NEW_YORK.localize(column, "shift", "latest"), np.array(shifted, "M8[s]")
    )
    np.testing.assert_array_equal(
        NEW_YORK.localize(column, "nat", "nat"), np.array(["NaT", "NaT"], "M8[s]")
    )
    for choice in ({"gap": "latest"}, {"fold": "shift"}, {"gap": None}, {"fold": ""}):
        with pytest.raises(ValueError, match="is one of"):
            NEW_YORK.localize(column, **choice)


def test_infer():
    def inferred(*clocks):
        column = np.array([f"2021-11-07T{clock}" for clock in clocks], "M8[s]")
        return [str(instant)[11:16] for instant in NEW_YORK.localize(column, fold="infer")]

    assert inferred("00:50", "01:10", "01:50", "01:10", "01:50", "02:00") == [
        "04:50",
        "05:10",
        "05:50",
        "06:10",
        "06:50",
        "07:00",
    ]
    assert inferred("02:00") == ["07:00"]
    with pytest.raises(
        sahvumbi.FoldError, match="row 1: 2021-11-07T01:10:00: .* order of rows doesn't decide it"
    ):
        inferred("00:50", "01:10", "01:50", "02:00")
    # 00:40 lies in no fold, so it has no part in the order.
    assert inferred("01:10", "01:50", "01:30", "00:40") == ["05:10", "05:50", "06:30", "04:40"]
    with pytest.raises(sahvumbi.FoldError, match="row 2: .* rows 1 and 2 both go back to an earlier time"):
        inferred("01:50", "01:40", "01:30")
    # Several choices keep the order, and in one of them no two neighbours are the same instant.
    assert inferred("00:00", "01:00", "01:00", "02:00") == ["04:00", "05:00", "06:00", "07:00"]
    assert inferred("01:00", "01:00") == ["05:00", "06:00"]
    assert inferred("00:30", "00:30", "01:00", "01:00") == ["04:30", "04:30", "05:00", "06:00"]
    # None is such, or two are.
    for clocks in (["01:00"] * 3, ["00:00", "01:00", "02:00"]):
        with pytest.raises(sahvumbi.FoldError, match="order of rows doesn't decide it") as raised:
            inferred(*clocks)
        assert raised.value.row == clocks.index("01:00")
    column = np.array(["2021-11-07T01:50", "NaT", "2021-11-07T01:10"], "M8[ns]")
    expected = np.array(["2021-11-07T05:50", "NaT", "2021-11-07T06:10"], "M8[ns]")
    np.testing.assert_array_equal(NEW_YORK.localize(column, fold="infer"), expected)


def test_infer_over_blocks():
    """Instants from second to second through a fold that lies in more than one block."""
    instants = np.arange(1_636_264_800 - 2 * BLOCK, 1_636_264_800 + 2 * BLOCK)
    np.testing.assert_array_equal(
        NEW_YORK.localize(NEW_YORK.to_local(instants), fold="infer"), instants
    )


# Zones


def test_a_zone_is_pickled_compared_and_hashed():
    again = pickle.loads(pickle.dumps(NEW_YORK))
    assert again == NEW_YORK and hash(again) == hash(NEW_YORK) and repr(again) == repr(NEW_YORK)
    assert again != Zone.from_text("EST5") and again != "EST5EDT,M3.2.0,M11.1.0"
    assert again.to_local([0]).tolist() == [-18_000]


def test_a_file(tmp_path):
    path = "/usr/share/zoneinfo/America/New_York"
    with open(path, "rb") as file:
        data = file.read()
    column = np.arange(-(2**32), 2**32, 10**7)
    np.testing.assert_array_equal(
        Zone.from_file(path).to_local(column), Zone.from_bytes(data).to_local(column)
    )
    assert Zone.from_file(path) == Zone.from_bytes(data) == Zone.from_bytes(memoryview(data))
    with pytest.raises(FileNotFoundError):
        Zone.from_file(tmp_path / "none")
    (tmp_path / "bad").write_bytes(data[:100])
    with pytest.raises(
        sahvumbi.ZoneRefusedError, match="bad: unexpected end of input"
    ) as raised:
        Zone.from_file(tmp_path / "bad")
    assert raised.value.number == 7


@pytest.mark.parametrize(
    "text, number", [("EST5EDT", 15), ("FOO25", 6), ("5", 3), ("\udcff", 16), ("EST", 10)]
)
def test_refused_texts(text, number):
    with pytest.raises(sahvumbi.ZoneRefusedError) as raised:
        Zone.from_text(text)
    assert raised.value.number == number


# The examples of RFC 8536, sections 3.3.1 and B.3: western Greenland, a year of daylight saving
# time, Jerusalem.
@pytest.mark.parametrize(
    "text, number",
    [
        ("<-03>3<-02>,M3.5.0/-2,M10.5.0/-1", 10),
        ("EST5EDT,0/0,J365/25", 6),
        ("IST-2IDT,M3.4.4/26,M10.5.0", 6),
    ],
)
def test_extensions_are_refused_but_in_a_footer(text, number):
    with pytest.raises(sahvumbi.ZoneRefusedError) as raised:
        Zone.from_text(text)
    assert raised.value.number == number
    data = tzif([], [(0, False, "UTC")], text).replace(b"TZif2", b"TZif3")
    zone, other = Zone.from_bytes(data), ZoneInfo.from_file(BytesIO(data))
    seconds = np.arange(1_577_836_800, 1_704_067_200, 10_799)  # 2020 to 2023
    expected = [datetime.fromtimestamp(second, other).utcoffset() for second in seconds.tolist()]
    assert zone.offsets(seconds).tolist() == [offset.total_seconds() for offset in expected]


@pytest.mark.parametrize("data, number", [(b"", 7), (b"not a file", 5), (b"TZif", 7)])
def test_refused_files(data, number):
    with pytest.raises(sahvumbi.ZoneRefusedError) as raised:
        Zone.from_bytes(data)
    assert raised.value.number == number


UTC = (0, False, "UTC")


# What is wrong with lists that make no zone (RFC 8536, sections 3.2 and 3.3).
@pytest.mark.parametrize(
    "data, words",
    [
        (tzif([(0, 1)], [UTC]), "a transition of a TZif file names no local time type"),
        (tzif([(0, 0), (0, 0)], [UTC]), "the transition times of a TZif file do not rise"),
        (tzif([(0, 0)], [UTC], "EST5"), "the footer of a TZif file disagrees with the last transition"),
    ],
)
def test_files_whose_lists_make_no_zone(data, words):
    with pytest.raises(sahvumbi.ZoneRefusedError) as raised:
        Zone.from_bytes(data)
    assert (raised.value.number, raised.value.words) == (12, words)
    again = pickle.loads(pickle.dumps(raised.value))
    assert (again.number, again.words) == (12, words)


def test_a_shift_by_more_than_a_day():
    """Clocks set forward by 25 hours: what they skipped is told by the offset before."""
    zone = Zone.from_bytes(Lists([(0, 1)], [0, 90_000]).file())
    gap = np.array(["1970-01-01T00:30", "1970-01-02T00:59:59"], "M8[s]")
    np.testing.assert_array_equal(zone.localize(gap, gap="shift"), gap)
    assert np.isnat(zone.localize(gap, gap="nat")).all()


def test_a_shift_out_of_range():
    """Clocks set forward at the last second: of what they skipped some instants come after it."""
    last = 8_210_266_876_799
    zone = Zone.from_bytes(Lists([(last, 1)], [-100, -40]).file())
    assert zone.explain([last - 100, last - 60]).shown.tolist() == [0, 0]
    assert zone.localize([last - 100], gap="shift").tolist() == [last]
    with pytest.raises(sahvumbi.OutOfRangeError, match="the local time or its instant is out of range") as raised:
        zone.localize([0, last - 100, last - 60, last - 61], gap="shift")
    assert (raised.value.row, raised.value.value, raised.value.number) == (2, last - 60, 23)


def test_errors_are_pickled():
    """As they come from one process to another."""
    errors = []
    for ask, column in (
        (NEW_YORK.localize, np.array([GAP], "M8[s]")),
        (NEW_YORK.offsets, [GREATEST]),
        (Zone.from_text, "5"),
    ):
        with pytest.raises(sahvumbi.ZoneError) as raised:
            ask(column)
        errors.append(raised.value)
    for error in errors:
        again = pickle.loads(pickle.dumps(error))
        assert (
            type(again) is type(error)
            and str(again) == str(error)
            and again.__dict__ == error.__dict__
        )


def test_threads():
    column = np.arange(-(10**9), 2 * 10**9, 10_007)
    expected = NEW_YORK.to_local(column)
    with ThreadPoolExecutor(4) as threads:
        for answer in threads.map(NEW_YORK.to_local, [column] * 8):
            np.testing.assert_array_equal(answer, expected)
