"""Words of pandas, policies for gaps, fixed offsets and extended TZ strings, with values from outside."""

import ast
import inspect
import pickle
import re
from datetime import datetime, timedelta, timezone
from pathlib import Path
from typing import get_args
from zoneinfo import ZoneInfo

import numpy as np
import pandas as pd
import pytest

import sahvumbi.pandas  # noqa: F401
from sahvumbi import Comparison, FoldError, GapError, Zone, ZoneNotFoundError, ZoneRefusedError, compare, localize_many, moved
from sahvumbi._containers import FoldWord, Gap

NEW_YORK = Zone("America/New_York")
# On 2021-03-14 New York's clocks went from 02:00 to 03:00, on 2021-11-07 from 02:00 to 01:00 (zdump -v).
GAP = datetime(2021, 3, 14, 2, 30)
FOLD = datetime(2021, 11, 7, 1, 30)


def in_utc(column):
    """The instants as texts of UTC; pandas 1.5 shows the first offset in each fold of a ZoneInfo."""
    return [str(each) for each in column.dt.tz_convert("UTC").dt.tz_localize(None)]


def utc(*fields):
    return datetime(*fields, tzinfo=timezone.utc)


def test_shift_back_takes_the_offset_after_the_gap():
    # 02:30 at -04:00 is 06:30 UTC, when clocks showed 01:30.
    assert NEW_YORK.localize(GAP, gap="shift_back") == utc(2021, 3, 14, 6, 30)
    column = np.array(["2021-03-14T02:30", "2021-07-01T12:00", "2021-03-14T02:00"], "M8[s]")
    want = np.array(["2021-03-14T06:30", "2021-07-01T16:00", "2021-03-14T06:00"], "M8[s]")
    assert (NEW_YORK.localize(column, gap="shift_back") == want).all()
    assert NEW_YORK.localize(column.astype("M8[ns]"), gap="shift_back").tolist() == want.astype("M8[ns]").tolist()


def test_a_gap_is_explained_by_its_change():
    explained = NEW_YORK.explain(np.array(["2021-03-14T02:30", "NaT", "2021-07-01T12:00"], "M8[s]"))
    assert explained.shown.tolist() == [0, -1, 1]
    assert explained.first[0] == explained.last[0] == np.datetime64("2021-03-14T07:00:00")
    assert explained.first_offset[0] == np.timedelta64(-18_000, "s")
    assert explained.last_offset[0] == np.timedelta64(-14_400, "s")
    assert np.isnat(explained.first[1]) and np.isnat(explained.first_offset[1])
    one = NEW_YORK.explain(GAP)
    assert (one.shown, one.first, one.last_offset) == (0, utc(2021, 3, 14, 7), timedelta(hours=-4))


def test_fixed_offsets():
    assert Zone.fixed(timedelta(hours=-3, minutes=-30)).to_local(utc(2021, 1, 1)) == datetime(2020, 12, 31, 20, 30)
    assert Zone.fixed(0).types([0]).abbreviation.tolist() == ["+0000"]
    assert Zone.fixed(-1).types([0]).abbreviation.tolist() == ["-000001"]
    assert Zone.fixed(86_399).offsets([0]).tolist() == [86_399]
    for wrong in (86_400, -86_400, timedelta(days=1), timedelta(microseconds=1)):
        with pytest.raises(ValueError):
            Zone.fixed(wrong)
    with pytest.raises(TypeError):
        Zone.fixed("+05:30")


def test_extended_strings():
    # The strings of Nuuk, and of daylight saving time all year (RFC 8536 section 3.3.1).
    nuuk = Zone.from_text("<-02>2<-01>,M3.5.0/-1,M10.5.0/0", extended=True)
    assert nuuk.offsets([1_719_792_000]).tolist() == [-3_600]
    with pytest.raises(ZoneRefusedError):
        Zone.from_text("<-02>2<-01>,M3.5.0/-1,M10.5.0/0")
    assert Zone.from_text("XXX3EDT4,0/0,J365/23", extended=True).offsets([0]).tolist() == [-14_400]


def test_one_value_is_answered_as_a_column_of_one():
    for moment in (datetime(2021, 7, 1, 12), utc(2021, 1, 1), datetime(2021, 11, 7, 5, 30, 0, 250_000)):
        column = np.array([moment.replace(tzinfo=None)], "M8[us]")
        assert NEW_YORK.to_local(moment) == NEW_YORK.to_local(column)[0].item()
        assert NEW_YORK.offsets(moment) == NEW_YORK.offsets(column)[0].item()
    for fold in ("earliest", "latest"):
        assert NEW_YORK.localize(FOLD, fold=fold).replace(tzinfo=None) == NEW_YORK.localize(np.array([FOLD], "M8[us]"), fold=fold)[0].item()
    assert NEW_YORK.to_local(1_615_705_200) == 1_615_690_800
    with pytest.raises(FoldError):
        NEW_YORK.localize(FOLD)
    with pytest.raises(GapError):
        NEW_YORK.localize(GAP)
    with pytest.raises(ValueError, match="gap is one of"):
        NEW_YORK.localize(datetime(2021, 7, 1), gap="forward")
    with pytest.raises(ValueError, match="fold is one of"):
        NEW_YORK.localize(datetime(2021, 7, 1), fold="first")


def test_errors_name_our_words():
    with pytest.raises(ValueError, match="'shift_forward' is gap='after' here"):
        NEW_YORK.localize(GAP, gap="shift_forward")
    with pytest.raises(TypeError, match="nonexistent= is gap= here"):
        NEW_YORK.localize(GAP, nonexistent="shift_forward")
    with pytest.raises(TypeError, match="ambiguous= is fold= here, and fold=~flags"):
        NEW_YORK.localize(GAP, ambiguous="NaT")
    with pytest.raises(TypeError, match="'other'"):
        NEW_YORK.localize(GAP, other=1)


def test_tz_localize_as_pandas_has_it():
    local = pd.Series(pd.to_datetime(["2021-03-14 02:30", "2021-11-07 01:30", "2021-07-01 12:00"]))
    ours = local.sahvumbi.tz_localize("America/New_York", ambiguous=[True, False, True], nonexistent="shift_forward")
    assert str(ours.dtype) == "datetime64[ns, America/New_York]"
    assert in_utc(ours) == ["2021-03-14 07:00:00", "2021-11-07 06:30:00", "2021-07-01 16:00:00"]
    moved = local.sahvumbi.tz_localize("America/New_York", ambiguous="NaT", nonexistent=pd.Timedelta("1h"))
    assert in_utc(moved) == ["2021-03-14 07:30:00", "NaT", "2021-07-01 16:00:00"]
    with pytest.raises(GapError):
        local.sahvumbi.tz_localize("America/New_York", ambiguous="NaT")
    with pytest.raises(ValueError, match="nonexistent is one of"):
        local.sahvumbi.tz_localize("America/New_York", nonexistent="after")


def test_flags_are_pandas_own():
    """True is the first instant. In Dublin that is summer time, which is standard time in the tz database."""
    local = pd.Series(pd.to_datetime(["2021-10-31 01:30"] * 2))
    for flags in ([True, False], np.array([True, False]), pd.Series([True, False]), [1, 0]):
        theirs = local.dt.tz_localize("Europe/Dublin", ambiguous=np.array([True, False]))
        ours = local.sahvumbi.tz_localize("Europe/Dublin", ambiguous=flags)
        assert in_utc(ours) == in_utc(theirs) == ["2021-10-31 00:30:00", "2021-10-31 01:30:00"]
    assert in_utc(local.sahvumbi.tz_localize("Europe/Dublin", ambiguous=False)) == ["2021-10-31 01:30:00"] * 2
    for wrong, words in (
        (None, "^tz_localize: ambiguous is raise, NaT, infer, or flags, and not None$"),
        (0.5, "^ambiguous= has 0 and 1 or booleans, and not float64$"),
        (["first", "last"], "^ambiguous= has 0 and 1 or booleans, and not <U5$"),
        (pd.Series([True, None]), r"^ambiguous= is an object column: astype\('boolean'\)$"),
        ([True, None], r"^ambiguous= is an object column: pd.array\(.., 'boolean'\)$"),
    ):
        with pytest.raises(TypeError, match=words):
            local.sahvumbi.tz_localize("Europe/Dublin", ambiguous=wrong)
    with pytest.raises(ValueError, match=r"^ambiguous= has the shape \(3,\), and the column \(2,\)$"):
        local.sahvumbi.tz_localize("Europe/Dublin", ambiguous=[True] * 3)
    with pytest.raises(FoldError, match=r"^tz_localize: row 1 .* and ambiguous= does not say which it is \(error 22\)$"):
        local.sahvumbi.tz_localize("Europe/Dublin", ambiguous=pd.Series([True, None]).astype("boolean"))


def test_errors_name_the_argument_to_change(tmp_path):
    column = pd.Series(pd.to_datetime(["2021-07-01 12:00", "2021-03-14 02:30"]), index=["a", "b"])
    with pytest.raises(GapError, match=r"^zone.localize: row 1 \(label 'b'\): 2021-03-14T02:30.*; gap= says what to return$"):
        NEW_YORK.localize(column)
    with pytest.raises(GapError, match=r"^tz_localize: row 1 .*; nonexistent= says what to return$"):
        column.sahvumbi.tz_localize("America/New_York")
    with pytest.raises(FoldError, match=r"^zone.localize: 2021-11-07T01:30:00.000000: .*; fold= says what to return$"):
        NEW_YORK.localize(FOLD)
    with pytest.raises(FoldError, match=r"and is_dst= does not say which it is \(error 22\)$"):
        NEW_YORK.localize(np.array([FOLD], "M8[s]"), is_dst=pd.array([None], "boolean"))
    with pytest.raises(FoldError, match=r"^tz_localize: row 0 .* \(error 22\); pass flags as ambiguous=, or use localize with by= for several series$"):
        pd.Series([FOLD]).sahvumbi.tz_localize("America/New_York", ambiguous="infer")
    with pytest.raises(GapError, match="^localize_many: row 0: "):
        localize_many([NEW_YORK], [0], np.array([GAP], "M8[s]"))
    error = pytest.raises(GapError, column.sahvumbi.tz_localize, "America/New_York").value
    assert str(pickle.loads(pickle.dumps(error))) == str(error)
    with pytest.raises(TypeError, match=r"Zone.floor\(\) takes no keyword argument 'ambiguous': a step begins at one instant"):
        column.sahvumbi.floor("America/New_York", "h", ambiguous="NaT")
    empty = str(tmp_path)
    for call, ask in {
        "Zone.localize": lambda **words: column.sahvumbi.localize("America/New_York", **words),
        "localize_many": lambda **words: localize_many([NEW_YORK], [0, 0], column, **words),
        "moved": lambda **words: moved(NEW_YORK, NEW_YORK, column, **words),
        "Comparison.moved": lambda **words: compare(empty, empty).moved(column, "Eastern", **words),
    }.items():
        with pytest.raises(TypeError, match=rf"^{call}\(\) takes no keyword argument 'nonexistent': pandas' nonexistent= is gap= here$"):
            ask(nonexistent="NaT")
        with pytest.raises(TypeError, match=rf"^{call}\(\) takes no keyword argument 'bye'$"):
            ask(bye=1)


def test_errors_say_what_to_pass(tmp_path):
    local, zones = pd.Series(pd.to_datetime(["2021-07-01 12:00"] * 3)), {"Europe/Paris": Zone("Europe/Paris")}
    names = ["Europe/Paris", "Europe/Paris", "Asia/Kolkata"]
    for codes in (names, pd.Categorical(names)):
        with pytest.raises(TypeError, match=r"^zones is a list, so codes= must be integers; for names or a Categorical pass a dict \{name: Zone\}$"):
            localize_many(list(zones.values()), codes, local)
        with pytest.raises(ValueError, match="^row 2: 'Asia/Kolkata' is not a key of zones$"):
            localize_many(zones, codes, local)
    with pytest.raises(ValueError, match="^row 2: zones has no place 7$"):
        localize_many(list(zones.values()), [0, 0, 7], local)
    with pytest.raises(ValueError, match="^row 1: the zone's name is missing$"):
        localize_many(zones, ["Europe/Paris", None, "Europe/Paris"], local)
    with pytest.raises(TypeError, match="and not ZoneInfo: use Zone.from_zoneinfo$"):
        Zone(ZoneInfo("Europe/Paris"))
    with pytest.raises(TypeError, match=r"^is_dst= is an object column: astype\('boolean'\)$"):
        NEW_YORK.localize(local, is_dst=pd.Series([True, None, False]))
    with pytest.raises(TypeError, match=r"^fold= is an object column: astype\('Int64'\)$"):
        NEW_YORK.localize(local, fold=pd.Series([0, None, 1], dtype=object))
    # A zone that only one folder has.
    for folder in ("old", "new"):
        (tmp_path / folder).mkdir()
        for name in ("Paris", "London") if folder == "old" else ("Paris",):
            (tmp_path / folder / name).write_bytes(Path(f"/usr/share/zoneinfo/Europe/{name}").read_bytes())
    compared = compare(tmp_path / "old", tmp_path / "new")
    assert not compared.moved(local, pd.Categorical(["Paris"] * 3, ["London", "Paris"]))
    with pytest.raises(ZoneNotFoundError, match="^row 1: no zone has the name 'London' in .*new$"):
        compared.moved(local, ["Paris", "London", "London"])
    with pytest.raises(ZoneNotFoundError, match="^no zone has the name 'London' in .*new$"):
        compared.moved(local, "London")


@pytest.mark.parametrize(
    ("step", "hint"),
    [
        *((theirs, f"pandas' '{theirs}' is '{ours}' here") for theirs, ours in {
            "d": "D", "H": "h", "15T": "15min", "M": "MS", "A": "YS", "ME": "MS", "QE": "QS", "YE": "YS", "AS": "YS", "W-SUN": "W",
        }.items()),
        ("2MS", "'MS' has no multiples here"),
        ("2ME", "'MS' has no multiples here"),
        ("2W", "'W' has no multiples here"),
        ("W-MON", "weeks begin on Monday here, 'W'"),
    ],
)
def test_steps_of_pandas(step, hint):
    with pytest.raises(ValueError, match=f", and not '{step}': {hint}$"):
        NEW_YORK.floor(pd.Series(pd.to_datetime(["2021-07-01"])), step)


def test_texts_and_periods_say_what_to_write():
    periods = pd.Series(pd.period_range("2021-03-14", periods=2))
    with pytest.raises(TypeError, match=r"period\[D\] is no column of time: dt.to_timestamp\(\) gives"):
        NEW_YORK.localize(periods)
    with pytest.raises(TypeError, match=r": to_timestamp\(\) gives"):
        NEW_YORK.localize(pd.PeriodIndex(periods))
    with pytest.raises(TypeError, match=r"to_timestamp\(\) gives the local time of its start"):
        NEW_YORK.localize(periods[0])
    for texts in (pd.Series(["2021-03-14"]), pd.Series(["2021-03-14"], dtype="string"), pd.Index(["2021-03-14"])):
        with pytest.raises(TypeError, match="pandas.to_datetime"):
            NEW_YORK.localize(texts)


def test_help_has_the_words():
    for call in (Zone.localize, localize_many, moved, Comparison.moved):
        said = str(inspect.signature(call))
        assert all(repr(word) in said.replace('"', "'") for word in (*get_args(Gap), *get_args(FoldWord))), call
        gaps = re.search(r"gap: .*?Literal\[(.*?)\]", said)[1]
        assert tuple(ast.literal_eval(f"({gaps})")) == get_args(Gap)
    for call in (Zone.floor, Zone.ceil, Zone.round):
        assert all(f"'{step}'" in str(inspect.signature(call)).replace('"', "'") for step in ("D", "W", "MS", "QS", "YS", "h", "500ms"))


def test_tables_in_a_notebook():
    column = np.array([GAP, FOLD], "M8[s]")
    failures = NEW_YORK.localize(column, errors="collect")[1]
    changes = NEW_YORK.changes(np.datetime64("2021"), np.datetime64("2022"))
    found = moved(Zone.from_text("EST5"), NEW_YORK, np.array(["2021-07-01"], "M8[s]"))
    differences = Zone.from_text("EST5").differences(NEW_YORK, 1_609_459_200, 1_640_995_200)
    for table in (failures, changes, found, differences):
        assert table._repr_html_() == table.to_frame()._repr_html_() and "<table" in table._repr_html_()
    for call in (NEW_YORK.types, NEW_YORK.explain, NEW_YORK.spans, NEW_YORK.day):
        answer = call(np.array(["2021-07-01T12:00"], "M8[s]"))
        assert all(f"<th>{name}</th>" in answer._repr_html_() for name in answer._fields)
        assert call(np.datetime64("2021-07-01T12:00"))._repr_html_() is None


def test_tz_convert_normalize_and_round():
    instants = pd.Series(pd.to_datetime(["2021-03-14 16:30", "2021-03-14 16:29"], utc=True))
    shown = instants.sahvumbi.tz_convert("America/New_York")
    assert [str(each) for each in shown] == ["2021-03-14 12:30:00-04:00", "2021-03-14 12:29:00-04:00"]
    starts = instants.sahvumbi.normalize("America/New_York")
    assert [str(each) for each in starts] == ["2021-03-14 05:00:00+00:00"] * 2
    # The day has 23 hours, so its middle is 11:30 after its start.
    nearest = instants.sahvumbi.round("America/New_York", "D")
    assert [str(each) for each in nearest] == ["2021-03-15 04:00:00+00:00", "2021-03-14 05:00:00+00:00"]
    with pytest.raises(TypeError, match="with a zone"):
        instants.dt.tz_localize(None).sahvumbi.tz_convert("America/New_York")
