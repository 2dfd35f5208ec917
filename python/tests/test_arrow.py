"""Columns of Arrow, in and out."""

from datetime import datetime, timezone

import numpy as np
import pandas as pd
import pytest

from sahvumbi import GapError, OutOfRangeError, Zone, to_local_many

pa = pytest.importorskip("pyarrow")
NEW_YORK = Zone("America/New_York")
# 02:30 on 2021-03-14 was skipped; on 2021-07-01 clocks are four hours behind (zdump -v).
LOCALS = [datetime(2021, 3, 14, 2, 30), None, datetime(2021, 7, 1, 12)]
INSTANTS = [datetime(2021, 3, 14, 7, 30), None, datetime(2021, 7, 1, 16)]
UTC = [each and each.replace(tzinfo=timezone.utc) for each in INSTANTS]
UNITS = ["s", "ms", "us", "ns"]


@pytest.mark.parametrize("unit", UNITS)
def test_arrays(unit):
    local = pa.array(LOCALS, pa.timestamp(unit))
    instants = NEW_YORK.localize(local, gap="shift")
    assert instants.equals(pa.array(UTC, pa.timestamp(unit, "UTC")))
    shown = NEW_YORK.to_local(instants)
    assert shown.type == pa.timestamp(unit)
    assert shown.to_pylist() == [datetime(2021, 3, 14, 3, 30), None, datetime(2021, 7, 1, 12)]
    assert NEW_YORK.offsets(instants).to_pylist()[2].total_seconds() == -14_400
    assert NEW_YORK.offsets(instants).null_count == 1
    there = NEW_YORK.localize(local, gap="shift", tz="America/New_York")
    assert there.type == pa.timestamp(unit, "America/New_York") and there.cast(instants.type).equals(instants)
    types = NEW_YORK.types(instants)
    assert types.column("abbreviation").to_pylist() == ["EDT", "", "EDT"]


def test_numbers():
    seconds = pa.array([1_615_705_199, None, 1_615_705_200])
    assert NEW_YORK.offsets(seconds).to_pylist() == [-18_000, None, -14_400]
    assert NEW_YORK.to_local(seconds).to_pylist() == [1_615_687_199, None, 1_615_690_800]
    with pytest.raises(OutOfRangeError, match="row 1"):
        NEW_YORK.to_local(pa.array([0, -(2**63), None]))


def test_parts_and_chunks():
    local = pa.array([*LOCALS, *LOCALS], pa.timestamp("us")).slice(2, 3)
    assert NEW_YORK.localize(local, gap="nat").to_pylist() == [UTC[2], None, None]
    chunks = pa.chunked_array([local.slice(0, 1), local.slice(1)])
    assert NEW_YORK.localize(chunks, gap="nat").to_pylist() == [UTC[2], None, None]
    assert len(NEW_YORK.to_local(pa.array([], pa.timestamp("s")))) == 0
    assert len(NEW_YORK.to_local(pa.chunked_array([], pa.timestamp("s")))) == 0


def test_a_column_without_missing_values_is_not_copied():
    seconds = np.arange(1_000)
    column = pa.array(seconds)
    from sahvumbi._columns import taken

    taken_ = taken(column, "zone.offsets(s.index)", True)
    assert taken_.values.ctypes.data == column.buffers()[1].address


class Other:
    """A column of another library, which only has Arrow's interface."""

    def __init__(self, array):
        self.array = array

    def __arrow_c_array__(self, requested_schema=None):
        return self.array.__arrow_c_array__(requested_schema)


class Stream:
    def __init__(self, chunks):
        self.chunks = chunks

    def __arrow_c_stream__(self, requested_schema=None):
        return self.chunks.__arrow_c_stream__(requested_schema)


def test_the_interface():
    local = pa.array(LOCALS, pa.timestamp("ms"))
    for column in (Other(local), Stream(pa.chunked_array([local]))):
        assert NEW_YORK.localize(column, gap="shift").to_pylist() == UTC
    # An answer goes out by the same interface.
    assert hasattr(NEW_YORK.to_local(local), "__arrow_c_array__")
    mixed = to_local_many([NEW_YORK, Zone("Asia/Kolkata")], [0, 0, 1], pa.array(UTC, pa.timestamp("s", "UTC")))
    assert mixed.to_pylist()[2] == datetime(2021, 7, 1, 21, 30)


@pytest.mark.parametrize("unit", UNITS)
def test_arrow_dtype_of_pandas(unit):
    index = pd.Index(["a", "b", "c"], name="row")
    dtype = pd.ArrowDtype(pa.timestamp(unit))
    local = pd.Series(pd.array(LOCALS, dtype), index=index, name="when")
    instants = NEW_YORK.localize(local, gap="shift")
    aware = pd.ArrowDtype(pa.timestamp(unit, "UTC"))
    pd.testing.assert_series_equal(instants, pd.Series(pd.array(UTC, aware), index=index, name="when"))
    shown = NEW_YORK.to_local(instants)
    assert shown.dtype == dtype and shown.index.equals(index) and shown["b"] is pd.NA
    assert NEW_YORK.offsets(instants).dtype == pd.ArrowDtype(pa.duration("s"))
    with pytest.raises(GapError, match="label 'a'"):
        NEW_YORK.localize(local)
    answers = NEW_YORK.localize(pd.Index(local), gap="shift")
    assert isinstance(answers, pd.Index) and answers.dtype == aware
    numbers = pd.Series([0, None], dtype="int64[pyarrow]")
    assert NEW_YORK.to_local(numbers).dtype == numbers.dtype
    assert NEW_YORK.to_local(numbers).tolist() == [-18_000, pd.NA]


@pytest.mark.parametrize("kind", ["date32", "string", "float64"])
def test_other_types(kind):
    with pytest.raises(TypeError, match="cast gives a timestamp or int64"):
        NEW_YORK.to_local(pa.array([None], getattr(pa, kind)()))


def test_local_times_have_no_zone():
    with pytest.raises(TypeError, match="local times have no zone"):
        NEW_YORK.localize(pa.array(UTC, pa.timestamp("s", "UTC")))
    with pytest.raises(TypeError, match="struct"):
        NEW_YORK.to_local(pa.table({"a": [1]}))
