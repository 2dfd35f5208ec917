"""Offset, DST flag and abbreviation at each instant."""

from datetime import datetime, timedelta
from zoneinfo import ZoneInfo

import numpy as np
import pandas as pd
import pytest

import sahvumbi
from sahvumbi import Zone

NEW_YORK = Zone("America/New_York")


@pytest.mark.parametrize(
    "name", ["America/New_York", "Europe/Dublin", "Africa/Casablanca", "Asia/Kolkata"]
)
def test_types_beside_zoneinfo(name):
    zone, theirs = Zone(name), ZoneInfo(name)
    random = np.random.default_rng(0)
    seconds = random.integers(-(2**31), 2**32, 5_000)
    types = zone.types(seconds)
    for second, *mine in zip(seconds.tolist(), *(field.tolist() for field in types)):
        moment = datetime(1970, 1, 1) + timedelta(seconds=second)
        expected = theirs.fromutc(moment.replace(tzinfo=theirs))
        assert mine == [
            expected.utcoffset().total_seconds(), bool(expected.dst()), expected.tzname()
        ]


def test_forms_of_types():
    values = np.array([["2021-07-01T12", "NaT"], ["2021-01-01T12", "2021-11-07T06:30"]], "M8[ms]")
    types = NEW_YORK.types(values)
    assert [field.shape for field in types] == [(2, 2)] * 3
    assert [field.dtype for field in types] == [np.dtype(form) for form in ("m8[s]", "?", "U7")]
    assert types.is_dst.tolist() == [[True, False], [False, False]]
    assert types.abbreviation.tolist() == [["EDT", ""], ["EST", "EST"]]
    assert np.isnat(types.offset).tolist() == [[False, True], [False, False]]
    frame = NEW_YORK.types(pd.Series(values.reshape(-1), index=list("abcd")))
    assert list(frame.columns) == ["offset", "is_dst", "abbreviation"]
    assert frame["abbreviation"].tolist() == ["EDT", "", "EST", "EST"]
    with pytest.raises(sahvumbi.NoOffsetError) as raised:
        NEW_YORK.types([0, 2**63 - 1])
    assert raised.value.row == 1
    assert NEW_YORK.types(np.empty((0, 3), "M8[s]")).abbreviation.shape == (0, 3)
