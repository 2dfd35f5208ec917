"""What mypy says of answers. It is never run. At a line with an ignore mypy must find a fault."""

from datetime import datetime
from typing import Any

import numpy as np
import numpy.typing as npt
from typing_extensions import assert_type

import sahvumbi
from sahvumbi import Days, Differences, Failures, LocalTypes, WallClocks, Zone

Array = npt.NDArray[Any]


class Frame:
    """Like a Series, as those have stubs."""

    array: Any = None

    def to_numpy(self, *words: Any, **choices: Any) -> Any: ...


def answers(zone: Zone, rows: Array, when: datetime, series: Frame) -> None:
    assert_type(zone.to_local(rows), Array)
    assert_type(zone.to_local([0, 1]), Array)
    assert_type(zone.to_local(when), datetime)
    assert_type(zone.to_local(series), Frame)
    assert_type(zone.offsets(rows), Array)
    assert_type(zone.offsets(series), Frame)
    assert_type(zone.localize(rows, "shift", "latest"), Array)
    assert_type(zone.localize(rows, fold=[0, 1]), Array)
    assert_type(zone.localize(when, fold=when.fold), datetime)
    assert_type(zone.localize(series, gap="after", is_dst=series), Frame)
    assert_type(zone.localize(rows, errors="collect"), tuple[Any, Failures])
    assert_type(zone.explain(rows), WallClocks)
    assert_type(zone.explain(rows).shown, npt.NDArray[np.int8])
    assert_type(zone.types(when), LocalTypes)
    assert_type(zone.start_of_day(rows), Array)
    assert_type(zone.end_of_day(series), Frame)
    assert_type(zone.day(rows), Days)
    assert_type(zone.floor(when, "h"), datetime)
    assert_type(zone.spans(rows).until, Array)
    assert_type(zone.differences(zone, 0, 1), Differences)
    assert_type(sahvumbi.moved(zone, zone, rows).row, npt.NDArray[np.intp])
    assert_type(sahvumbi.zones(), list[str])


def mistakes(zone: Zone, rows: Array) -> None:
    zone.localize(rows, gap="shfit")  # type: ignore[call-overload]
    zone.localize(rows, fold="first")  # type: ignore[arg-type]
    zone.to_local("2021-01-01")  # type: ignore[arg-type]
    zone.localize(rows, errors="ignore")  # type: ignore[call-overload]
    Zone(5)  # type: ignore[arg-type]
    Zone("Asia/Kolkata").key = "Asia/Tokyo"  # type: ignore[misc]
