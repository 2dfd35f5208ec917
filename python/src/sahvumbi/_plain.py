"""Local times and instants of a plain Series or DatetimeIndex, without a `Column` made of it: that takes longer than a thousand answers.

Columns are read here as this pandas keeps them, and left to the calls about all columns if it keeps them in another way. As in
`_single`, None is returned for what is left: also a column of millions of rows, and one with a row that has no answer.
"""

from __future__ import annotations

import sys
from ctypes import c_int64
from typing import Any, Callable, NamedTuple, Optional

from ._columns import Column
from ._containers import TIMES, Array, IndexContainer, SeriesContainer, quick_series, quick_times
from ._library import FOLD_REFUSE, GAP_REFUSE
from ._localize import FOLDS_OF_COLUMNS, GAPS_OF_COLUMNS
from ._native import COLUMN_UNITS, ROWS, NativeZone


class Form(NamedTuple):
    """How times of a type of numpy are counted, and answers made those of pandas."""

    per_second: c_int64
    """How many of the unit make a second."""
    array_over: Callable[[Array], Any]
    """Makes pandas' array over numpy's."""
    block_over: Callable[..., Any]
    """Makes a Series' block over that."""


#: By the types of numpy that columns had: how instants become local times, and local times instants.
LOCAL_FORMS: dict[Any, Form] = {}
INSTANT_FORMS: dict[Any, Form] = {}
#: By the classes that columns had: what returns the local times of instants, and the instants of local times.
QUICK: dict[type, Callable[[NativeZone, Any], Any]] = {}
QUICK_INSTANTS: dict[type, Callable[[NativeZone, Any, Any, Any], Any]] = {}
#: What the library is asked, by the words of a call. The others are left.
POLICIES = {
    (gap, fold): (of_gap, of_fold)
    for gap, of_gap in {**GAPS_OF_COLUMNS, "raise": GAP_REFUSE}.items()
    for fold, of_fold in {**FOLDS_OF_COLUMNS, "raise": FOLD_REFUSE}.items()
}
# A type with a zone of its own isn't numpy's, so it has no form.
NO_FORM = AttributeError, KeyError, TypeError


def of_index(native: NativeZone, instants: Any) -> Any:
    """Returns the local times of a DatetimeIndex."""
    try:
        values = instants._data._ndarray
        form = LOCAL_FORMS[values.dtype]
        answers = native.quick_local_times(form.per_second, values) if _is_plain(values) else None
        return None if answers is None else instants._simple_new(form.array_over(answers), name=instants._name)
    except NO_FORM:
        return None


def of_series(native: NativeZone, instants: Any) -> Any:
    """Returns the local times of a Series."""
    try:
        values = instants._mgr.blocks[0].values._ndarray
        form = LOCAL_FORMS[values.dtype]
        answers = native.quick_local_times(form.per_second, values) if _is_plain(values) else None
        return None if answers is None else quick_series(form.array_over(answers), form.block_over, instants)
    except NO_FORM:
        return None


def instants_of_index(native: NativeZone, local_times: Any, gap: Any, fold: Any) -> Any:
    """Returns the instants of a DatetimeIndex."""
    try:
        times = local_times._data
        form, values = INSTANT_FORMS[times._dtype], times._ndarray
        answers = native.quick_instants(*POLICIES[gap, fold], values) if _is_plain(values) else None
        return None if answers is None else local_times._simple_new(form.array_over(answers), name=local_times._name)
    except NO_FORM:
        return None


def instants_of_series(native: NativeZone, local_times: Any, gap: Any, fold: Any) -> Any:
    """Returns the instants of a Series."""
    try:
        times = local_times._mgr.blocks[0].values
        form, values = INSTANT_FORMS[times._dtype], times._ndarray
        answers = native.quick_instants(*POLICIES[gap, fold], values) if _is_plain(values) else None
        return None if answers is None else quick_series(form.array_over(answers), form.block_over, local_times)
    except NO_FORM:
        return None


def _is_plain(values: Array) -> bool:
    return values.size <= ROWS and values.flags.carray


def learn(kind: type, column: Column) -> None:
    """Has instants in a column of a class and of the type of this one answered here from now on, if this pandas has what
    that needs."""
    if _has_form(LOCAL_FORMS, column, None) and kind in _classes():
        QUICK[kind] = of_series if kind is _classes()[0] else of_index


def learn_instants(kind: type, column: Column) -> None:
    """The same of local times, counted in nanoseconds: others may lie outside the calendar."""
    if column.per_second == 10**9 and _has_form(INSTANT_FORMS, column, "UTC") and kind in _classes():
        QUICK_INSTANTS[kind] = instants_of_series if kind is _classes()[0] else instants_of_index


def _classes() -> tuple[type, type]:
    pandas = sys.modules["pandas"]
    return pandas.Series, pandas.DatetimeIndex


def _has_form(forms: dict[Any, Form], column: Column, zone: Optional[str]) -> bool:
    """Notes how answers to a column's type are made: in a zone, or as local times. Whether they can be."""
    unit = column.unit
    if type(column.container) not in (SeriesContainer, IndexContainer) or unit is None or column.per_second not in COLUMN_UNITS:
        return False
    try:
        forms[TIMES[unit]] = Form(c_int64(column.per_second), *quick_times(unit, zone))
    except (AttributeError, TypeError):
        return False
    return True
