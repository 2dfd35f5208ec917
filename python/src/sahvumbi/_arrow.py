"""Columns of Arrow, in and out, by pyarrow: they are copied only if a value is missing."""

from __future__ import annotations

import sys
from typing import TYPE_CHECKING, Any, Optional

import numpy as np

if TYPE_CHECKING:
    from ._containers import Array


def is_arrow(values: Any) -> bool:
    """Returns whether an object is handed over by Arrow's interface for Python."""
    return hasattr(values, "__arrow_c_array__") or hasattr(values, "__arrow_c_stream__")


def array_of(values: Any) -> Any:
    """Returns the array of pyarrow over the values of an object of Arrow."""
    try:
        import pyarrow
    except ImportError:
        advice = "install pyarrow, which reads it, or pass it as a numpy array"
        raise TypeError(f"a {type(values).__name__} is a column of Arrow: {advice}") from None
    if isinstance(values, pyarrow.Array):
        return values
    if hasattr(values, "__arrow_c_array__"):
        return pyarrow.array(values)
    chunks = values if isinstance(values, pyarrow.ChunkedArray) else pyarrow.chunked_array(values)
    return chunks.chunk(0) if chunks.num_chunks == 1 else chunks.combine_chunks()


def values_of(array: Any, may_be_aware: bool) -> tuple[Array, Optional[str], Array]:
    """Returns the values of an array of pyarrow, their unit if they are times, and the places of those that
    are missing. Raises TypeError if they are no times and no int64."""
    import pyarrow

    kind = array.type
    is_time = pyarrow.types.is_timestamp(kind)
    if not is_time and not pyarrow.types.is_int64(kind):
        advice = "cast gives a timestamp or int64"
        raise TypeError(f"a column of Arrow of {kind} is no column of time: {advice}")
    if is_time and kind.tz is not None and not may_be_aware:
        advice = f"to_local and floor take instants; cast(pyarrow.timestamp({kind.unit!r})) of local times has none"
        raise TypeError(f"local times have no zone, and these are {kind}: {advice}")
    size, data = len(array), array.buffers()[1]
    values = np.frombuffer(data, np.int64, size, 8 * array.offset) if size else np.empty(0, np.int64)
    missing: Array = np.empty(0, np.intp)
    if array.null_count:
        missing = np.flatnonzero(array.is_null().to_numpy(zero_copy_only=False))
    return values, kind.unit if is_time else None, missing


def of_times(values: Array, unit: Optional[str], zone: Any) -> Any:
    """Returns an array of pyarrow over instants in a zone, or over local times if that is None; over numbers
    without a unit."""
    import pyarrow

    return _over(values, pyarrow.int64() if unit is None else pyarrow.timestamp(unit, zone))


def of_numbers(values: Array) -> Any:
    """Returns an array of pyarrow over numbers, of which the least of the type is missing."""
    import pyarrow

    return _over(values, pyarrow.from_numpy_dtype(values.dtype))


def of_lengths(values: Array) -> Any:
    """Returns an array of pyarrow over timedelta64."""
    import pyarrow

    return _over(values.view(np.int64), pyarrow.duration(np.datetime_data(values.dtype)[0]))


def of_plain(values: Array) -> Any:
    """Returns an array of pyarrow with the values of another type."""
    import pyarrow

    return pyarrow.array(values)


def table_of(columns: dict[str, Any]) -> Any:
    """Returns the table of these arrays of pyarrow."""
    import pyarrow

    return pyarrow.table(columns)


def to_pandas(array: Any) -> Any:
    """Returns the array in which pandas has one of pyarrow."""
    return sys.modules["pandas"].arrays.ArrowExtensionArray(array)


def _over(values: Array, kind: Any) -> Any:
    import pyarrow

    is_missing = values == np.iinfo(values.dtype).min
    validity = None
    if is_missing.any():
        validity = pyarrow.py_buffer(np.packbits(~is_missing, bitorder="little"))
    return pyarrow.Array.from_buffers(kind, values.size, [validity, pyarrow.py_buffer(values)])
