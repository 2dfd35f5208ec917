"""Time zones for columns of time: numpy arrays, pandas Series and Indexes.

Which instant does a local time mean, and what do clocks show at an instant? The answers come from a
library in which each function is proved to meet its contract. This package calls that library; it is
tested, not proved.

>>> import numpy as np, sahvumbi
>>> new_york = sahvumbi.Zone("America/New_York")
>>> new_york.localize(np.array(["2021-11-07T01:30"], "M8[ms]"), fold="latest")
array(['2021-11-07T06:30:00.000'], dtype='datetime64[ms]')

`import sahvumbi.pandas` gives Series and Indexes the accessor `.sahvumbi`.
"""

from ._changes import Changes, Differences, Time
from ._containers import Failures, LocalTypes, Spans, Times, WallClocks
from ._days import Days
from ._names import zones
from ._version import __version__
from ._zones import Comparison, Moved, ZoneGroup, compare, localize_many, moved, to_local_many
from .errors import (
    FoldError,
    GapError,
    NoOffsetError,
    OutOfRangeError,
    RowError,
    ZoneError,
    ZoneNotFoundError,
    ZoneRefusedError,
)
from .zone import Zone

__all__ = [
    "Changes",
    "Comparison",
    "Days",
    "Differences",
    "Failures",
    "FoldError",
    "GapError",
    "LocalTypes",
    "Moved",
    "NoOffsetError",
    "OutOfRangeError",
    "RowError",
    "Spans",
    "Time",
    "Times",
    "WallClocks",
    "Zone",
    "ZoneError",
    "ZoneGroup",
    "ZoneNotFoundError",
    "ZoneRefusedError",
    "__version__",
    "compare",
    "localize_many",
    "moved",
    "to_local_many",
    "zones",
]
