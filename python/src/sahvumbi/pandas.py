"""The accessor `.sahvumbi` of Series and Indexes, which the import of this module registers.

>>> import pandas
>>> import sahvumbi.pandas
>>> times = pandas.Series(pandas.to_datetime(["2021-07-01 12:00", "2021-01-01 12:00"]))
>>> times.sahvumbi.localize("America/New_York")
0   2021-07-01 16:00:00+00:00
1   2021-01-01 17:00:00+00:00
dtype: datetime64[ns, UTC]
"""

from __future__ import annotations

from datetime import timedelta
from typing import Any, Literal, Union
from zoneinfo import ZoneInfo

from pandas import array
from pandas.api.extensions import register_index_accessor, register_series_accessor

from ._choice import flags_of, row_by_row
from ._columns import taken
from ._days import Step
from ._names import zoneinfo_of
from .errors import FoldError, GapError
from .zone import Zone

#: A zone, or its name.
ZoneLike = Union[Zone, str, ZoneInfo]


def zone_of(zone: ZoneLike) -> Zone:
    """Returns the zone that is given as it is, by its name or as a ZoneInfo."""
    if isinstance(zone, Zone):
        return zone
    if isinstance(zone, ZoneInfo):
        return Zone.from_zoneinfo(zone)
    return Zone(zone)


class Accessor:
    """The calls of `Zone` on a Series or an Index: each takes the zone, or its name, first."""

    def __init__(self, column: Any):
        self._column = column

    def offsets(self, zone: ZoneLike) -> Any:
        """Returns the offset in force at each instant, as `Zone.offsets` does."""
        return zone_of(zone).offsets(self._column)

    def to_local(self, zone: ZoneLike) -> Any:
        """Returns what the zone's clocks show at each instant, as `Zone.to_local` does."""
        return zone_of(zone).to_local(self._column)

    def types(self, zone: ZoneLike) -> Any:
        """Returns the offset, DST flag and abbreviation at each instant, as `Zone.types` does."""
        return zone_of(zone).types(self._column)

    def spans(self, zone: ZoneLike) -> Any:
        """Returns the types and the clock changes around each instant, as `Zone.spans` does."""
        return zone_of(zone).spans(self._column)

    def day(self, zone: ZoneLike) -> Any:
        """Returns the day that each instant lies in, as `Zone.day` does."""
        return zone_of(zone).day(self._column)

    def floor(self, zone: ZoneLike, step: Step, **others: Any) -> Any:
        """Returns the first instant of the step of each instant, as `Zone.floor` does."""
        return zone_of(zone).floor(self._column, step, **others)

    def ceil(self, zone: ZoneLike, step: Step, **others: Any) -> Any:
        """Returns the first instant from each on at which a step begins, as `Zone.ceil` does."""
        return zone_of(zone).ceil(self._column, step, **others)

    def round(self, zone: ZoneLike, step: Step, **others: Any) -> Any:
        """Returns the nearest beginning of a step, as `Zone.round` does."""
        return zone_of(zone).round(self._column, step, **others)

    def start_of_day(self, zone: ZoneLike) -> Any:
        """Returns the first instant of the day of each date, as `Zone.start_of_day` does."""
        return zone_of(zone).start_of_day(self._column)

    def end_of_day(self, zone: ZoneLike) -> Any:
        """Returns the last instant of the day of each date, as `Zone.end_of_day` does."""
        return zone_of(zone).end_of_day(self._column)

    def localize(
        self,
        zone: ZoneLike,
        gap: Literal["raise", "shift", "after", "shift_back", "before", "nat"] = "raise",
        fold: Union[Literal["raise", "earliest", "latest", "nat", "infer"], Any] = "raise",
        **choices: Any,
    ) -> Any:
        """Returns the instant of each local time, as `Zone.localize` does, which has the other choices."""
        return zone_of(zone).localize(self._column, gap, fold, **choices)

    def explain(self, zone: ZoneLike) -> Any:
        """Returns how often, and when, each local time is shown, as `Zone.explain` does."""
        return zone_of(zone).explain(self._column)

    # pandas' words

    def tz_localize(
        self,
        zone: ZoneLike,
        ambiguous: Union[Literal["raise", "NaT", "infer"], bool, Any] = "raise",
        nonexistent: Union[Literal["raise", "NaT", "shift_forward", "shift_backward"], timedelta] = "raise",
    ) -> Any:
        """Returns the instants of local times, in the zone, as pandas' `tz_localize` does, with a ZoneInfo in place of
        pytz's zone.

        `ambiguous` is 'raise', 'NaT', 'infer', or flags, one or a column of them: True for the first
        instant, which pandas calls daylight saving time. `nonexistent` is 'raise', 'NaT',
        'shift_forward' and 'shift_backward', the ends of the gap, or a timedelta that is added to local
        times in gaps. (`Zone.localize` says more of each.)

        >>> import pandas
        >>> import sahvumbi.pandas
        >>> times = pandas.Series(pandas.to_datetime(["2021-03-14 02:30"]))
        >>> times.sahvumbi.tz_localize("America/New_York", nonexistent="shift_forward")
        0   2021-03-14 03:00:00-04:00
        dtype: datetime64[ns, America/New_York]
        """
        opened = _named(zone, "tz_localize")
        column, gap = self._column, "raise"
        if isinstance(nonexistent, timedelta):
            is_skipped = opened.explain(column)["shown"].to_numpy() == 0
            column = column.where(~is_skipped, column + nonexistent)
        else:
            gap = _word("nonexistent", nonexistent, GAPS)
        fold = _word("ambiguous", ambiguous, FOLDS) if isinstance(ambiguous, str) else _folds(column, ambiguous)
        try:
            return opened.localize(column, gap, fold, tz=opened)  # type: ignore[call-overload]
        except (GapError, FoldError) as error:
            error.call = "tz_localize"
            error.words = error.words.replace("and fold= does not", "and ambiguous= does not")
            error.argument = "nonexistent" if isinstance(error, GapError) else "ambiguous"
            error.advice = error.advice and "pass flags as ambiguous=, or use localize with by= for several series"
            raise

    def tz_convert(self, zone: ZoneLike) -> Any:
        """Returns the same instants, shown in the zone: times with a zone of their own are needed."""
        key = _named(zone, "tz_convert").key
        if getattr(self._column.dtype, "tz", None) is None:
            raise TypeError("tz_convert takes instants with a zone: tz_localize gives local times one")
        times = getattr(self._column, "dt", self._column)
        return times.tz_convert("UTC" if key == "UTC" else zoneinfo_of(str(key)))

    def normalize(self, zone: ZoneLike) -> Any:
        """Returns the start of the day that each instant lies in, as `Zone.floor(.., 'D')` does."""
        return zone_of(zone).floor(self._column, "D")


#: What pandas says of gaps and folds, and what `Zone.localize` says.
GAPS = {"raise": "raise", "NaT": "nat", "shift_forward": "after", "shift_backward": "before"}
FOLDS = {"raise": "raise", "NaT": "nat", "infer": "infer"}


def _named(zone: ZoneLike, call: str) -> Zone:
    opened = zone_of(zone)
    if opened.key is None:
        raise ValueError(f"{call} takes a zone with a name, and {opened!r} has none: localize takes it")
    return opened


def _word(name: str, word: Any, words: dict[str, str]) -> str:
    if not isinstance(word, str) or word not in words:
        ours = next((theirs for theirs, own in words.items() if own == word), None)
        hint = f": our {word!r} is {ours!r} in pandas' words" if ours else ""
        raise ValueError(f"tz_localize: {name} is one of {', '.join(words)}, and not {word!r}{hint}")
    return words[word]


def _folds(column: Any, flags: Any) -> Any:
    """0 for each flag that is true, which means the first instant, and 1 for each that isn't; NA stays."""
    if flags is None:
        raise TypeError(f"tz_localize: ambiguous is {', '.join(FOLDS)}, or flags, and not None")
    taken_ = taken(column, "s.index.sahvumbi.tz_localize(zone)", may_be_aware=False)
    values = flags_of("ambiguous", row_by_row("ambiguous", flags, taken_), flags)
    folds = array(1 - values, dtype="Int8")
    folds[values < 0] = None
    return folds


register_series_accessor("sahvumbi")(Accessor)
register_index_accessor("sahvumbi")(Accessor)
