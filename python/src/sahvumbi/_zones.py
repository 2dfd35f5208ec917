"""Calls about several zones: columns of mixed zones, local times that move from one zone to another, and what a new tz
database changes."""

from __future__ import annotations

import os
from html import escape
from typing import TYPE_CHECKING, Any, Callable, Iterator, Literal, Mapping, NamedTuple, Optional, Sequence, Union

import numpy as np

from ._changes import Differences, Time, ends_of_stretch, of_zones
from ._choice import Choice, chosen, factorized, must_have_no_others, row_by_row
from ._columns import Column, taken
from ._containers import Array, Labels, Rows, as_html, frame_of
from ._localize import localized
from ._lookups import local_times
from .errors import RowError, ZoneError, ZoneNotFoundError, printable
from .zone import Zone, native_of, shown_in

if TYPE_CHECKING:
    import numpy.typing as npt
    import pandas

#: Zones by their place, or by their key.
Zones = Union[Sequence[Zone], Mapping[Any, Zone]]
#: Folders of a tz database that repeat its zones, with and without leap seconds.
LEFT_OUT = {"right", "posix"}
FIRST, LAST = np.datetime64("1900", "s"), np.datetime64("2038", "s")

Folder = Union[str, "os.PathLike[str]"]


# Columns of mixed zones


def localize_many(
    zones: Zones,
    codes: Any,
    local_times: Any,
    gap: Literal["raise", "shift", "after", "shift_back", "before", "nat"] = "raise",
    fold: Union[Literal["raise", "earliest", "latest", "nat", "infer"], Rows, Labels, int] = "raise",
    *,
    is_dst: Any = None,
    offset: Any = None,
    by: Any = None,
    errors: Literal["raise", "collect"] = "raise",
    tz: Any = "UTC",
    **others: Any,
) -> Any:
    """Returns the instant at which the clocks of each row's zone show its local time.

    `codes` has the place of each row's zone in `zones`, or its key if `zones` is a dict. All else
    is as in `Zone.localize`; `fold='infer'` takes the order of the rows of each zone.

    >>> import numpy as np
    >>> zones = {name: Zone(name) for name in ("America/New_York", "Asia/Kolkata")}
    >>> noon = np.array(["2021-07-01T12:00", "2021-07-01T12:00"], "M8[s]")
    >>> localize_many(zones, ["Asia/Kolkata", "America/New_York"], noon)
    array(['2021-07-01T06:30:00', '2021-07-01T16:00:00'],
          dtype='datetime64[s]')
    """
    must_have_no_others("localize_many", others)
    column = taken(local_times, "localize_many(zones, codes, s.index)", may_be_aware=False)
    choice = chosen(column, gap, fold, is_dst, offset, by, errors, shown_in(tz))
    return choice.answer(column, instants(zones, codes, column, choice))


def to_local_many(zones: Zones, codes: Any, instants: Any) -> Any:
    """Returns what the clocks of each row's zone show at its instant, as `Zone.to_local` does.

    >>> to_local_many([Zone("America/New_York"), Zone("Asia/Kolkata")], [1, 0], [0, 0])
    array([ 19800, -18000])
    """
    column = taken(instants, "to_local_many(zones, codes, s.index)", may_be_aware=True)

    def ask(zone: Zone, places: Array) -> Array:
        return local_times(zone._native, column.part(places))

    return column.local_times(_answered(zones, codes, column, ask))


def instants(zones: Zones, codes: Any, column: Column, choice: Choice) -> Array:
    """Returns the instant of each row, by the clocks of its zone."""

    def ask(zone: Zone, places: Array) -> Array:
        return localized(zone._native, column.part(places), choice.part(places))

    return _answered(zones, codes, column, ask)


def _answered(
    zones: Zones, codes: Any, column: Column, ask: Callable[[Zone, Array], Array]
) -> Array:
    """Returns the answers of all rows. Of several zones' errors the one of the first row is raised."""
    answers = np.empty(len(column), np.int64)
    errors: list[RowError] = []
    for zone, places in _parts(zones, codes, column):
        try:
            answers[places] = ask(zone, places)
        except RowError as error:
            errors.append(error)
    if errors:
        raise min(errors, key=lambda error: error.row or 0)
    return answers


def _parts(zones: Zones, codes: Any, column: Column) -> Iterator[tuple[Zone, Array]]:
    """Each zone that rows have, and the places of its rows, in order."""
    listed, numbers = _numbered(zones, codes, column)
    for zone in listed:
        if not isinstance(zone, Zone):
            raise TypeError(f"zones has a {type(zone).__name__} that is no Zone")
    # To compare numbers of 8 bits with each zone's takes less time than to sort them.
    numbers = numbers.astype(np.min_scalar_type(len(listed)), copy=False)
    for place in np.flatnonzero(np.bincount(numbers)):
        yield listed[place], np.flatnonzero(numbers == place)


def _numbered(zones: Zones, codes: Any, column: Column) -> tuple[list[Zone], Array]:
    """The zones as a list, and the place in it for each row."""
    found: Any = None
    if isinstance(zones, Mapping):
        places = {key: place for place, key in enumerate(zones)}
        numbers, found = factorized("codes", codes, column)
        kept = np.min_scalar_type(-len(places) - 1)
        codes = np.array([places.get(key, -1) for key in found], kept)[numbers]
    else:
        codes = row_by_row("codes", codes, column)
        if codes.dtype.kind not in "iu":
            remedy = "for names or a Categorical pass a dict {name: Zone}"
            raise TypeError(f"zones is a list, so codes= must be integers; {remedy}")
    if codes.size and not 0 <= int(codes.min()) <= int(codes.max()) < len(zones):
        row = int(((codes < 0) | (codes >= len(zones))).argmax())
        if found is not None:
            key = found[numbers[row]]
            # numpy 2 has a repr of its own for its texts.
            shown = repr(str(key) if isinstance(key, str) else key)
            raise ValueError(f"row {row}: {printable(shown)} is not a key of zones")
        raise ValueError(f"row {row}: zones has no place {codes[row]}")
    return list(zones.values() if isinstance(zones, Mapping) else zones), codes


# Local times that move


class Moved(NamedTuple):
    """Local times whose instant changes, in the order of rows: each field has a value for each."""

    row: npt.NDArray[np.intp]
    """Its place in the column, from 0 on, in C order."""
    value: npt.NDArray[Any]
    """The local time."""
    old: npt.NDArray[Any]
    """Its instant in the old zone."""
    new: npt.NDArray[Any]
    """Its instant in the new zone."""
    label: Any
    """The labels in the index of a Series, or the values of an Index; else None."""

    def __bool__(self) -> bool:
        """Returns whether there are any."""
        return self.row.size > 0

    def to_frame(self) -> pandas.DataFrame:
        """Returns a DataFrame with a row for each of them, labelled as in the column."""
        return frame_of(self, "old", "new")

    def _repr_html_(self) -> Optional[str]:
        return as_html(self)


def moved(
    old: Zone,
    new: Zone,
    local_times: Any,
    gap: Literal["raise", "shift", "after", "shift_back", "before", "nat"] = "raise",
    fold: Union[Literal["raise", "earliest", "latest", "nat", "infer"], Rows, Labels, int] = "raise",
    *,
    is_dst: Any = None,
    offset: Any = None,
    by: Any = None,
    **others: Any,
) -> Moved:
    """Returns the rows whose local time has another instant in `new` than in `old`.

    These are the stored local times, as those of a calendar, that an update of the tz database
    moves. Local times, choices and errors are as in `Zone.localize`, for both zones; NaT in one of
    them is another instant.

    >>> import numpy as np
    >>> from sahvumbi import Zone
    >>> old, new = Zone.from_text("EST5"), Zone("America/New_York")
    >>> found = moved(old, new, np.array(["2021-01-01T12:00", "2021-07-01T12:00"], "M8[s]"))
    >>> found.row, found.new - found.old
    (array([1]), array([-3600], dtype='timedelta64[s]'))
    """
    must_have_no_others("moved", others)
    column = taken(local_times, "moved(old, new, s.index)", may_be_aware=False)
    choice = chosen(column, gap, fold, is_dst, offset, by)
    before, after = (localized(native_of(zone), column, choice) for zone in (old, new))
    return moved_rows(column, before, after)


def moved_rows(column: Column, before: Array, after: Array) -> Moved:
    """Returns the rows whose instants differ."""
    rows = np.flatnonzero(before != after)
    value, before, after = (
        column.times_of(values[rows]) for values in (column.values, before, after)
    )
    return Moved(rows, value, before, after, column.container.labels(rows))


# Two tz databases


class ZoneGroup(NamedTuple):
    """Zones with the same differences."""

    zones: list[str]
    differences: Differences


class Comparison:
    """What the new one of two tz databases changes. Printed, it is a summary as that of
    `zonedump --diff OLD NEW --summary`."""

    old: str
    """The folders, as they were given."""
    new: str
    both: list[str]
    """The names that both folders have and that were compared, in order."""
    groups: list[ZoneGroup]
    """The zones that differ: those with the same differences together, in the order of names."""
    only_old: list[str]
    """The names that only the old folder has, in order."""
    only_new: list[str]
    """The names that only the new folder has, in order."""
    rejected: dict[str, Exception]
    """Zones that can't be read in one of the folders, and why. They are not compared."""

    def __init__(self, old: Folder, new: Folder, from_: Time, to: Time):
        ends_of_stretch(from_, to)
        self.old, self.new = os.fspath(old), os.fspath(new)
        before, after = _paths_in(self.old), _paths_in(self.new)
        self.only_old = [name for name in before if name not in after]
        self.only_new = [name for name in after if name not in before]
        self.both, self.rejected = [], {}
        groups: dict[tuple[bytes, ...], ZoneGroup] = {}
        for name in (name for name in before if name in after):
            try:
                zones = Zone.from_file(before[name]), Zone.from_file(after[name])
                found = of_zones(zones[0]._native, zones[1]._native, from_, to)
            except (OSError, ZoneError) as error:
                self.rejected[name] = error
                continue
            self.both.append(name)
            if found:
                key = tuple(np.ascontiguousarray(field).tobytes() for field in found)
                groups.setdefault(key, ZoneGroup([], found)).zones.append(name)
        self.groups = list(groups.values())

    def __bool__(self) -> bool:
        """Returns whether a zone differs, or is in only one of the folders."""
        return bool(self.groups or self.only_old or self.only_new)

    def __str__(self) -> str:
        lines = [line for group in self.groups for line in _lines_of(group)]
        old, new = printable(self.old), printable(self.new)
        for folder, names in ((old, self.only_old), (new, self.only_new)):
            if names:
                lines.append(f"only in {folder}: {', '.join(names)}")
        lines += [f"{name}: {error}" for name, error in self.rejected.items()]
        count = sum(len(group.zones) for group in self.groups)
        only = f"only in {old}: {len(self.only_old)}; only in {new}: {len(self.only_new)}"
        return "\n".join([*lines, f"zones that differ: {count} of {len(self.both)}; {only}"])

    __repr__ = __str__

    def _repr_html_(self) -> str:
        return f"<pre>{escape(str(self))}</pre>"

    def to_frame(self) -> pandas.DataFrame:
        """Returns a DataFrame with a row for each zone and stretch in which it differs."""
        import pandas

        frames = [
            group.differences.to_frame().assign(zone=name) for group in self.groups for name in group.zones
        ]
        columns = ["zone", *Differences._fields]
        return pandas.concat(frames, ignore_index=True)[columns] if frames else pandas.DataFrame(columns=columns)

    def moved(
        self,
        local_times: Any,
        zones: Any,
        gap: Literal["raise", "shift", "after", "shift_back", "before", "nat"] = "raise",
        fold: Union[Literal["raise", "earliest", "latest", "nat", "infer"], Rows, Labels, int] = "raise",
        *,
        is_dst: Any = None,
        offset: Any = None,
        by: Any = None,
        **others: Any,
    ) -> Moved:
        """Returns the rows whose local time has another instant in the new database.

        `zones` is the name of all rows' zone, or a column with the name of each row's. Choices and errors
        are those of `Zone.localize`, for both databases. Raises `ZoneNotFoundError` if one of them
        has no zone of a name.
        """
        must_have_no_others("Comparison.moved", others)
        column = taken(local_times, "comparison.moved(s.index, zones)", may_be_aware=False)
        choice = chosen(column, gap, fold, is_dst, offset, by)
        codes, names = factorized("zones", zones, column)
        used, codes = np.unique(codes, return_inverse=True)
        opened: list[list[Zone]] = [[], []]
        missing: dict[int, str] = {}
        for place, code in enumerate(used):
            try:
                for folder, found in zip((self.old, self.new), opened):
                    found.append(_zone_in(folder, names[code]))
            except ZoneNotFoundError as error:
                missing[place] = str(error)
        if missing:
            row = int(np.isin(codes, list(missing)).argmax())
            where = "" if np.ndim(zones) == 0 else f"row {row}: "
            raise ZoneNotFoundError(where + missing[int(codes[row])])
        before, after = (instants(found, codes, column, choice) for found in opened)
        return moved_rows(column, before, after)


def compare(old: Folder, new: Folder, from_: Time = FIRST, to: Time = LAST) -> Comparison:
    """Returns what the new one of two tz databases changes from `from_` on and before `to`.

    `old` and `new` are folders such as /usr/share/zoneinfo: the zones of the same name in both are
    compared, also those in folders below. Zones below `right/` and `posix/` are left out; to compare
    these, name the folders themselves. A file that doesn't begin with `TZif` is no zone, and a link
    to a folder isn't followed. Ends are as in `Zone.changes`. Raises OSError if a folder can't be
    read.

    >>> from sahvumbi import compare
    >>> print(compare("/usr/share/zoneinfo/Arctic", "/usr/share/zoneinfo/Arctic"))
    zones that differ: 0 of 1; only in /usr/share/zoneinfo/Arctic: 0; only in /usr/share/zoneinfo/Arctic: 0
    """
    return Comparison(old, new, from_, to)


def _paths_in(folder: str) -> dict[str, str]:
    """The zones of a folder, in the order of their names, and the path of each."""
    os.scandir(folder).close()
    found = {}
    for top, folders, files in os.walk(folder):
        if top == folder:
            folders[:] = [name for name in folders if name not in LEFT_OUT]
        for path in (os.path.join(top, file) for file in files):
            if _is_zone(path):
                found[os.path.relpath(path, folder)] = path
    return dict(sorted(found.items()))


def _is_zone(path: str) -> bool:
    """Whether a file begins as a TZif file does, or can't be read, which is said when it is opened."""
    if not os.path.isfile(path):
        return False
    try:
        with open(path, "rb") as file:
            return file.read(4) == b"TZif"
    except OSError:
        return True


def _zone_in(folder: str, name: str) -> Zone:
    path = os.path.join(folder, str(name))
    if not os.path.isfile(path):
        raise ZoneNotFoundError(f"no zone has the name {printable(name)!r} in {printable(folder)}")
    return Zone.from_file(path)


# A summary


def _lines_of(group: ZoneGroup) -> list[str]:
    """The names of a group, and a line for each pair of types, with its first stretch."""
    found = group.differences
    lines: dict[tuple[str, str], str] = {}
    counts: dict[tuple[str, str], int] = {}
    for row in range(found.from_.size):
        old, new = _type_of(found, row, "old"), _type_of(found, row, "new")
        counts[old, new] = counts.get((old, new), -1) + 1
        if counts[old, new] == 0:
            moved = _seconds(found.offset_new[row]) - _seconds(found.offset_old[row])
            ends = f"{_time(found.from_[row])} to {_time(found.until[row])} UTC"
            lines[old, new] = f"  {ends}: {_moved(moved)}, {old} becomes {new}"
    more = (f", and {count} more" if count else "" for count in counts.values())
    return [", ".join(group.zones), *(line + rest for line, rest in zip(lines.values(), more))]


def _type_of(found: Differences, row: int, side: str) -> str:
    """A type as its offset, `dst` or `std`, and its abbreviation."""
    seconds = _seconds(getattr(found, f"offset_{side}")[row])
    minutes, rest = divmod(abs(seconds), 60)
    offset = f"{'-' if seconds < 0 else '+'}{minutes // 60:02}:{minutes % 60:02}" + f":{rest:02}" * bool(rest)
    word = "dst" if getattr(found, f"is_dst_{side}")[row] else "std"
    return f"{offset} {word} {getattr(found, f'name_{side}')[row] or '-'}"


def _moved(seconds: int) -> str:
    if seconds == 0:
        return "no clock moves"
    sense, length = "ahead" if seconds > 0 else "back", abs(seconds)
    shown = f"{length} s" if length % 60 else f"{length // 60} min"
    return f"clocks are {shown} {sense}"


def _seconds(offset: Any) -> int:
    return int(offset.astype("m8[s]").astype(np.int64))


def _time(instant: Any) -> str:
    return str(instant.astype("M8[s]")).replace("T", " ")
