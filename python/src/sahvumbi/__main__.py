"""Says what is installed here, or what the clocks of a zone show now."""

from __future__ import annotations

import argparse
import sys
import time
import zoneinfo

import numpy as np

from . import Zone, ZoneNotFoundError, ZoneRefusedError, __version__, zones
from ._library import PATH

YEAR = 31_556_952


def about() -> str:
    """Returns the versions, and where the library and the tz database are."""
    folders = ", ".join(zoneinfo.TZPATH) or "no folder"
    return (
        f"sahvumbi {__version__}, numpy {np.__version__}, Python {sys.version.split()[0]}\n"
        f"library: {PATH}\n"
        f"zones: {len(zones())}, of {folders} or the package tzdata"
    )


def proof() -> str:
    """Returns the record of the proof: what was proved, by which kit. A wheel of a release has it."""
    record = PATH.with_name("proof.json")
    if record.exists():
        return record.read_text()
    return "no record: this isn't the wheel of a release; rt lib in crates/zoned_ffi proves the library, and prints what"


def clocks(zone: Zone, instant: int) -> str:
    """Returns what the clocks of a zone show at a second, and their changes in the next year."""
    types = zone.types(instant)
    local = np.datetime64(int(zone.to_local(instant)), "s")
    kind = ", daylight saving time" if types.is_dst else ""
    lines = [f"{local} {types.abbreviation} (offset {types.offset} s{kind})"]
    changes = zone.changes(instant, instant + YEAR)
    for at, offset, name in zip(changes.at, changes.offset_after, changes.name_after):
        lines.append(f"{np.datetime64(int(at), 's')} UTC: {name} (offset {offset} s)")
    return "\n".join(lines)


def main() -> int:
    parser = argparse.ArgumentParser("python -m sahvumbi", description=__doc__)
    parser.add_argument("zone", nargs="?", help="its name, such as Europe/Paris")
    parser.add_argument("--version", action="version", version=f"sahvumbi {__version__}")
    parser.add_argument("--proof", action="store_true", help="print the record of the proof")
    given = parser.parse_args()
    if given.proof:
        print(proof())
        return 0
    name = given.zone
    try:
        print(about() if name is None else clocks(Zone(name), int(time.time())))
    except (ZoneNotFoundError, ZoneRefusedError) as error:
        print(f"sahvumbi: {error}", file=sys.stderr)
        return 1
    return 0


if __name__ == "__main__":
    sys.exit(main())
