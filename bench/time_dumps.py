#!/usr/bin/env python3
"""Times `zonedump --zdump` over a tz database, compared with `zdump -v` of glibc.

usage: bench/time_dumps.py INPUTS OUTPUTS [ZONEINFO]

It prints a line for each program, as the drivers do: the processor's time for a zone, the clock changes of 1900 to 2037, the
least of RUNS runs over all files of ZONEINFO (/usr/share/zoneinfo) without leap seconds, each file once. Both print the same
lines, apart from the spaces after a name. `rt run` in crates/zonedump builds the program.
"""

import os
import re
import shutil
import subprocess
import sys
from pathlib import Path

from time_lines import processor_time

ZONEDUMP = Path(__file__).resolve().parent.parent / "crates/zonedump/out/zonedump"
RUNS = {"zonedump": 10, "zdump": 2}


def files_of(zoneinfo):
    """The zones of a database, each file once."""
    found = {}
    for path in sorted(zoneinfo.rglob("*")):
        if path.is_file() and path.relative_to(zoneinfo).parts[0] not in ("right", "posix"):
            with path.open("rb") as file:
                if file.read(4) == b"TZif":
                    found.setdefault(path.resolve(), path)
    return sorted(map(str, found.values()))


def timed(command, runs):
    least, said = float("inf"), ""
    for _ in range(runs):
        before = processor_time()
        said = subprocess.run(command, capture_output=True, text=True, check=True).stdout
        least = min(least, processor_time() - before)
    return least, said


def main():
    files = files_of(Path(sys.argv[3] if len(sys.argv) > 3 else "/usr/share/zoneinfo"))
    zdump = shutil.which("zdump", path=os.environ["PATH"] + ":/usr/sbin")
    commands = {
        "zonedump": [ZONEDUMP, "--zdump", "--from", "1900", "--to", "2037", *files],
        "zdump": [zdump, "-v", "-c", "1900,2038", *files],
    }
    said = {}
    for name, command in commands.items():
        took, text = timed(command, RUNS[name])
        said[name] = sorted(re.sub(r" +", " ", line) for line in text.splitlines())
        print(name, "database", "dumps", "-", f"{took * 1e9 / len(files):.1f}", len(files), sep="\t", flush=True)
    differ = len(set(said["zonedump"]) ^ set(said["zdump"]))
    print(f"{len(files)} files, {len(said['zonedump'])} lines, {differ} differ", file=sys.stderr)


main()
