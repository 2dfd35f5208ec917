#!/usr/bin/env python3
"""Times zoneq over a million lines, compared with programs that read and print lines.

usage: bench/time_lines.py INPUTS OUTPUTS

It prints a line for each program, as the drivers do: the processor's time for a line, the least of five runs. `lines` are
`wall` lines, of which mawk counts the words; `lines_at` are instants, which mawk's strftime and GNU date print too.
"""

import os
import resource
import subprocess
import sys
from pathlib import Path

ZONEQ = Path(__file__).resolve().parent.parent / "crates/zoneq/out/zoneq"
FORM = "%Y-%m-%d %H:%M:%S %z"
# The program, its words, and the file of its lines.
PROGRAMS = {
    "lines": {
        "zoneq": ([str(ZONEQ)], "lines"),
        "mawk": (["mawk", "{print NF}"], "lines"),
    },
    "lines_at": {
        "zoneq": ([str(ZONEQ)], "lines_at"),
        "mawk": (["mawk", f'{{print strftime("{FORM}", $1)}}'], "seconds_at"),
        "GNU date": (["date", "-f", "-", f"+{FORM}"], "stamps_at"),
    },
}
RUNS = 5


def processor_time():
    """The seconds that the processes which have ended took."""
    used = resource.getrusage(resource.RUSAGE_CHILDREN)
    return used.ru_utime + used.ru_stime


def least_time(command, path, zone):
    least = float("inf")
    environment = os.environ | {"TZ": f":{zone}"}
    for _ in range(RUNS):
        with path.open("rb") as lines:
            before = processor_time()
            subprocess.run(command, stdin=lines, stdout=subprocess.DEVNULL, env=environment, check=True)
            least = min(least, processor_time() - before)
    return least


def printed(command, path, zone):
    """What the program prints of the instants, in one form: without a colon in the offset."""
    with path.open("rb") as lines:
        said = subprocess.run(command, stdin=lines, capture_output=True, env=os.environ | {"TZ": f":{zone}"}, check=True).stdout
    texts = said.decode().splitlines()
    return [text[:-3] + text[-2:] if text[-3:-2] == ":" else text for text in texts if text.startswith("20")]


def main():
    inputs = Path(sys.argv[1])
    zone = (inputs / "zones/New_York").resolve()
    for question, programs in PROGRAMS.items():
        ours = None
        for name, (command, file) in programs.items():
            path = inputs / file
            count = path.read_bytes().count(b"\n")
            took = least_time(command, path, zone) * 1e9 / count
            if question == "lines_at":
                texts = printed(command, path, zone)
                ours = ours or texts
                if texts != ours:
                    sys.exit(f"{name} prints otherwise than zoneq")
            print(name, "New_York", question, "-", f"{took:.1f}", count, sep="\t", flush=True)


if __name__ == "__main__":
    main()
