"""CPython's zoneinfo: fromutc at an instant, and utcoffset with both folds for a local time.

What a driver prints and writes is said in common.h.
"""

import io
import sys
import time
from array import array
from datetime import datetime, timedelta
from pathlib import Path
from zoneinfo import ZoneInfo

COUNT = 100_000
PASSES = 5
SLICE = 2000
EPOCH = datetime(1970, 1, 1)


def least_time(call, items, size=SLICE):
    """The processor's time of a call, without that of the loop: of each slice the least of some passes."""
    total = 0
    for start in range(0, len(items), size):
        part, least, empty = items[start : start + size], float("inf"), float("inf")
        for _ in range(PASSES):
            began = time.thread_time_ns()
            for item in part:
                pass
            empty = min(empty, time.thread_time_ns() - began)
            began = time.thread_time_ns()
            for item in part:
                call(item)
            least = min(least, time.thread_time_ns() - began)
        total += max(least - empty, 0)
    return total / len(items)


def readings(inputs, question, years, zone):
    seconds = array("q", (inputs / f"{question}_{years}.i64").read_bytes())[:COUNT]
    return [(EPOCH + timedelta(seconds=second)).replace(tzinfo=zone) for second in seconds]


def offset(when):
    return int(when.utcoffset().total_seconds())


def triple(early, late):
    first, last = offset(early), offset(late)
    if first < last:
        return 0, 0, 0
    return (1 if first == last else 2), first, last


def main():
    inputs, outputs = Path(sys.argv[1]), Path(sys.argv[2])

    def tell(name, question, years, nanoseconds, count, answers=None):
        print("cpython", name, question, years, f"{nanoseconds:.1f}", count, sep="\t", flush=True)
        if answers is not None:
            (outputs / f"cpython.{name}.{question}.{years}").write_bytes(array("i", answers).tobytes())

    for name in (inputs / "names").read_text().split():
        file = (inputs / "zones" / name).read_bytes()
        try:
            zone = ZoneInfo.from_file(io.BytesIO(file), key=name)
        except ValueError:
            tell(name, "read", "-", -1, 0)
            continue
        loads = 3 if len(file) > 100_000 else 200
        tell(name, "read", "-", least_time(lambda _: ZoneInfo.from_file(io.BytesIO(file)), range(loads), 1), loads)
        for years in (inputs / "years").read_text().split():
            instants = readings(inputs, "at", years, zone)
            offsets = [offset(zone.fromutc(instant)) for instant in instants]
            tell(name, "at", years, least_time(zone.fromutc, instants), COUNT, offsets)
            pairs = [(local, local.replace(fold=1)) for local in readings(inputs, "wall", years, zone)]
            triples = [number for pair in pairs for number in triple(*pair)]
            took = least_time(lambda pair: (zone.utcoffset(pair[0]), zone.utcoffset(pair[1])), pairs)
            tell(name, "wall", years, took, COUNT, triples)


main()
