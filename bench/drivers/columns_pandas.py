"""pandas: a column of instants in UTC becomes one of local times by `dt.tz_convert(zone).dt.tz_localize(None)`.

usage: columns_pandas.py FOLDER

FOLDER has the columns and this library's answers, as columns.cc writes them. What is printed is said there. The zones are those of
their names, which pandas takes from pytz.
"""

import sys
import time
from pathlib import Path

import numpy as np
import pandas as pd

PASS_NANOSECONDS = 0.3e9


def least_time(call):
    """The nanoseconds of the processor for a call, of which a twentieth of the calls take less, and its answer."""
    times, answer = [], None
    while sum(times) < PASS_NANOSECONDS:
        start = time.process_time_ns()
        answer = call()
        times.append(time.process_time_ns() - start)
    return sorted(times)[len(times) // 20], answer


def main():
    folder = Path(sys.argv[1])
    for zone in (folder / "zones").read_text().split():
        for rows in (folder / "rows").read_text().splitlines():
            instants = pd.Series(np.fromfile(folder / f"{rows}.i64", np.int64).view("datetime64[ns]")).dt.tz_localize("UTC")
            name = zone.rpartition("/")[2]
            due = np.fromfile(folder / f"{name}.{rows}.i64", np.int64)
            took, locals_ = least_time(lambda: instants.dt.tz_convert(zone).dt.tz_localize(None))
            differ = int((locals_.to_numpy().view(np.int64) != due).sum())
            print("pandas", name, rows, f"{took / len(instants):.2f}", len(instants), differ, sep="\t", flush=True)


main()
