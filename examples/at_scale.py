#!/usr/bin/env python3
"""Columns of time on several processes or machines: local times of mixed zones to instants and
back, with a count of rows for each zone and local day. It needs the package of python/, numpy and
Dask (python3-distributed).

usage: examples/at_scale.py [--rows N] [--partition N] [--seed N] [--workers 1,2,4] [--kill]
[--folder F] [--scheduler ADDRESS]

A partition is two files: `zones-I.npy` has the place of each row's zone in ZONES, and
`locals-I.npy` its local time. The program makes them, and then, with each number of workers, has
each partition answered by a worker, which writes `instants-I.npy` and returns its counts. Rows stay
where they are: between processes go the zones, the numbers of partitions and the counts.

At the end it checks that each row has an instant, that the counts have each row, that each number
of workers gave the same instants, and 1,000 rows against Python's zoneinfo. It ends with status 1
if anything is otherwise.

--seed       of the random rows (0): the same rows for the same seed
--workers    numbers of worker processes that it starts here, one run each (1,2,4)
--kill       ends one of its own workers when a third of the partitions are answered
--folder     where partitions are (a temporary folder, which is deleted at the end)
--scheduler  takes the workers of a cluster that is there, and starts none: tcp://HOST:8786. They
             need this package, and FOLDER
"""

from __future__ import annotations

import argparse
import logging
import os
import shutil
import signal
import sys
import tempfile
import time
from dataclasses import dataclass
from datetime import datetime
from pathlib import Path
from zoneinfo import ZoneInfo

import dask
import numpy as np
from distributed import Client, LocalCluster, as_completed

from sahvumbi import Zone, localize_many, to_local_many

ZONES = [
    "America/New_York",
    "America/Sao_Paulo",
    "Europe/London",
    "Europe/Berlin",
    "Africa/Casablanca",
    "Asia/Kolkata",
    "Asia/Tokyo",
    "Australia/Lord_Howe",
]
FIRST_DAY, LAST_DAY = np.datetime64("2015-01-01"), np.datetime64("2030-01-01")
# Shifted local times may lie on the day after.
DAYS = int((LAST_DAY - FIRST_DAY).astype(int)) + 1
# A worker in place of one that ended takes longer than Dask's 15 s to start if the processors are
# busy. After that time a LocalCluster gives its place up.
WORKER_COMES = "10 minutes"


@dataclass
class Answer:
    """What comes back of a partition, or of all of them."""

    rows: int
    skipped: int
    counts: np.ndarray
    sums: list[int]


def path(folder, name, number):
    return Path(folder) / f"{name}-{number}.npy"


def save(where, array):
    """Writes a file that is there whole or not at all."""
    unfinished = where.with_suffix(f".{os.getpid()}")
    with unfinished.open("wb") as file:
        np.save(file, array)
    os.replace(unfinished, where)


def make(folder, number, rows, seed):
    """Writes a partition of random rows."""
    random = np.random.default_rng([seed, number])
    ends = (day.astype("M8[s]").astype(np.int64) for day in (FIRST_DAY, LAST_DAY))
    save(path(folder, "zones", number), random.integers(0, len(ZONES), rows, np.uint8))
    save(path(folder, "locals", number), random.integers(*ends, rows).view("M8[s]"))


def answer(folder, number, zones):
    """Answers a partition: a gap is shifted, and of a fold the earliest instant is taken."""
    codes, local = np.load(path(folder, "zones", number)), np.load(path(folder, "locals", number))
    instants = localize_many(zones, codes, local, gap="shift", fold="earliest")
    shown = to_local_many(zones, codes, instants)
    save(path(folder, "instants", number), instants)
    days = (shown.astype("M8[D]") - FIRST_DAY).astype(np.int64)
    counts = np.bincount(codes * DAYS + days, minlength=len(zones) * DAYS)
    # A sum that depends on each row's place, so that two orders of the same instants differ.
    places = np.arange(1, 2 * local.size, 2, dtype=np.uint64)
    weighed = int((instants.view(np.uint64) * places).sum(dtype=np.uint64))
    return Answer(local.size, int((shown != local).sum()), counts.astype(np.int32), [weighed])


class Bar:
    """Progress on standard error: a bar on a terminal, and a line for each fifth elsewhere."""

    def __init__(self, what, total):
        self.what, self.total, self.fifths = what, total, 0

    def show(self, done):
        words = f"{self.what}: {done} of {self.total} partitions"
        if sys.stderr.isatty():
            bar = f"{'#' * (40 * done // self.total):.<40}"
            end = "\n" if done == self.total else ""
            print(f"\r[{bar}] {words}", end=end, file=sys.stderr, flush=True)
        elif 5 * done // self.total > self.fifths:
            self.fifths = 5 * done // self.total
            print(words, file=sys.stderr, flush=True)


def run(client, folder, partitions, kill):
    """Has each partition answered. Returns all answers together, and the seconds that it took."""
    workers = len(client.scheduler_info()["workers"])
    bar, start = Bar(f"{workers} workers", partitions), time.perf_counter()
    zones = [Zone(name) for name in ZONES]
    numbers = range(partitions)
    futures = client.map(answer, [folder] * partitions, numbers, zones=zones, pure=False)
    places = {future.key: number for number, future in enumerate(futures)}
    answers, ended = [None] * partitions, None
    for done, (future, each) in enumerate(as_completed(futures, with_results=True), 1):
        answers[places[future.key]] = each
        bar.show(done)
        if kill and done == max(1, partitions // 3):
            ended = end_a_worker(client)
    took = time.perf_counter() - start
    while ended in client.scheduler_info()["workers"]:
        time.sleep(0.05)
    client.wait_for_workers(workers)
    together = Answer(
        sum(each.rows for each in answers),
        sum(each.skipped for each in answers),
        sum(each.counts for each in answers),
        [each.sums[0] for each in answers],
    )
    return together, took


def end_a_worker(client):
    """Ends one of the worker processes that this program started, without a word to it. Returns its
    address, where no other worker will be."""
    address, process = next(iter(client.run(os.getpid).items()))
    os.kill(process, signal.SIGKILL)
    print(f"worker process {process} ended", file=sys.stderr)
    return address


def complaints(done, folder, partitions, rows, first):
    if done.rows != rows:
        yield f"{done.rows} rows of {rows} are answered"
    if done.counts.sum() != rows:
        yield f"the counts have {done.counts.sum()} rows of {rows}"
    if done.sums != first.sums or (done.counts != first.counts).any():
        yield "the answers are others than those of the first run"
    yield from sample_complaints(folder, partitions)


def sample_complaints(folder, partitions):
    """What is amiss in a thousand rows, by zoneinfo; its fold=0 is the offset before a gap."""
    random = np.random.default_rng(0)
    for number in random.integers(0, partitions, 20):
        names = "zones", "locals", "instants"
        files = [np.load(path(folder, name, number), mmap_mode="r") for name in names]
        for row in random.integers(0, files[0].size, 50):
            place, local, instant = (file[row] for file in files)
            clock = local.astype(datetime)
            expected = clock - clock.replace(tzinfo=ZoneInfo(ZONES[place])).utcoffset()
            if instant.astype(datetime) != expected:
                where = f"partition {number}, row {row}: {local} in {ZONES[place]}"
                yield f"{where} is {instant}, and by zoneinfo {expected}"


def clients(given, room):
    """A client for each run: of the cluster that is there, or of workers that are started here."""
    if given.scheduler:
        with Client(given.scheduler) as client:
            yield client
        return
    dask.config.set({"distributed.deploy.lost-worker-timeout": WORKER_COMES})
    how = {"threads_per_worker": 1, "dashboard_address": None, "memory_limit": 0}
    how |= {"local_directory": room, "silence_logs": logging.CRITICAL}
    for workers in given.workers:
        with LocalCluster(n_workers=workers, **how) as cluster, Client(cluster) as client:
            client.wait_for_workers(workers)
            yield client


def arguments():
    head, words = __doc__.split("\n\n", 1)
    form = argparse.RawDescriptionHelpFormatter
    parser = argparse.ArgumentParser(description=head, epilog=words, formatter_class=form)
    parser.add_argument("--rows", type=int, default=10**7)
    parser.add_argument("--partition", type=int, default=10**6)
    parser.add_argument("--seed", type=int, default=0)
    numbers = {"type": lambda text: [int(word) for word in text.split(",")]}
    parser.add_argument("--workers", default="1,2,4", **numbers)
    parser.add_argument("--kill", action="store_true")
    parser.add_argument("--folder")
    parser.add_argument("--scheduler")
    return parser.parse_args()


def main():
    given = arguments()
    folder = given.folder or tempfile.mkdtemp(prefix="at_scale-")
    os.makedirs(folder, exist_ok=True)
    starts = range(0, given.rows, given.partition)
    failed, first = False, None
    try:
        for client in clients(given, folder):
            if first is None:
                for number, start in enumerate(starts):
                    make(folder, number, min(given.partition, given.rows - start), given.seed)
            done, took = run(client, folder, len(starts), given.kill and not given.scheduler)
            first = first or done
            rate = done.rows / took / 1e6
            print(f"{done.rows:,} rows in {took:.1f} s, {rate:.1f} million a second")
            print(f"  {done.skipped:,} local times were skipped by clocks, and shifted")
            found = list(complaints(done, folder, len(starts), given.rows, first))
            failed = failed or bool(found)
            good = "  each row has its instant; 1,000 of them agree with zoneinfo"
            print("\n".join(found[:10]) or good)
    finally:
        if not given.folder:
            shutil.rmtree(folder)
    sys.exit(failed)


if __name__ == "__main__":
    main()
