"""Zones that are kept open: they are closed with the last reference, and threads ask them at once."""

import gc
import multiprocessing
import os
import pickle
import subprocess
import sys
import threading

import numpy as np
import pytest

from sahvumbi import Zone, _native

NEW_YORK = Zone("America/New_York")
SECONDS = np.random.default_rng(0).integers(-(2**31), 2**32, 2_000)


def test_each_zone_is_closed_once(monkeypatch):
    # What earlier tests left is closed before.
    gc.collect()
    opened, closed = [], []

    class Library:
        """The library, which notes what is opened and closed."""

        def __getattr__(self, name):
            return getattr(LIBRARY, name)

        def zoned_open(self, kind, data, size, handle):
            number = LIBRARY.zoned_open(kind, data, size, handle)
            opened.append(handle._obj.zone)
            return number

    LIBRARY = _native.LIBRARY
    monkeypatch.setattr(_native, "LIBRARY", Library())
    close = _native._Handle.__del__
    monkeypatch.setattr(_native._Handle, "__del__", lambda self: (closed.append(self.zone), close(self)))
    zone = Zone("America/New_York")
    other = pickle.loads(pickle.dumps(zone))
    same = zone
    assert len(opened) == 2 and None not in opened and closed == []
    del zone, other
    gc.collect()
    assert closed == opened[1:]
    assert same.offsets([0]).tolist() == [-18_000]
    del same
    gc.collect()
    assert sorted(closed) == sorted(opened)


def test_many_zones_take_no_memory():
    """Each is 1,750 bytes and more."""

    def resident():
        with open("/proc/self/statm") as file:
            return int(file.read().split()[1]) * os.sysconf("SC_PAGE_SIZE")

    data = NEW_YORK._native.data
    for _ in range(1_000):
        Zone.from_bytes(data)
    before = resident()
    for _ in range(20_000):
        Zone.from_bytes(data).offsets([0])
    assert resident() - before < 4 * 2**20


def test_threads_ask_one_zone():
    calls = NEW_YORK.to_local, NEW_YORK.types, NEW_YORK.explain, NEW_YORK.spans, NEW_YORK.day
    expected = [call(SECONDS) for call in calls]
    wrong = []

    def ask():
        for _ in range(3):
            for call, answer in zip(calls, expected):
                if not all(np.array_equal(a, b) for a, b in zip(call(SECONDS), answer)):
                    wrong.append(call)

    threads = [threading.Thread(target=ask) for _ in range(8)]
    for thread in threads:
        thread.start()
    for thread in threads:
        thread.join()
    assert not wrong


def test_zones_that_live_until_python_ends():
    """Names of modules are gone when they are closed."""
    words = "import sahvumbi, sys; sys.zone = sahvumbi.Zone('Asia/Tokyo'); zone = sys.zone; "
    words += "sys.cycle = [zone]; sys.cycle.append(sys.cycle); print(zone.offsets([0]))"
    ran = subprocess.run([sys.executable, "-c", words], capture_output=True, text=True)
    assert (ran.returncode, ran.stdout, ran.stderr) == (0, "[32400]\n", "")


def test_a_zone_in_a_forked_child():
    """It was open before the fork."""
    child = os.fork()
    if child == 0:
        os._exit(int(NEW_YORK.offsets([0])[0] != -18_000))
    assert os.waitstatus_to_exitcode(os.waitpid(child, 0)[1]) == 0


@pytest.mark.parametrize("method", ["fork", "spawn", "forkserver"])
def test_processes(method):
    """A zone goes to each with its bytes. At 1615705200 New York's clocks went from 02:00 to 03:00 (zdump -v)."""
    with multiprocessing.get_context(method).Pool(2) as pool:
        assert pool.map(NEW_YORK.offsets, [1_615_705_199, 1_615_705_200]) == [-18_000, -14_400]
