#!/usr/bin/env python3
"""Refuses each request for memory of two built programs in turn, and compares what they say then.

usage: tools/refuse_memory.py [FOLDER]

FOLDER holds crates/tests_out_of_memory/out/tests_out_of_memory and crates/zoneq/out/zoneq (this repository, where the gate has built
them). Each program is run with its first request for memory refused, then with its second one, and so on until a run has no
request left to refuse. It takes a few seconds, and needs the C compiler cc for tools/refuse_request.c.

tests_out_of_memory makes zones by each constructor, and prints a line for each. In each run

- every line is one of a run with memory enough, in their order;
- if all lines are there, the status is 0;
- if the status is 17, one line is missing, which is a zone's: there was no memory for what its constructor is given, or
  the constructor said that it had none.

The lines of headers whose counts say more than there is are never missing: they were refused before memory was asked for. And
each zone's line is missing at least once, for each of them takes memory.

zoneq answers lines, of which the first are those of its stored run; with memory enough their answers must be that run's. In each run
either

- the status is 0, and one line that asks for a zone is answered `refused 17`, and every other line as if that one were not
  there: the earlier zone stayed, or no zone if it was the first; or
- the status is 1, standard error has `zoneq: out of memory`, and the answers end early, after a whole line.

Ends with status 1 where any of that is otherwise.
"""

import os
import subprocess
import sys
import tempfile
from functools import lru_cache
from itertools import count
from pathlib import Path

from sources import needs

HERE = Path(__file__).resolve().parent
NO_MEMORY = 17
SECONDS = 60
# Longer than a block of zoneq's input, so that memory is asked for the line's beginning.
LONG_TEXT = b"text UTC" + b"0" * 40_000
# The dialogue that the program's stored run begins with, and lines after it.
DIALOGUE = [
    b"text EST5EDT,M3.2.0,M11.1.0", b"wall 2021 3 14 2 0 0", b"wall 2021 11 7 1 30 0", b"show 1636264800 0", b"text FOO24", b"at 0",
    b"wall 2021 2 29 0 0 0",
]
QUESTIONS = [*DIALOGUE, b"data 00", LONG_TEXT, b"at 0", b"text HST10", b"wall 2021 3 14 2 0 0", b"show 0 0"]


class Program:
    """A built program, and what refuses its requests."""

    def __init__(self, path, shim, room):
        self.path, self.shim, self.met = str(path), str(shim), room / "refused"

    def run(self, given, refused):
        """Its status, output and error text, and whether that request was made (and refused); 0 refuses none."""
        self.met.unlink(missing_ok=True)
        told = {"LD_PRELOAD": self.shim, "REFUSED_REQUEST": str(refused), "REFUSED_FILE": str(self.met)}
        done = subprocess.run([self.path], input=given, capture_output=True, timeout=SECONDS, env={**os.environ, **told})
        return done.returncode, done.stdout, done.stderr, self.met.exists()


def missing(due, lines):
    """The due lines that are not among these, or None where these hold others, or in another order."""
    left = iter(lines)
    line = next(left, None)
    gone = []
    for want in due:
        if line == want:
            line = next(left, None)
        else:
            gone.append(want)
    return gone if line is None else None


def try_constructors(program, due):
    """How many requests were refused; ends the program where an answer is not as it must be."""
    zones = {line for line in due if b"refused" not in line}
    never = set(zones)
    for request in count(1):
        status, output, errors, met = program.run(b"", request)
        gone = missing(due, output.splitlines())
        none_gone = status == 0 and gone == []
        one_gone = met and status == NO_MEMORY and gone is not None and len(gone) == 1 and gone[0] in zones
        if not (none_gone or one_gone):
            sys.exit(f"out_of_memory, request {request} refused: status {status}, {errors}, and these lines: {output}")
        if not met:
            break
        never.difference_update(gone)
    if never:
        sys.exit(f"out_of_memory, never refused: {sorted(never)}")
    return request - 1


def try_lines(program, stored):
    """How many requests were refused, and how many runs stopped; ends the program where an answer is not as it must be."""

    @lru_cache(None)
    def answers(left_out=None):
        asked = [line for place, line in enumerate(QUESTIONS) if place != left_out]
        status, output, errors, met = program.run(b"\n".join(asked) + b"\n", 0)
        lines = output.splitlines(True)
        if (status, errors, met, len(lines)) != (0, b"", False, len(asked)):
            sys.exit(f"zoneq, with memory enough: status {status}, {errors}, {output}")
        return lines

    if answers()[: len(DIALOGUE)] != stored[: len(DIALOGUE)]:
        sys.exit(f"zoneq, with memory enough: {answers()}, and not the stored run")
    zones = [place for place, line in enumerate(QUESTIONS) if line.startswith((b"text ", b"data "))]
    kept = [[*answers(place)[:place], b"refused 17\n", *answers(place)[place:]] for place in zones]
    stopped = refused = 0
    for request in count(1):
        status, output, errors, met = program.run(b"\n".join(QUESTIONS) + b"\n", request)
        lines = output.splitlines(True)
        is_whole = (status, errors, lines) == (0, b"", answers())
        is_stopped = (status, errors) == (1, b"zoneq: out of memory\n") and len(lines) < len(QUESTIONS)
        is_stopped = is_stopped and lines == answers()[: len(lines)]
        is_refused = (status, errors) == (0, b"") and lines in kept
        if not (is_whole or met and (is_stopped or is_refused)):
            sys.exit(f"zoneq, request {request} refused: status {status}, {errors}, {output}")
        if not met:
            break
        stopped += is_stopped
        refused += is_refused
    if not (stopped and refused):
        sys.exit(f"zoneq: {stopped} runs stopped, and {refused} refused a zone: each must happen")
    return request - 1, stopped, refused


def main():
    top = Path(sys.argv[1] if len(sys.argv) > 1 else HERE.parent).resolve()
    crates = top / "crates"
    constructors, lines = (crates / name / "out" / name for name in ("tests_out_of_memory", "zoneq"))
    needs("cc", constructors, lines)
    with tempfile.TemporaryDirectory() as folder:
        room = Path(folder)
        shim = room / "refuse_request.so"
        subprocess.run(["cc", "-shared", "-fPIC", "-O1", "-o", shim, HERE / "refuse_request.c", "-ldl"], check=True)
        due = (crates / "tests_out_of_memory/stdout").read_bytes().splitlines()
        tried = try_constructors(Program(constructors, shim, room), due)
        print(f"out_of_memory: {tried} requests refused in turn: each zone was made as due, or there was no memory for it")
        stored = (crates / "zoneq/stdout").read_bytes().splitlines(True)
        tried, stopped, refused = try_lines(Program(lines, shim, room), stored)
        print(f"zoneq: {tried} requests refused in turn: {stopped} runs stopped after whole answers, {refused} kept the earlier zone")
    return 0


if __name__ == "__main__":
    sys.exit(main())
