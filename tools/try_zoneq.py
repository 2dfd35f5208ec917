#!/usr/bin/env python3
"""Tries the built zoneq on what no contract can name: its real ends, its exit status, its line on standard error.

usage: tools/try_zoneq.py [ZONEQ]

ZONEQ is the built program (crates/zoneq/out/zoneq). It is run on its stored input, on a full and on a closed standard output,
on a closed standard input and one that is a folder, with a full standard error, on a dialogue that waits for each answer,
and on long lines in little memory. Each run must end with the status, the output and the line on standard error that are
due. Prints a line for each run, and ends with status 1 if an answer differs. It takes a few seconds and builds nothing.
"""

import resource
import subprocess
import sys
from pathlib import Path

from checks import check, exit_status
from sources import needs

HERE = Path(__file__).resolve().parent.parent
STORED = HERE / "crates" / "zoneq"
SECONDS = 60
MEGABYTE = 1 << 20
# Address space for a run on long lines: the program with its buffers takes some 5 MB of it.
LITTLE = 32 * MEGABYTE


def run(program, given=b"", redirect="", memory=None, words=""):
    """Runs the program under a shell that redirects its ends; gives its status, output and error text."""
    limit = (lambda: resource.setrlimit(resource.RLIMIT_AS, (memory, memory))) if memory else None
    done = subprocess.run(
        ["sh", "-c", f'exec "$0" {words} {redirect}', program],
        input=given, capture_output=True, timeout=SECONDS, preexec_fn=limit,
    )
    return done.returncode, done.stdout, done.stderr


def try_long_line(program, name, front, answer, filler=b"x"):
    """Tries a line of 100 MB, of which no more than a block may be kept, and a line after it."""
    given = b"text UTC0\n" + front + filler * (100 * MEGABYTE // len(filler)) + b"\nat 0\n"
    want = (0, b"ok 0 1 0 fixed\n" + answer + b"\n0 std UTC\n", b"")
    check(name, want, run(program, given, memory=LITTLE))


def try_dialogue(program):
    """Tries that each answer comes while the input stays open."""
    with subprocess.Popen([program], stdin=subprocess.PIPE, stdout=subprocess.PIPE) as dialogue:
        said = []
        for line in (b"text UTC0\n", b"at 0\n", b"show 0 0\n"):
            dialogue.stdin.write(line)
            dialogue.stdin.flush()
            said.append(dialogue.stdout.readline())
        dialogue.stdin.close()
        said.append(dialogue.wait(SECONDS))
    check("each answer before the next question", [b"ok 0 1 0 fixed\n", b"0 std UTC\n", b"1970-01-01 00:00:00 +00:00\n", 0], said)


def main():
    program = Path(sys.argv[1] if len(sys.argv) > 1 else STORED / "out" / "zoneq").resolve()
    needs(program)
    stored = (STORED / "stdin").read_bytes()
    answers = (STORED / "stdout").read_bytes()
    no_read = (1, b"", b"zoneq: read failed\n")
    no_write = (1, b"", b"zoneq: write failed\n")

    check("the stored input", (0, answers, b""), run(program, stored))
    check("no input", (0, b"", b""), run(program))
    check("a full output", no_write, run(program, stored, ">/dev/full"))
    check("a closed output", no_write, run(program, stored, ">&-"))
    check("no answer for a full output", (0, b"", b""), run(program, b"", ">/dev/full"))
    check("a closed input", no_read, run(program, b"", "<&-"))
    check("a folder as input", no_read, run(program, b"", "</"))
    check("a fault, and a full standard error", (1, b"", b""), run(program, b"", "<&- 2>/dev/full"))
    check("a fault, and a closed standard error", (1, b"", b""), run(program, b"", "<&- 2>&-"))
    try_dialogue(program)
    try_long_line(program, "a long line that begins with no word", b"", b"bad line")
    try_long_line(program, "a long line of no numbers", b"wall 2021 3 14 ", b"bad line")
    for front, filler in ((b"at ", b"9"), (b"at 1", b"0"), (b"at ", b"-"), (b"wall ", b" "), (b"wall 2021", b" 0"),
                          (b"show 0 ", b"7"), (b"show ", b"\r"), (b"at x", b"0"), (b"at 1 ", b"0"), (b"show 0 0 ", b"0"),
                          (b"wall 1 2 3 4 5 6 7 8 ", b"0"), (b"wall - ", b"0"), (b"wall 2021 13 ", b"0"),
                          (b"wall 2021 2 30 ", b"0")):
        try_long_line(program, f"a long line of {front + filler} again and again", front, b"bad line", filler)
    zeros = b"text UTC0\nat -" + b"0" * 100000 + b"12\nwall " + b"0" * 100000 + b"2021 03 014 02 030 00\n"
    check("numbers with leading zeros", (0, b"ok 0 1 0 fixed\n0 std UTC\nsingle 0 std UTC\n", b""), run(program, zeros))
    check("arguments are ignored", (0, answers, b""), run(program, stored, words="--help extra"))
    check("a text too long for the memory", (1, b"ok 0 1 0 fixed\n", b"zoneq: out of memory\n"),
          run(program, b"text UTC0\ntext " + b"x" * (100 * MEGABYTE) + b"\nat 0\n", memory=LITTLE))

    return exit_status()


if __name__ == "__main__":
    sys.exit(main())
