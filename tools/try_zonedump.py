#!/usr/bin/env python3
"""Tries the built zonedump on wrong input: what it says, and its exit status. Tries its JSON, its pictures, and the files that it
writes.

usage: tools/try_zonedump.py [ZONEDUMP]

ZONEDUMP is the built program (crates/zonedump/out/zonedump). It is run on a folder, a zip, an empty file, a text file, a file cut
short, one above the limit, one that isn't there, a wrong TZ string and wrong arguments, on a good file among wrong ones, on names
that aren't UTF-8 or don't print, and with a standard output that is full or closed. Each run must end with the status, the output
and the line on standard error that are due. Folders are compared of which some parts can't be read, and large files are no zones.
The JSON of a file and of a TZ string must have the changes of the table. A file that is written must print as the one that was
read, and show the same times in Python's zoneinfo. A file that can't be written whole must be left as it was, without a temporary
file next to it, and one that is written again and again must never be seen in part. A picture must be the one in docs/, have the
changes of the table as steps of its line at their places, and the wall clocks of the table in its panels. Zones are asked for by
name, and a wrong name never leads out of the database's folder. What is listed from a year or a date to another, and what --at
prints, must be what zoneinfo has, a summary and the times that move those of two folders, and each line of JSON must fit the
schema in docs/. Each of the wrong uses of WRONG_USES must be answered by what to type, and each failing system call by a fault or
the whole answer. A fault has its place in each kind of output, and the examples of --help do what they say. A table and a picture
of a large file must need little more memory than one question about it. Prints a line for each run, and ends with status 1 if an
answer differs. It takes half a minute, and needs the C compiler cc for the calls that are made to fail.
"""

import gzip
import json
import os
import re
import resource
import shlex
import shutil
import signal
import struct
import subprocess
import sys
import tempfile
import zipfile
from datetime import datetime, timezone
from pathlib import Path
from xml.etree import ElementTree
from zoneinfo import ZoneInfo

from checks import check, exit_status
from sources import DATABASE, needs

HERE = Path(__file__).resolve().parent.parent
STORED = HERE / "crates" / "zonedump"
SECONDS = 60
LIMIT = 64 << 20


def run(program, *words, folder=None, redirect="", before=None):
    """Runs the program; gives its status, output and error text."""
    try:
        done = subprocess.run(["sh", "-c", f'exec "$0" "$@" {redirect}', str(program), *words], cwd=folder,
                              capture_output=True, timeout=SECONDS, text=True, preexec_fn=before)
    except subprocess.TimeoutExpired:
        return None, "", f"no answer in {SECONDS} s"
    return done.returncode, done.stdout, done.stderr


def unread(program, *words, folder=None):
    """Runs the program with a standard output whose reader has gone; gives its status and error text."""
    reader, writer = os.pipe()
    os.close(reader)
    done = subprocess.run([str(program), *words], cwd=folder, stdout=writer, stderr=subprocess.PIPE, timeout=SECONDS, text=True)
    os.close(writer)
    return done.returncode, done.stderr


def as_nobody():
    """Gives up root's leave to read every file."""
    if os.getuid() == 0:
        os.setgid(65534)
        os.setuid(65534)


def no_large_files():
    """Lets no file grow past 512 bytes, as on a full disk."""
    signal.signal(signal.SIGXFSZ, signal.SIG_IGN)
    resource.setrlimit(resource.RLIMIT_FSIZE, (512, 512))


def refused(file, why):
    """What is due for one file that is refused: nothing on standard output."""
    return 1, "", f"zonedump: {file}: {why}\n"


def make_files(folder):
    """The files that are tried; gives the bytes of the good one."""
    good = (STORED / "data" / "New_York").read_bytes()
    (folder / "good").write_bytes(good)
    (folder / "short").write_bytes(good[:200])
    (folder / "footer").write_bytes(good[:-20])
    (folder / "head").write_bytes(good[:30])
    (folder / "empty").write_bytes(b"")
    (folder / "text").write_text("It is always noon in Greenwich.\n" * 4)
    (folder / "folder").mkdir()
    (folder / "good.gz").write_bytes(gzip.compress(good))
    with zipfile.ZipFile(folder / "zip", "w") as archive:
        archive.writestr("New_York", good)
    with open(folder / "large", "wb") as large:
        large.truncate(LIMIT + 1)
    with open(folder / "limit", "wb") as limit:
        limit.truncate(LIMIT)


def seconds_of_table(output):
    """The seconds of the changes in a table."""
    return [int(line.rsplit(" at ", 1)[1]) for line in output.splitlines() if " UTC  " in line]


def try_json(program, words, folder):
    """Compares the JSON of a zone with its table."""
    table = run(program, *words, folder=folder)[1]
    status, output, errors = run(program, "--json", *words, folder=folder)
    told = json.loads(output)
    check(f"--json {' '.join(words)}", (0, "", 1), (status, errors, output.count("\n")))
    check("  its changes", seconds_of_table(table), [change["at"] for change in told["changes"]])
    first = told["changes"][0]
    check("  its first change", ["EST", "EDT", "gap", 3600],
          [first["before"]["name"], first["after"]["name"], first["step"], first["length"]])


def clocks(path):
    """What the clocks of a file show, by zoneinfo, every eleven days of the years 1900 to 2100."""
    with open(path, "rb") as data:
        zone = ZoneInfo.from_file(data)
    times = (datetime.fromtimestamp(second, timezone.utc).astimezone(zone) for second in range(-2208988800, 4102444800, 950400))
    return [(time.utcoffset(), time.dst(), time.tzname()) for time in times]


def try_fault_places(program, folder):
    """A fault has its place in every output, and of several zones each faulty one is named and the rest are answered."""
    outputs = ([], ["--json"], ["--zdump"], ["--at", "@0"], ["--at", "1970-01-01", "--local"], ["--svg", "-"], ["--write", "-"])
    for output in outputs:
        for file, why in WRONG.items():
            check(f"{' '.join(output)} {file}", refused(file, why), run(program, *output, file, folder=folder))
        for text, shown, words, place, column, hint in POINTED:
            for extended in ([], ["--extended"]):
                due = f"zonedump: {shown}: not a TZ string: {words}\n  {shown}\n  {' ' * column}^ at offset {place}\n{hint}"
                check(f"the caret of {' '.join([*output, *extended])} under {text!r}", (1, "", due), run(program, *output, *extended, "--text", text))
    for output in outputs[:5]:
        alone = run(program, *output, "good", folder=folder)[1]
        due = "".join(refused(file, WRONG[file])[2] for file in ("footer", "missing", "zip"))
        words = [*output, "footer", "good", "missing", "good", "zip"]
        check(" ".join(words), (1, alone + alone, due), run(program, *words, folder=folder))
    (folder / "times").write_text("2021-07-01T12:00\n")
    for output, printed in ([], ""), (["--json"], ""), (["--summary"], "zones that differ: 0 of 0; only in {}: 0; only in {}: 0\n"), (
            ["--times", "times"], "times that move: 0 of 1\n"):
        for file in ("footer", "short", "zip"):
            for names in ((file, "good"), ("good", file)):
                words = [*output, "--diff", *names]
                check(" ".join(words), (2, printed.format(*names), refused(file, WRONG[file])[2]), run(program, *words, folder=folder))


def try_write(program, folder):
    """Files that are written, and what isn't."""
    check("--write", (0, "", ""), run(program, "--write", "written", "good", folder=folder))
    table = run(program, "good", folder=folder)[1].split("\n", 1)[1]
    check("  its table", table, run(program, "written", folder=folder)[1].split("\n", 1)[1])
    check("  its clocks", clocks(folder / "good"), clocks(folder / "written"))
    check("  written again", (0, "", ""), run(program, "--write", "again", "written", folder=folder))
    check("  the same bytes", (folder / "written").read_bytes(), (folder / "again").read_bytes())
    text = "<-03>3<-02>,M3.5.0/22,M10.5.0/23:30"
    check("--write of a text", (0, "", ""), run(program, "--write", "by_text", "--text", text, folder=folder))
    check("  its version and footer", (b"TZif2", f"\n{text}\n".encode()),
          ((folder / "by_text").read_bytes()[:5], (folder / "by_text").read_bytes()[-len(text) - 2:]))
    before = (folder / "again").read_bytes()
    check("--write of a wrong file", refused("zip", MAGIC), run(program, "--write", "again", "zip", folder=folder))
    check("  what was there stays", before, (folder / "again").read_bytes())
    status, output, errors = run(program, "--write", "folder", "good", folder=folder)
    check("--write into a folder", (1, "", True), (status, output, errors.startswith("zonedump: folder: ")))
    several = run(program, "--write", "again", "good", "written", folder=folder)
    check("--write of two files", (2, "", ONE_ZONE.format("write")), several)


def try_failed_writes(program, folder):
    """Files that can't be written whole, and what they replace."""
    place = folder / "place"
    place.mkdir()
    (place / "old").write_bytes(b"OLD")
    (place / "old.0.tmp").write_bytes(b"MINE")
    (place / "link").symlink_to("old")
    good = (folder / "good").read_bytes()
    (place / "zone").write_bytes(good)
    large = "File too large (os error 27)\n"
    for option, target in (("--write", "old"), ("--svg", "old"), ("--write", "link"), ("--write", "new"), ("--write", "zone")):
        due = (1, "", f"zonedump: {target}: {large}")
        check(f"{option} {target} on a full disk", due, run(program, option, target, "zone", folder=place, before=no_large_files))
    check("  what was there stays", (b"OLD", b"MINE", good, ["link", "old", "old.0.tmp", "zone"]),
          ((place / "old").read_bytes(), (place / "old.0.tmp").read_bytes(), (place / "zone").read_bytes(), sorted(os.listdir(place))))
    full = run(program, "--write", "/dev/full", "zone", folder=place)
    check("--write /dev/full", (1, "", "zonedump: /dev/full: No space left on device (os error 28)\n"), full)
    (place / "old").chmod(0o640)
    check("--write through a link", (0, "", ""), run(program, "--write", "link", "zone", folder=place))
    check("  the link, the mode and the other file stay", (True, 0o640, b"MINE"),
          ((place / "link").is_symlink(), (place / "old").stat().st_mode & 0o777, (place / "old.0.tmp").read_bytes()))
    check("  written", good[:5], (place / "old").read_bytes()[:5])
    check("--write onto the file that is read", (0, "", ""), run(program, "--write", "zone", "zone", folder=place))
    check("  its clocks", clocks(folder / "good"), clocks(place / "zone"))
    long = "n" * 255
    check("--write to a long name", (0, "", ""), run(program, "--write", long, "zone", folder=place))
    check("  nothing else is left", sorted(["link", "old", "old.0.tmp", "zone", long]), sorted(os.listdir(place)))
    pipe = run(program, "--write", "/dev/stdout", "zone", folder=place, redirect="| head -c 5")
    check("--write to a pipe", "TZif2", pipe[1])
    try_leftovers(program, place)
    try_readers(program, place)


def try_leftovers(program, place):
    """What killed runs have left is never in the way, and a file that is in the way is named and stays. A file that is replaced
    loses the bits that let others run it as its owner."""
    due = dict.fromkeys([f"old.{number}.tmp" for number in range(1000)], b"MINE")
    for name, data in due.items():
        (place / name).write_bytes(data)
    for option in ("--write", "--svg"):
        check(f"{option} where a thousand runs were killed", (0, "", ""), run(program, option, "old", "zone", folder=place))
    check("  what they left stays", due, {name: (place / name).read_bytes() for name in due})
    for name in due:
        (place / name).unlink()
    (place / "old").chmod(0o6751)
    check("--write to a set-uid file", (0, "", ""), run(program, "--write", "old", "zone", folder=place))
    check("  its mode", 0o751, (place / "old").stat().st_mode & 0o7777)
    whole = (place / "old").read_bytes()
    (place / "sevens.c").write_text("#include <string.h>\nint getentropy(void *p, size_t n) { memset(p, 7, n); return 0; }\n")
    subprocess.run(["cc", "-shared", "-fPIC", "-o", "sevens.so", "sevens.c"], cwd=place, check=True)
    taken = f"old.{int.from_bytes(bytes([7] * 8), 'little')}.tmp"
    (place / taken).write_bytes(b"MINE")
    seven = subprocess.run([str(program), "--write", "old", "zone"], cwd=place, capture_output=True, timeout=SECONDS, text=True,
                           env={**os.environ, "LD_PRELOAD": str(place / "sevens.so")})
    check("--write where a file is in the way", (1, "", f"zonedump: {place.resolve() / taken}: File exists (os error 17)\n"),
          (seven.returncode, seven.stdout, seven.stderr))
    check("  both files stay", (whole, b"MINE"), ((place / "old").read_bytes(), (place / taken).read_bytes()))


def try_readers(program, place):
    """Reads a file while it is written again and again: each time it is whole."""
    whole = (place / "old").read_bytes()
    writes = subprocess.Popen(["sh", "-c", 'i=0; while [ $i -lt 50 ]; do "$0" --write old zone || exit 1; i=$((i+1)); done',
                               str(program)], cwd=place)
    reads, parts = 0, 0
    while writes.poll() is None:
        reads += 1
        parts += (place / "old").read_bytes() != whole
    check("files read while they are written", (0, True, 0), (writes.returncode, reads > 50, parts))


def try_names(program, folder):
    """Arguments that aren't UTF-8."""
    (folder / "caf\udce9").write_bytes((folder / "good").read_bytes())
    one = run(program, "good", folder=folder)[1]
    odd = 'caf\\xe9: the name is not UTF-8\n'
    check("a name that is not UTF-8", (1, one + one, f"zonedump: {odd}"),
          run(program, "good", "caf\udce9", "good", folder=folder))
    for option in ("--write", "--svg"):
        check(f"{option} to one", (1, "", f"zonedump: {odd}"), run(program, option, "caf\udce9", "good", folder=folder))
    check("--text of one", (1, "", "zonedump: A\\xe9B0: not a TZ string: not UTF-8\n"), run(program, "--text", "A\udce9B0"))
    status, output, errors = run(program, "--from", "\udce9", "good", folder=folder)
    check("--from of one", (2, "", True, False), (status, output, "'\\xe9'" in errors, "\0" in errors))
    try_controls(program, folder)


def try_controls(program, folder):
    """Names with characters that control a terminal, end a line or turn text around."""
    name, shown = "a\x1b[31m\nb\x7f\x85\u202eé'\\", "a\\u{1b}[31m\\nb\\u{7f}\\u{85}\\u{202e}é'\\"
    check("a name with controls", (1, "", f"zonedump: {shown}: {NO_NAME}\n"),
          run(program, name, folder=folder))
    (folder / name).write_bytes(b"TZig" + bytes(60))
    check("  of a wrong file", refused(shown, MAGIC), run(program, name, folder=folder))
    (folder / name).write_bytes((folder / "good").read_bytes())
    year = ("--from", "2021", "--to", "2021")
    table = run(program, *year, "good", folder=folder)[1].removeprefix("good")
    check("  of a table", (0, shown + table, ""), run(program, *year, name, folder=folder))
    lines = run(program, *year, "--zdump", "good", folder=folder)[1]
    check("  of the lines of zdump", (0, re.sub("(?m)^good", lambda _: shown, lines), ""),
          run(program, *year, "--zdump", name, folder=folder))
    check("  of JSON", name, json.loads(run(program, *year, "--json", name, folder=folder)[1])["zone"])
    check("  to be written", (1, "", f"zonedump: none/{shown}: No such file or directory (os error 2)\n"),
          run(program, "--write", f"none/{name}", "good", folder=folder))
    for text in (f"--text={name}", f"--from={name}", f"--{name}"):
        status, output, errors = run(program, text, folder=folder)
        check(f"  in {text!r}", (True, "", False), (status > 0, output, any(letter in errors for letter in "\x1b\x7f\x85\u202e")))
    (folder / "odd").mkdir()
    (folder / "odd" / name).write_bytes((folder / "good").read_bytes())
    (folder / "even").mkdir()
    check("  of a lone zone", (1, f"{shown}: only in odd\n", ""), run(program, "--diff", "odd", "even", folder=folder))
    run(program, "--write", f"even/{name}", "--text", "EST5EDT,M3.2.0,M11.1.0", folder=folder)
    check("  of a zone that differs", shown, run(program, "--diff", "odd", "even", folder=folder)[1].split("\n")[0])


def try_empty(program):
    """What a table calls the zone of an empty TZ string, which is UTC."""
    check("--text ''", "''", run(program, "--text", "")[1].split("\n")[0])


def try_closed(program, folder):
    """A standard output that nobody reads ends a run without a word, and the status of what came before. That of --diff still says
    whether the zones differ."""
    for words in (["good"], ["good", "good"], ["--json", "good"], ["--zdump", "good"], ["--text", "UTC0"], ["--help"], ["--version"]):
        check(f"{' '.join(words)}, unread", (0, ""), unread(program, *words, folder=folder))
    missing = f"zonedump: missing: {UNKNOWN}\n"
    check("a missing file and a good one, unread", (1, missing), unread(program, "missing", "good", folder=folder))
    check("--diff, unread", (1, ""), unread(program, "--diff", "good", "new", folder=folder))
    check("--json --diff of one file, unread", (0, ""), unread(program, "--json", "--diff", "good", "good", folder=folder))
    broken = "zonedump: after/moved: not a TZif file: "
    status, errors = unread(program, "--diff", "before", "after", folder=folder)
    check("--diff of folders, unread", (2, True), (status, errors.startswith(broken)))


def try_extended(program, folder):
    """TZ strings with extensions, which are those of RFC 8536, section 3.3.1."""
    text = "<-03>3<-02>,M3.5.0/-2,M10.5.0/-1"
    year = ["--from", "2021", "--to", "2021"]
    status, output, errors = run(program, "--json", *year, "--extended", "--text", text)
    told = json.loads(output)
    check("--extended", (0, "", -7200, -3600), (status, errors, told["rule"]["start"]["time"], told["rule"]["end"]["time"]))
    # 01:00 UTC of the last Sundays of March and October, as in all of Europe
    check("  its changes", [1616893200, 1635642000],
          [change["at"] for change in told["changes"]])
    check("  without it", 1, run(program, "--text", text)[0])
    check("  written", (0, "", ""), run(program, "--write", "extended", "--extended", "--text", text, folder=folder))
    check("  its version and footer", (b"TZif3", f"\n{text}\n".encode()),
          ((folder / "extended").read_bytes()[:5], (folder / "extended").read_bytes()[-len(text) - 2:]))


def differing(old, new, year):
    """The stretches of a year in which two files differ in offset or abbreviation, found with zoneinfo at each quarter of an hour."""
    begin, end = second_of(year), second_of(year + 1)
    with open(old, "rb") as file, open(new, "rb") as other:
        zones = [ZoneInfo.from_file(file), ZoneInfo.from_file(other)]
    found, last = [], None
    for second in range(begin, end, 900):
        times = [datetime.fromtimestamp(second, zone) for zone in zones]
        pair = tuple((time.utcoffset().total_seconds(), time.tzname()) for time in times)
        if pair != last and pair[0] != pair[1]:
            found.append([second, second, *pair])
        if pair[0] != pair[1]:
            found[-1][1] = second + 900
        last = pair
    return found


def try_folders(program, folder, line):
    """Two folders are compared zone by zone, also in folders below, in the order of their names."""
    years = ("--from", "2021", "--to", "2021")
    for name, file in (("before/a/same", "good"), ("after/a/same", "good"), ("before/moved", "good"), ("after/moved", "new"),
                       ("before/gone", "good"), ("after/b/added", "new")):
        (folder / name).parent.mkdir(parents=True, exist_ok=True)
        (folder / name).write_bytes((folder / file).read_bytes())
    for name in ("before/README", "after/README"):
        (folder / name).write_text("no zone\n")
    lines = f"b/added: only in after\ngone: only in before\nmoved\n{line}"
    check("--diff of two folders", (1, lines, ""), run(program, *years, "--diff", "before", "after", folder=folder))
    check("--diff of one folder", (0, "", ""), run(program, *years, "--diff", "before", "before", folder=folder))
    status, output, errors = run(program, *years, "--json", "--diff", "before", "after", folder=folder)
    told = [json.loads(each) for each in output.splitlines()]
    check("--json --diff of two folders", (1, "", [{"only": "after/b/added"}, {"only": "before/gone"}]), (status, errors, told[:2]))
    check("the zone that differs", [("before/moved", "after/moved", [-3600])],
          [(each["old"], each["new"], [d["moved"] for d in each["differences"]]) for each in told[2:]])
    for words in (("good", "before"), ("before", "good")):
        why = f"{TWO} (before is a folder, good is not)\n"
        check(f"--diff of {' and '.join(words)}", (2, "", why), run(program, "--diff", *words, folder=folder))
    why = f"zonedump: missing: {UNKNOWN}\n"
    for words in (("good", "missing"), ("before", "missing"), ("missing", "before")):
        check(f"--diff of {' and '.join(words)}", (2, "", why), run(program, "--diff", *words, folder=folder))
    check("--diff of two that are missing", (2, "", why + why), run(program, "--diff", "missing", "missing", folder=folder))
    try_no_zones(program, folder, years, lines)
    try_unreadable(program, folder, years, lines)
    (folder / "after/moved").write_bytes((folder / "good").read_bytes()[:60])
    status, output, errors = run(program, *years, "--diff", "before", "after", folder=folder)
    check("--diff of folders with a broken file", (2, "b/added: only in after\ngone: only in before\n", True),
          (status, output, errors.startswith("zonedump: after/moved: not a TZif file: ")))


def try_no_zones(program, folder, years, lines):
    """A file that doesn't begin as a TZif file is not read, however large it is: reading these would take minutes."""
    (folder / "before/large").hardlink_to(folder / "large")
    for side in ("before", "after"):
        (folder / side / "many").mkdir()
        (folder / side / "tiny").write_bytes(b"TZi")
        for number in range(1000):
            (folder / side / "many" / str(number)).hardlink_to(folder / "limit")
    check("--diff of folders with large files", (1, lines, ""), run(program, *years, "--diff", "before", "after", folder=folder))
    with open(folder / "after/large", "wb") as large:
        large.write(b"TZif")
        large.truncate(LIMIT + 1)
    check("  one of which begins as a zone", (1, lines.replace("moved\n", "large: only in after\nmoved\n"), ""),
          run(program, *years, "--diff", "before", "after", folder=folder))
    shutil.copyfile(folder / "after/large", folder / "before/great")
    shutil.copyfile(folder / "after/large", folder / "after/great")
    check("  which is too large to be read", (2, "".join(f"zonedump: {side}/great: larger than 64 MiB\n" for side in ("before", "after"))),
          run(program, *years, "--diff", "before", "after", folder=folder)[::2])
    for name in ("before/large", "before/tiny", "before/great", "after/large", "after/tiny", "after/great"):
        (folder / name).unlink()
    for side in ("before", "after"):
        shutil.rmtree(folder / side / "many")


def try_unreadable(program, folder, years, lines):
    """What can't be read in a folder is reported by name, and the rest is compared. A zone is only in one folder if the other one
    could be read there."""
    good = (folder / "good").read_bytes()
    for name in ("before/caf\udce9", "before/caf\udce9.d/x", "before/shut/x", "after/shut/x", "before/locked", "after/locked", "after/loop"):
        (folder / name).parent.mkdir(exist_ok=True)
        (folder / name).write_bytes(good)
    (folder / "before/loop").symlink_to("loop")
    (folder / "before/shut").chmod(0)
    (folder / "before/locked").chmod(0)
    folder.chmod(0o755)
    copied = folder / "program"
    shutil.copy(program, copied)
    status, output, errors = run(copied, *years, "--diff", "before", "after", folder=folder, before=as_nobody)
    check("--diff of folders with what can't be read", (2, lines, sorted([
        "zonedump: before/caf\\xe9: the name is not UTF-8",
        "zonedump: before/caf\\xe9.d: the name is not UTF-8",
        "zonedump: before/locked: Permission denied (os error 13)",
        "zonedump: before/loop: Too many levels of symbolic links (os error 40)",
        "zonedump: before/shut: Permission denied (os error 13)",
    ])), (status, output, sorted(errors.splitlines())))
    (folder / "before/shut").chmod(0o755)
    shut = folder / "none"
    shut.mkdir(0)
    check("  a whole folder", (2, "", "zonedump: none: Permission denied (os error 13)\n"),
          run(copied, *years, "--diff", "none", "after", folder=folder, before=as_nobody))
    shut.rmdir()
    for name in ("before/caf\udce9", "before/locked", "after/locked", "before/loop", "after/loop"):
        (folder / name).unlink()
    for name in ("before/caf\udce9.d", "before/shut", "after/shut"):
        shutil.rmtree(folder / name)


def try_diff(program, folder):
    """The differences of two files are those that zoneinfo shows, as lines and as JSON, and the status is that of diff."""
    check("a file for --diff", 0, run(program, "--write", "new", "--text", "EST5", folder=folder)[0])
    years = ["--from", "2021", "--to", "2021"]
    line = "2021-03-14 07:00:00 to 2021-11-07 06:00:00 UTC  -04:00 dst EDT -> -05:00 std EST  moved by -3600 s\n"
    check("--diff", (1, line, ""), run(program, *years, "--diff", "good", "new", folder=folder))
    check("--diff of one file", (0, "", ""), run(program, *years, "--diff", "good", "good", folder=folder))
    status, output, errors = run(program, *years, "--json", "--diff", "good", "new", folder=folder)
    told = json.loads(output)
    stretches = [[d["from"], d["until"], *((d[side]["offset"], d[side]["name"]) for side in ("old", "new"))]
                 for d in told["differences"]]
    check("--json --diff", (1, "", differing(folder / "good", folder / "new", 2021)), (status, errors, stretches))
    check("seconds moved", [-3600], [d["moved"] for d in told["differences"]])
    status, output, errors = run(program, *years, "--json", "--diff", "good", "good", folder=folder)
    check("--json --diff of one file", (0, "", []), (status, errors, json.loads(output)["differences"]))
    for words in (["-", "new"], ["good", "-"]):
        with open(folder / ("good" if words[0] == "-" else "new"), "rb") as given:
            ended = subprocess.run([str(program), *years, "--diff", *words], cwd=folder, stdin=given, capture_output=True, text=True)
        check(f"--diff {' '.join(words)}", (1, line, ""), (ended.returncode, ended.stdout, ended.stderr))
    check("--diff with one file", (2, "", f"{TWO}\n"),
          run(program, "--diff", "good", folder=folder))
    try_folders(program, folder, line)
    check("--diff with --svg", (2, ""), run(program, "--svg", "new.svg", "--diff", "good", "new", folder=folder)[:2])


def try_record(program, folder, line):
    """The record of the proof that a release installs is printed after the version."""
    for name in ("prefix/bin", "prefix/share/zoned"):
        (folder / name).mkdir(parents=True)
    copied = shutil.copy(program, folder / "prefix/bin/zonedump")
    check("--version of a program that is copied", (0, line, ""), run(copied, "--version"))
    (folder / "prefix/share/zoned/proof.json").write_text('{"kit": "rattle"}\n')
    check("  with the record of the proof", (0, line + '{"kit": "rattle"}\n', ""), run(copied, "--version"))


def try_help_examples(program, folder, text):
    """Each example of --help and of the man page does what it says."""
    examples = re.findall(r"(?m)^  (zonedump .*?)(?:  +.*)?$", text.split("Examples:\n")[1])
    page = (HERE / "crates/zoned_ffi/install/zonedump.1").read_text().split(".SH EXAMPLES\n.nf\n")[1].split("\n.fi")[0]
    check("  the examples of the man page", examples, page.replace("\\-", "-").splitlines())
    for side, offset in (("OLD", 5), ("NEW", 6)):
        (folder / side).mkdir()
        run(program, "--write", f"{side}/Zone", "--text", f"AAA{offset}", folder=folder)
    for example in examples:
        status, output, errors = run(program, *shlex.split(example)[1:], folder=folder)
        made = (folder / "paris.svg").exists() if "--svg" in example else output != ""
        check(f"  {example}", (int("--diff" in example), True, ""), (status, made, errors))


def try_help(program, folder):
    """What --help and --version say."""
    status, output, errors = run(program, "--help")
    check("--help", (0, "", True), (status, errors, all(word in output for word in HELP)))
    version = re.search(r'version__ = "(.*)"', (HERE / "python/src/sahvumbi/_version.py").read_text()).group(1)
    kit, logic = re.search(r"`(rattle-kit-\d+)`, `(logic \w+)`", (HERE / "README.md").read_text()).groups()
    line = f"zonedump {version} (proved with {kit}, {logic})\n"
    check("--version", (0, line, ""), run(program, "--version"))
    try_record(program, folder, line)
    check("-h and -V", [(0, output, ""), (0, line, "")], [run(program, "-h"), run(program, "-V")])
    check("no arguments name --text", True, "--text TZ" in run(program)[2])
    try_help_examples(program, folder, output)
    options = set(re.findall(r"--[a-z]+", re.search(r"(?s)Options:\n(.*?)\n\n", output).group(1)))
    forms = {"zonedump.1": r"\\-\\-([a-z]+)", "zonedump.bash": r"--([a-z]+)", "zonedump.zsh": r"--([a-z]+)", "zonedump.fish": r" -l ([a-z]+)"}
    for name, form in forms.items():
        text = (HERE / "crates/zoned_ffi/install" / name).read_text()
        check(f"  the options of {name}", options, {f"--{option}" for option in re.findall(form, text)})


def shapes(picture, name):
    """The shapes and texts of that class in a picture."""
    return [shape for shape in ElementTree.fromstring(picture).iter() if name in shape.get("class", "").split()]


def second_of(year, month=1, day=1):
    return int(datetime(year, month, day, tzinfo=timezone.utc).timestamp())


def seconds_of_tick(words):
    """The offset that a tick has: `UTC`, `UTC-5`, `UTC+5:45`."""
    sign, *parts = re.match(r"UTC([+-]?)(\d*):?(\d*):?(\d*)$", words).groups()
    return (-1 if sign == "-" else 1) * sum(int(part or 0) * unit for part, unit in zip(parts, (3600, 60, 1)))


def wrong_steps(picture, zone, seconds, start, until):
    """The clock changes that are neither a step of the line nor in a band, and the steps at which clocks don't change: by
    zoneinfo's offsets, the ticks of the picture and the sides of its chart."""
    ticks = sorted((seconds_of_tick(tick.text), float(tick.get("y")) - 4) for tick in shapes(picture, "end"))
    (low, bottom), (high, top) = ticks[0], ticks[-1]
    # A local time that is shown more than once has the offset of one of its instants, so the offset is the difference to UTC.
    shown = lambda second: datetime.fromtimestamp(second, zone).replace(tzinfo=None) - datetime(1970, 1, 1)
    offsets = [int(shown(second).total_seconds()) - second for second in [start, *seconds]]
    across = [90 + 780 * (second - start) / (until - start) for second in seconds]
    down = [top + (high - offset) * (bottom - top) / (high - low or 1) for offset in offsets]
    due = [(x, before, after) for x, before, after in zip(across, down, down[1:]) if before != after]
    line, = shapes(picture, "line")
    steps = [tuple(map(float, step)) for step in re.findall(r"M([\d.]+) ([\d.]+)V([\d.]+)", line.get("d"))]
    bands = [[float(band.get(side)) for side in ("x", "y", "width", "height")] for band in shapes(picture, "dense")]
    near = lambda one, other: all(abs(a - b) < 0.2 for a, b in zip(one, other))
    inside = lambda x, *ys: any(
        left - 0.2 < x < left + width + 0.2 and all(y - 0.2 < each < y + height + 0.2 for each in ys) for left, y, width, height in bands
    )
    missed = [change for change in due if not inside(*change) and not any(near(change, step) for step in steps)]
    return missed + [step for step in steps if not any(near(change, step) for change in due)]


def clocks_due(table):
    """What the panels of a picture say for the changes of a table: before, after, and in UTC."""
    form = r"(\S+ \S+ UTC)  (\S+ \S+) \S+ \w+ (\S+) -> (\S+ \S+) \S+ \w+ (\S+)  "
    changes = [re.match(form, line).groups() for line in table.splitlines() if " UTC  " in line]
    return sorted(word for c in changes for word in (c[0], f"{c[1]} {c[2]}", f"{c[3]} {c[4]}"))


def try_svg(program, folder):
    """Pictures, and what isn't drawn."""
    data = STORED / "data"
    year = ["--from", "2021", "--to", "2021"]
    for colors, stored in (("light", "new_york_2021.svg"), ("dark", "new_york_2021_dark.svg")):
        drawn = run(program, *year, "--svg", str(folder / "picture"), "--colors", colors, "America/New_York")
        check(f"--svg --colors {colors}", (0, "", ""), drawn)
        picture = (folder / "picture").read_bytes()
        check("  the picture in docs/", (HERE / "docs" / stored).read_bytes(), picture)
    check("--svg -", (0, True, ""), (lambda s, o, e: (s, "prefers-color-scheme" in o, e))(
        *run(program, *year, "--svg", "-", "New_York", folder=data)))
    description, = [part.text for part in ElementTree.fromstring(picture).iter() if part.tag.endswith("}desc")]
    check("  its description", True, "gap of 1 h at 2021-03-14 07:00:00 UTC. fold of 1 h at 2021-11-07 06:00:00 UTC." in description)
    check("  the answers in its bands", ["None", "Ambiguous(EDT, EST)"], [text.text for text in shapes(picture, "answer")])
    whole = run(program, "--svg", "-", "America/New_York")[1].encode()
    titles = [title.text for title in shapes(whole, "title")], [note.text for note in shapes(whole, "note")][:1]
    check("  of a zone by name", (["America/New_York"], ["offset from UTC in 2020 to 2030"]), titles)
    path = run(program, "--svg", "-", f"{DATABASE}/Asia/Tokyo")[1].encode()
    titles = [title.text for title in shapes(path, "title")], [note.text for note in shapes(path, "note")][:1]
    check("  of a path in the database", (["Asia/Tokyo"], ["offset from UTC in 1951"]), titles)
    table = run(program, *year, "New_York", folder=data)[1]
    clocks_shown = [text.text for text in shapes(picture, "clock")]
    seconds_shown = [text.text for text in shapes(picture, "middle") if text.text.endswith(" UTC")]
    check("  its clocks", clocks_due(table), sorted(clocks_shown + seconds_shown))
    check("  its panels", ["gap of 1 h", "fold of 1 h"], [text.text for text in shapes(picture, "what")])
    with open(data / "New_York", "rb") as file:
        zone = ZoneInfo.from_file(file)
    for first, last in ((2021, 2021), (1900, 2037), (1500, 3000)):
        span = ["--from", str(first), "--to", str(last)]
        run(program, *span, "--svg", "line", "good", folder=folder)
        seconds = seconds_of_table(run(program, *span, "good", folder=folder)[1])
        check(f"  its line from {first} to {last}", [], wrong_steps((folder / "line").read_bytes(), zone, seconds, second_of(first), second_of(last + 1)))
    for words, heading, panels in ((["--from", "2019", "--to", "2030"], "2019 to 2030", 24), (["--from", "2018", "--to", "2030"], "2030", 2), ([], "2030", 2)):
        many = run(program, "--svg", "-", *words, "America/New_York")[1].encode()
        check(f"  its panels with {' '.join(words) or 'no years'}", (True, panels),
              ([text.text for text in shapes(many, "head")][0].startswith(f"{heading}: "), len(shapes(many, "what"))))
    text = "<-03>3<-02>,M3.5.0/22,M10.5.0/23:30"
    check("--svg of a text", (0, "", ""), run(program, *year, "--svg", "by_text", "--text", text, folder=folder))
    check("  its title", [text], [title.text for title in shapes((folder / "by_text").read_bytes(), "title")])
    check("--svg of a wrong file", refused("zip", MAGIC), run(program, "--svg", "picture", "zip", folder=folder))
    check("  what was there stays", picture, (folder / "picture").read_bytes())
    status, output, errors = run(program, "--svg", "folder", "good", folder=folder)
    check("--svg into a folder", (1, "", True), (status, output, errors.startswith("zonedump: folder: ")))
    check("--svg of two files", (2, "", ONE_ZONE.format("svg")), run(program, "--svg", "picture", "good", "limit", folder=folder))
    check("  what was there stays", picture, (folder / "picture").read_bytes())


def try_zone_names(program, folder):
    """Zones by name, which never lead out of the folder of the database."""
    known = run(program, f"{DATABASE}/Europe/Paris")[1].split("\n", 1)[1]
    check("a zone by name", (0, f"Europe/Paris\n{known}", ""), run(program, "Europe/Paris", folder=folder))
    two = run(program, "Europe/Paris", "Asia/Tokyo")
    check("two zones by name", (0, 2, ""), (two[0], len(re.findall("(?m)^rule:", two[1])), two[2]))
    place = folder / "database"
    (place / "Here").mkdir(parents=True)
    (place / "Here" / "Now").write_bytes((folder / "good").read_bytes())
    good = run(program, "good", folder=folder)[1].split("\n", 1)[1]
    check("--tzdir", (0, f"Here/Now\n{good}", ""), run(program, "--tzdir", str(place), "Here/Now"))
    os.environ["TZDIR"] = str(place)
    check("TZDIR", (0, f"Here/Now\n{good}", ""), run(program, "Here/Now"))
    check("  has not the others", refused("Asia/Tokyo", NO_ZONE.format(place)), run(program, "Asia/Tokyo"))
    del os.environ["TZDIR"]
    for name in ("../good", "Here/../../good", "./Here/Now", "Here//Now", "Here/", "Here"):
        status, output, errors = run(program, "--tzdir", str(place), name, folder=place.parent.parent)
        check(f"  {name} is no name", (1, "", True), (status, output, "no such file" in errors))
    given = subprocess.run([str(program), "-"], stdin=open(folder / "good", "rb"), capture_output=True, text=True)
    check("standard input", (0, f"-\n{good}", ""), (given.returncode, given.stdout, given.stderr))
    copied = subprocess.run([str(program), "--write", "-", "good"], cwd=folder, capture_output=True)
    check("standard output", (0, b"TZif2"), (copied.returncode, copied.stdout[:5]))


def changes_due(name, start, until):
    """The seconds from `start` on and before `until` at which zoneinfo changes offset or abbreviation, found at each quarter of an
    hour."""
    shown = lambda second: (lambda time: (time.utcoffset(), time.tzname()))(datetime.fromtimestamp(second, ZoneInfo(name)))
    return [second for second in range(start, until, 900) if shown(second) != shown(second - 1)]


# The first and the last year or date of a list, its first second and the one after it.
PERIODS = (
    ("2026-03-29", "2026-03-29", second_of(2026, 3, 29), second_of(2026, 3, 30)),
    ("2026-03-30", "2026-10-24", second_of(2026, 3, 30), second_of(2026, 10, 25)),
    ("2025-10-26", "2026-03-28", second_of(2025, 10, 26), second_of(2026, 3, 29)),
    ("2026-03-01", "2027", second_of(2026, 3), second_of(2028)),
    ("2024", "2026-10-25", second_of(2024), second_of(2026, 10, 26)),
    ("2024-02-29", "2024-12-31", second_of(2024, 2, 29), second_of(2025)),
)


def try_dates(program, folder):
    """Years and dates of --from and --to: what is listed, compared and drawn is what zoneinfo has in them."""
    name = "Europe/Paris"
    for first, last, start, until in PERIODS:
        due, words = changes_due(name, start, until), ["--from", first, "--to", last]
        table = run(program, *words, name)
        check(" ".join(words), (0, f"changes from {first} to {last}: {len(due)}", due, ""),
              (table[0], table[1].splitlines()[3], seconds_of_table(table[1]), table[2]))
        told = json.loads(run(program, "--json", *words, name)[1])
        ends = [int(text) if text.isdigit() else text for text in (first, last)]
        check("  as JSON", (ends, due), ([told["from"], told["to"]], [change["at"] for change in told["changes"]]))
        lines = run(program, "--zdump", *words, name)[1].splitlines()
        pairs = [line.split(" UT = ")[0].split("  ", 1)[1] for line in lines[2:-2]]
        check("  as zdump", [time.strftime("%a %b %e %H:%M:%S %Y") for second in due for time in
                             (datetime.fromtimestamp(second - 1, timezone.utc), datetime.fromtimestamp(second, timezone.utc))], pairs)
        picture = run(program, "--svg", "-", *words, name)[1].encode()
        check("  as a picture", [], wrong_steps(picture, ZoneInfo(name), due, start, until))
        span = first if first == last else f"{first} to {last}"
        check("  its title", f"offset from UTC in {span}", [note.text for note in shapes(picture, "note")][0])
    line = "2021-03-14 07:00:00 to 2021-03-15 00:00:00 UTC  -04:00 dst EDT -> -05:00 std EST  moved by -3600 s\n"
    check("--diff of a day", (1, line, ""), run(program, "--from", "2021-03-14", "--to", "2021-03-14", "--diff", "good", "new", folder=folder))
    check("  of the day before", (0, "", ""), run(program, "--from", "2021-03-13", "--to", "2021-03-13", "--diff", "good", "new", folder=folder))
    for first, last in (("0001-01-01", "9999-12-31"), ("0001", "9999")):
        told = json.loads(run(program, "--json", "--from", first, "--to", last, "--text", "UTC0")[1])
        check(f"--from {first} --to {last}", [], told["changes"])


def try_at(program):
    """What clocks show at times, as zoneinfo has it."""
    names = ("Europe/Paris", "Asia/Tokyo", "America/New_York", "Australia/Lord_Howe", "Asia/Kathmandu", "Africa/Casablanca")
    for second in range(-1_200_000_000, 2_100_000_000, 123_456_789):
        due = ""
        for name in names:
            time = datetime.fromtimestamp(second, ZoneInfo(name))
            offset = f"{time:%z}"
            due += f"{name}  {time:%Y-%m-%d %H:%M:%S} {offset[:3]}:{offset[3:]} {time.tzname()}\n"
        status, output, errors = run(program, "--at", f"@{second}", *names)
        shown = re.sub(r"(?m)( [+-]\d\d:\d\d(?::\d\d)?) \w+ (\S+), .*$", r"\1 \2", output)
        check(f"--at @{second}", (0, due, ""), (status, shown, errors))
    check("--at of a minute", (0, "Asia/Tokyo  2026-11-01 18:00:00 +09:00 std JST, with no later change\n", ""),
          run(program, "--at", "2026-11-01T09:00", "Asia/Tokyo"))
    check("  with seconds and Z", (0, "Europe/Paris  2026-11-01 10:00:30 +01:00 std CET, until 2027-03-28 01:00:00 UTC\n", ""),
          run(program, "--at", "2026-11-01T09:00:30Z", "Europe/Paris"))
    for time in ("2026-11-01T09:00Z", "2026-11-01 09:00", "2026-11-01T10:00+01:00", "2026-11-01T03:30-05:30", "2026-10-31T23:00:00-10:00"):
        check(f"  of {time}", (0, "Asia/Tokyo  2026-11-01 18:00:00 +09:00 std JST, with no later change\n", ""), run(program, "--at", time, "Asia/Tokyo"))
    for time, name, words in LOCAL_TIMES:
        check(f"--local {time} {name}", (0, f"{name}  {words}\n", ""), run(program, "--at", time, "--local", name))


def try_summary(program, folder):
    """The differences of two folders in few lines, and which stored times move."""
    (folder / "after/moved").write_bytes((folder / "new").read_bytes())
    for side in ("before", "after"):
        (folder / side / "right").mkdir()
        (folder / side / "right" / "moved").write_bytes((folder / side / "moved").read_bytes())
        (folder / side / "again").write_bytes((folder / side / "moved").read_bytes())
    years = ("--from", "2021", "--to", "2023")
    due = ("again, moved\n"
           "  2021-03-14 07:00:00 to 2021-11-07 06:00:00 UTC: clocks are 60 min back, -04:00 dst EDT becomes -05:00 std EST, and 2 more\n"
           "only in before: gone\nonly in after: b/added\n"
           "zones that differ: 2 of 3; only in before: 1; only in after: 1\n")
    check("--summary", (1, due, ""), run(program, *years, "--diff", "before", "after", "--summary", folder=folder))
    check("  of one folder", (0, "zones that differ: 0 of 4; only in before: 0; only in before: 0\n", ""),
          run(program, *years, "--diff", "before", "before", "--summary", folder=folder))
    check("  of two files", (1, "zones that differ: 1 of 1; only in good: 0; only in new: 0\n"),
          (lambda s, o, e: (s, o.splitlines(True)[-1]))(*run(program, *years, "--diff", "good", "new", "--summary", folder=folder)))
    due = "moved\n" + due.splitlines(True)[1] + "zones that differ: 1 of 1; only in before/right: 0; only in after/right: 0\n"
    check("  of right/ by name", (1, due, ""), run(program, *years, "--diff", "before/right", "after/right", "--summary", folder=folder))
    names = [line for line in run(program, *years, "--diff", "before", "after", folder=folder)[1].splitlines() if not line.startswith("2")]
    check("  and without --summary", ["again", "b/added: only in after", "gone: only in before", "moved", "right/moved"], names)
    times = "2021-07-01T12:00,moved\n2021-12-01T12:00 moved\n\n2021-07-01T12:00Z moved\n2021-07-01 12:00:00,a/same\n2021-07-01T14:00+02:00,moved\n"
    (folder / "times").write_text(times)
    due = ("2021-07-01T12:00,moved: 2021-07-01 16:00:00 UTC becomes 2021-07-01 17:00:00 UTC\n"
           "2021-07-01T12:00Z moved: 2021-07-01 08:00:00 becomes 2021-07-01 07:00:00\n"
           "2021-07-01T14:00+02:00,moved: 2021-07-01 08:00:00 becomes 2021-07-01 07:00:00\n"
           "times that move: 3 of 5\n")
    check("--times", (1, due, ""), run(program, "--diff", "before", "after", "--times", "times", folder=folder))
    given = subprocess.run([str(program), "--diff", "before", "after", "--times", "-"], cwd=folder, input=times, capture_output=True, text=True)
    check("  of standard input", (1, due, ""), (given.returncode, given.stdout, given.stderr))
    (folder / "times").write_text("2021-03-14T02:30\n2021-11-07T01:30\n2021-12-01\n")
    due = ("2021-03-14T02:30: never (a gap at 2021-03-14 07:00:00 UTC) becomes 2021-03-14 07:30:00 UTC\n"
           "2021-11-07T01:30: 2021-11-07 05:30:00 or 2021-11-07 06:30:00 UTC becomes 2021-11-07 06:30:00 UTC\n"
           "times that move: 2 of 3\n")
    check("  of two files", (1, due, ""), run(program, "--diff", "good", "new", "--times", "times", folder=folder))
    (folder / "times").write_text("soon,moved\n2021-07-01T12:00,../good\n2021-07-01T12:00,none\n2021-12-01T12:00,moved\n")
    none = "name one after the time, as in 2026-11-01T09:00,Europe/Paris"
    due = ("zonedump: line 1: not a time like 2026-11-01T09:00 or 2026-11-01T09:00Z: soon,moved\n"
           f"zonedump: line 2: before has no zone ../good; {none}\nzonedump: line 3: before has no zone none; {none}\n")
    check("  with lines that aren't times", (2, "times that move: 0 of 4\n", due),
          run(program, "--diff", "before", "after", "--times", "times", folder=folder))


def fits(value, form, forms):
    """Whether a value fits a form of the JSON schema, of the words that the schema uses."""
    kinds = {"object": dict, "array": list, "string": str, "integer": int, "boolean": bool, "null": type(None)}
    if "$ref" in form:
        return fits(value, forms[form["$ref"].rsplit("/", 1)[1]], forms)
    if "oneOf" in form:
        return sum(fits(value, each, forms) for each in form["oneOf"]) == 1
    if "enum" in form:
        return value in form["enum"]
    names = form["type"] if isinstance(form["type"], list) else [form["type"]]
    if type(value) not in [kinds[name] for name in names]:
        return False
    if isinstance(value, dict):
        known = form["properties"]
        return set(form["required"]) <= set(value) <= set(known) and all(fits(value[name], known[name], forms) for name in value)
    if isinstance(value, list):
        return all(fits(each, form["items"], forms) for each in value)
    if isinstance(value, str):
        return re.fullmatch(form.get("pattern", "(?s).*"), value) is not None
    return not isinstance(value, int) or form.get("minimum", value) <= value <= form.get("maximum", value)


def try_schema(program, folder):
    """Each line of JSON fits the schema in docs/, and wrong ones don't."""
    schema = json.loads((HERE / "docs/zonedump.schema.json").read_text())
    names = sorted(str(path) for path in Path(DATABASE).glob("*/*") if path.is_file() and path.read_bytes()[:4] == b"TZif")
    lines = run(program, "--json", *names)[1].splitlines() + run(program, "--json", "--text", "EST5EDT,J60/2,300/2")[1].splitlines()
    for words in (["--diff", "before", "after"], ["--from", "2021-03-14", "--to", "2021-11-07", "--diff", "before", "after"], ["--from", "2021-03-14", "good"]):
        lines += run(program, "--json", *words, folder=folder)[1].splitlines()
    check("JSON fits its schema", (True, []),
          (len(lines) > 300, [line[:80] for line in lines if not fits(json.loads(line), schema, schema["$defs"])]))
    whole = json.loads(lines[0])
    wrong = [{**whole, "from": 0}, {**whole, "to": "2026-3-1"}, {**whole, "also": 1}, {**whole, "rule": {}}, {name: whole[name] for name in whole if name != "types"}]
    check("  and what is wrong doesn't", [], [each for each in wrong if fits(each, schema, schema["$defs"])])


def try_wrong_uses(program, folder):
    """What a new user may type: the answer says what to type."""
    for words, status, sentences in WRONG_USES:
        found, output, errors = run(program, *shlex.split(words)[1:], folder=folder)
        usage = re.compile(r"(?m)^(?:Usage: .*\n(?: {7}.*\n)*|\n)")
        check(words, (status, "", f"{sentences}\n"), (found, output, usage.sub("", errors)))


FAULTS = r"""
#define _GNU_SOURCE
#include <dlfcn.h>
#include <errno.h>
#include <fcntl.h>
#include <stdarg.h>
#include <stdlib.h>
#include <string.h>
#include <sys/stat.h>
#include <sys/syscall.h>
#include <unistd.h>
static int fails(const char *name) {
    static long calls;
    if (++calls != atol(getenv("FAIL_AT"))) return 0;
    int file = (int)syscall(SYS_openat, AT_FDCWD, getenv("FAILED"), O_CREAT | O_WRONLY | O_TRUNC, 0600);
    syscall(SYS_write, file, name, strlen(name));
    syscall(SYS_close, file);
    return errno = EIO;
}
int openat(int folder, const char *path, int flags, ...) {
    va_list more; va_start(more, flags); int mode = va_arg(more, int); va_end(more);
    return fails("open") ? -1 : (int)syscall(SYS_openat, folder, path, flags, mode);
}
int open(const char *path, int flags, ...) {
    va_list more; va_start(more, flags); int mode = va_arg(more, int); va_end(more);
    return openat(AT_FDCWD, path, flags, mode);
}
#define CALL(type, name, parameters, ...) \
    type name parameters { return fails(#name) ? -1 : (type)syscall(SYS_##name, __VA_ARGS__); }
CALL(ssize_t, read, (int file, void *to, size_t room), file, to, room)
CALL(ssize_t, write, (int file, const void *from, size_t size), file, from, size)
CALL(ssize_t, getdents64, (int file, void *to, size_t room), file, to, room)
CALL(int, statx, (int folder, const char *restrict path, int flags, unsigned mask, struct statx *restrict to), folder, path, flags, mask, to)
CALL(int, fsync, (int file), file)
CALL(int, fchmod, (int file, mode_t mode), file, mode)
CALL(int, rename, (const char *old, const char *new), old, new)
CALL(int, renameat, (int old_folder, const char *old, int new_folder, const char *new), old_folder, old, new_folder, new)
CALL(int, unlink, (const char *path), path)
CALL(int, unlinkat, (int folder, const char *path, int flags), folder, path, flags)
CALL(ssize_t, readlink, (const char *restrict path, char *restrict to, size_t room), path, to, room)
CALL(ssize_t, readlinkat, (int folder, const char *restrict path, char *restrict to, size_t room), folder, path, to, room)
char *realpath(const char *restrict path, char *restrict to) {
    if (fails("realpath")) return NULL;
    return ((char *(*)(const char *, char *))dlsym(RTLD_NEXT, "realpath"))(path, to);
}
int getentropy(void *to, size_t size) { return fails("getentropy") ? -1 : (syscall(SYS_getrandom, to, size, 0) == (long)size ? 0 : -1); }
"""


def runs_with_faults(program, words, folder, reset=lambda: None):
    """Runs the program again and again, each time with the next system call failing: gives the call, the status, output and error text,
    until no call fails."""
    failed = folder / "failed"
    for number in range(1, 2000):
        failed.unlink(missing_ok=True)
        reset()
        environment = {**os.environ, "LD_PRELOAD": str(folder / "faults.so"), "FAIL_AT": str(number), "FAILED": str(failed)}
        ran = subprocess.run([str(program), *words], cwd=folder, env=environment, capture_output=True, text=True, timeout=SECONDS)
        if not failed.exists():
            return
        yield failed.read_text(), ran.returncode, ran.stdout, ran.stderr


def try_faults(program, folder):
    """Each system call fails in turn: the fault is reported, and what is printed is right, or the answer is whole. A file that is to be
    replaced has its old bytes or all of the new ones, and no other file is left unless it can't be removed."""
    (folder / "faults.c").write_text(FAULTS)
    subprocess.run(["cc", "-shared", "-fPIC", "-o", "faults.so", "faults.c"], cwd=folder, check=True)
    diff = ["--from", "2021", "--to", "2021", "--diff", "before", "after"]
    for words, status in ((diff, 2), ([*diff, "--summary"], 2), ([*diff, "--json"], 2), ([*diff, "--times", "times"], 2),
                          (["--diff", "good", "new"], 2), (["good"], 1), (["--json", "good", "new"], 1), (["--zdump", "good", "new"], 1),
                          (["--at", "@0", "--tzdir", ".", "before/moved"], 1), (["--at", "2021-07-01", "--local", "good", "new"], 1),
                          (["--svg", "-", "good"], 1), (["Europe/Paris"], 1)):
        due, calls, wrong = run(program, *words, folder=folder), 0, []
        for calls, (name, *answer) in enumerate(runs_with_faults(program, words, folder), 1):
            lines = set(answer[1].splitlines())
            is_right = "--summary" in words or "--times" in words or lines <= set(due[1].splitlines())
            if tuple(answer) != due and (answer[0] != status or answer[2] == "" or not is_right):
                wrong.append((name, *answer))
        check(f"{' '.join(words)} with {calls} calls that fail", (True, []), (calls > 4, wrong))
    try_failing_writes(program, folder)


def try_failing_writes(program, folder):
    """The same of files that are written: one is replaced, one is new."""
    place = folder / "faulty"
    place.mkdir()
    for option in ("--write", "--svg"):
        check(f"{option} to compare with", 0, run(program, option, "faulty/due", "good", folder=folder)[0])
        due = (place / "due").read_bytes()
        for target, old in (("old", b"OLD"), ("new", None)):

            def reset():
                for path in place.iterdir():
                    path.unlink()
                if old:
                    (place / target).write_bytes(old)

            calls, wrong = 0, []
            for calls, (name, status, output, errors) in enumerate(runs_with_faults(program, [option, f"faulty/{target}", "good"], folder, reset), 1):
                now = (place / target).read_bytes() if (place / target).exists() else None
                others = [path.name for path in place.iterdir() if path.name != target]
                is_done = (status, now, errors) == (0, due, "")
                is_undone = status == 1 and now == old and errors != ""
                if output or not (is_done or is_undone) or others and not name.startswith("unlink"):
                    wrong.append((name, status, errors, others))
            check(f"{option} {target} with {calls} calls that fail", (True, []), (calls > 6, wrong))


def try_memory(program, folder):
    """A table and a picture of a zone need memory for the zone, and not for what is printed."""
    count = 1_000_000
    block = lambda size, form: b"TZif2" + bytes(15) + struct.pack(">6l", 0, 0, 0, count if size else 0, 2 if size else 1, 8 if size else 4)
    times = struct.pack(f">{count}q", *range(-2_000_000_000, -2_000_000_000 + 3000 * count, 3000))
    (folder / "many").write_bytes(block(0, 0) + struct.pack(">lBB", 0, 0, 0) + b"UTC\0" + block(8, 0) + times + bytes([1, 0]) * (count // 2)
                                  + struct.pack(">lBB", 0, 0, 0) + struct.pack(">lBB", 3600, 1, 4) + b"AAA\0BBB\0" + b"\n\n")
    least = most_memory(program, folder, ["--at", "@0", "many"])
    # A picture has four changes at each of 7,801 places, and its text.
    for words, more in (["--from", "1", "--to", "9999"], 2048), (["--svg", "-", "--from", "1", "--to", "9999"], 2048), (
            ["--svg", "-", "--from", "1900", "--to", "2037"], 8192), (["--svg", "picture"], 8192):
        check(f"memory of {' '.join(words)} of a million changes", True, most_memory(program, folder, [*words, "many"]) < least + more)
    try_crowd(program, folder)


def most_memory(program, folder, words):
    """The most memory that the program takes, in KiB."""
    child = subprocess.Popen([str(program), *words], cwd=folder, stdout=subprocess.DEVNULL)
    return os.wait4(child.pid, 0)[2].ru_maxrss


def try_crowd(program, folder):
    """A picture of changes of which a hundred lie at one place of the chart: each is in a band or a step of its line."""
    offsets = (0, 3600, -18000, 20700, 45900, -34200)
    times = [946_684_800 + 2_500_000 * crowd + 30 * place for crowd in range(40) for place in range(100)]
    kinds = [(7 * place * place + place // 3) % 5 for place in range(len(times))]
    kinds = [(kind + 1) % 6 if kind == before else kind for before, kind in zip([5, *kinds], kinds)]
    head = lambda count, types: b"TZif2" + bytes(15) + struct.pack(">6l", 0, 0, 0, count, types, 4)
    types = b"".join(struct.pack(">lBB", offset, 0, 0) for offset in offsets)
    (folder / "crowd").write_bytes(head(0, 1) + struct.pack(">lBB", 0, 0, 0) + b"AAA\0" + head(len(times), 6)
                                   + struct.pack(f">{len(times)}q", *times) + bytes(kinds) + types + b"AAA\0" + b"\n\n")
    with open(folder / "crowd", "rb") as file:
        zone = ZoneInfo.from_file(file)
    words = ["--from", "2000", "--to", "2003"]
    due = seconds_of_table(run(program, *words, "crowd", folder=folder)[1])
    picture = run(program, "--svg", "-", *words, "crowd", folder=folder)[1].encode()
    check("a picture of crowds", (True, [], 24), (len(due) > 3000, wrong_steps(picture, zone, due, second_of(2000), second_of(2004)), len(shapes(picture, "what"))))


def main():
    program = Path(sys.argv[1] if len(sys.argv) > 1 else STORED / "out" / "zonedump").resolve()
    needs(program, DATABASE)
    with tempfile.TemporaryDirectory() as name:
        folder = Path(name)
        make_files(folder)
        told = run(program, "good", folder=folder)
        check("a good file", (0, ""), (told[0], told[2]))
        among = run(program, "empty", "good", "folder", folder=folder)
        check("a good file among wrong ones", (1, told[1]), among[:2])
        check("the lines of the wrong ones", 3, among[2].count("\n"))
        for words in (["good"], ["--from", "2021", "--to", "2022", "--text", "EST5EDT,M3.2.0,M11.1.0"]):
            try_json(program, words, folder)
        try_fault_places(program, folder)
        try_write(program, folder)
        try_failed_writes(program, folder)
        try_names(program, folder)
        try_extended(program, folder)
        try_help(program, folder)
        try_diff(program, folder)
        try_closed(program, folder)
        try_empty(program)
        over = "zonedump: --svg names the file that is read; name a new file\n"
        for words in (["--svg", "good", "good"], ["--svg", "./good", "good"]):
            check(" ".join(words), (2, "", over), run(program, *words, folder=folder))
        try_svg(program, folder)
        try_zone_names(program, folder)
        try_dates(program, folder)
        try_at(program)
        try_summary(program, folder)
        try_schema(program, folder)
        try_wrong_uses(program, folder)
        try_memory(program, folder)
        try_faults(program, folder)
        check("a full standard output", (1, ""), run(program, "good", folder=folder, redirect=">/dev/full")[:2])
    for words in WRONG_WORDS:
        status, output, errors = run(program, *words)
        check(" ".join(words) or "no arguments", (2, "", True), (status, output, errors != ""))
    for text in WRONG_TEXTS:
        status, output, errors = run(program, "--text", text)
        check(f"--text {text!r}", (1, "", True), (status, output, f"{text}: not a TZ string: " in errors))
    return exit_status()


ONE_ZONE = "zonedump: --{} takes one zone; call zonedump once for each zone\n"
TWO = "zonedump: --diff takes two files or two folders, as in zonedump --diff OLD NEW"
FOLDER = "a folder; name a file in it, or compare two with zonedump --diff OLD NEW"
BOUND = "--{0} takes a year from 1 to 9999 or a date, as in --{0} 2026 or --{0} 2026-03-01; '{1}' is no such year or date"
EARLIER = "the defaults are --from 1900 and --to 2037"
TIME = "--at takes a time, as in --at 2026-11-01T09:00 or --at @1793523600; '{}' is no such time"
LOCAL = "--local takes a local time, as in --at 2026-11-01T09:00 --local; '{}' is an instant"
LINES = "zonedump: --times takes a file with a time on each line, as 2026-11-01T09:00,Europe/Paris"
TIMES = "not a zone; write a time as --at 2026-11-01T09:00, and years or dates as --from 2026 --to 2027-03-31"
LEAVE_OUT = "Leave out one of them; --help has examples."
AS_ZDUMP = "  tip: --zdump prints what zdump -v prints; --from and --to take years or dates\n--help has examples."
NO_VALUE = "Leave out = and what follows it; --help has examples."
NO_NAME = "no such file or zone; a zone has a name like Europe/Paris"
NO_ZONE = "no such file, and {} has no such zone; zones have names like Europe/Paris, and --tzdir FOLDER names another tz database"
UNKNOWN = NO_ZONE.format(DATABASE)

NO_TZIF = "\nzonedump: name a TZif file, which zic makes, or a zone, as in zonedump Europe/Paris"
NO_MAGIC = "not a TZif file: invalid TZif file: expected TZif at the front of a header (5) at offset 0"
MAGIC = NO_MAGIC + NO_TZIF
SHORT = "not a TZif file: unexpected end: expected more bytes (7) at offset {}"

WRONG = {
    "zip": MAGIC, "text": MAGIC, "limit": MAGIC, "empty": SHORT.format(0) + NO_TZIF, "head": SHORT.format(30), "short": SHORT.format(200),
    "footer": "not a TZif file: invalid TZif file: expected a footer between newlines (5) at offset 1724",
    "large": "larger than 64 MiB", "folder": FOLDER,
    "missing": UNKNOWN,
}

MONTH = "invalid transition rule: expected a month from 1 to 12 (13)"
NO_DIGIT = "invalid number: expected a digit (10)"

NO_RULE = "zonedump: a rule says when daylight saving time starts and ends, as in --text 'AAA5BBB,M3.5.0,M10.5.0/3'\n"

# A TZ string, what is printed of it, what is wrong with it, the number of bytes in front of the fault, the caret's column, and what to
# type.
POINTED = (
    ("EST5EDT,M3.2.0,M13.1.0", "EST5EDT,M3.2.0,M13.1.0", MONTH, 16, 16, ""),
    ("AAA5BBB", "AAA5BBB", "unsupported TZ string: expected days when daylight saving time starts and ends (15)", 7, 7, NO_RULE),
    ("<\x1b\u00e9>x", "<\\u{1b}\u00e9>x", NO_DIGIT, 5, 9, ""),
    ("E", "E", NO_DIGIT, 1, 1, ""),
)

WRONG_WORDS = (
    [], ["--from", "2040", "--to", "1990", "x"], ["--from", "0", "x"], ["--to", "10000", "x"], ["--from", "soon", "x"],
    ["--from", "-5", "x"], ["--from"], ["--until", "2000", "x"], ["--text"], ["--text", "UTC0", "x"],
    ["--json", "--zdump", "x"], ["--write"], ["--svg"], ["--svg", "y", "--json", "x"], ["--svg", "y", "--zdump", "x"],
    ["--svg", "y", "--write", "z", "x"], ["--write", "y", "--json", "x"], ["--write", "y", "--zdump", "x"],
    ["--write", "y", "--from", "2000", "x"], ["--write", "y", "--to", "2000", "x"], ["--extended", "x"], ["--extended"],
    ["--svg", "y", "--svg", "z", "x"], ["--json", "--json", "x"], ["--text", "UTC0", "--text", "UTC0"],
)

LOCAL_TIMES = (
    ("2021-03-14T02:30", "America/New_York",
     "never shown: clocks went from 2021-03-14 02:00:00 to 2021-03-14 03:00:00, at 2021-03-14 07:00:00 UTC"),
    ("2021-11-07T01:30", "America/New_York",
     "shown more than once: first at 2021-11-07 05:30:00 UTC, -04:00 dst EDT, and last at 2021-11-07 06:30:00 UTC, -05:00 std EST"
     "; clocks went from 2021-11-07 02:00:00 to 2021-11-07 01:00:00, at 2021-11-07 06:00:00 UTC"),
    ("2021-04-04T01:45", "Australia/Lord_Howe",
     "shown more than once: first at 2021-04-03 14:45:00 UTC, +11:00 dst +11, and last at 2021-04-03 15:15:00 UTC, +10:30 std +1030"
     "; clocks went from 2021-04-04 02:00:00 to 2021-04-04 01:30:00, at 2021-04-03 15:00:00 UTC"),
    ("2011-12-30T12:00", "Pacific/Apia",
     "never shown: clocks went from 2011-12-30 00:00:00 to 2011-12-31 00:00:00, at 2011-12-30 10:00:00 UTC"),
    ("2026-11-01T09:00", "Europe/Paris", "2026-11-01 08:00:00 UTC, +01:00 std CET, until 2027-03-28 01:00:00 UTC"),
    ("2026-11-01", "Asia/Tokyo", "2026-10-31 15:00:00 UTC, +09:00 std JST, with no later change"),
)

# What a new user may type, the exit status, and the sentences on standard error without the lines of the usage.
WRONG_USES = (
    ("zonedump", 2, "zonedump: name a zone, as in zonedump Europe/Paris, or write --text TZ; zonedump --help has examples"),
    ("zonedump Europe/Pariss", 1, "zonedump: Europe/Pariss: no such file or zone; did you mean Europe/Paris?"),
    ("zonedump Paris", 1, "zonedump: Paris: no such file or zone; did you mean Europe/Paris?"),
    ("zonedump europe/paris", 1, "zonedump: europe/paris: no such file or zone; did you mean Europe/Paris?"),
    ("zonedump 'New York'", 1, "zonedump: New York: no such file or zone; did you mean America/New_York?"),
    ("zonedump America/New", 1, "zonedump: America/New: no such file or zone; did you mean America/New_York?"),
    ("zonedump Foo/Bar", 1, f"zonedump: Foo/Bar: {UNKNOWN}"),
    ("zonedump PST", 1, f"zonedump: PST: {UNKNOWN}"),
    ("zonedump help", 1, f"zonedump: help: {UNKNOWN}"),
    ("zonedump utc", 1, "zonedump: utc: no such file or zone; did you mean UTC?"),
    ("zonedump America/new york", 1,
     f"zonedump: America/new: no such file or zone; did you mean America/New_York?\nzonedump: york: {UNKNOWN}"),
    ("zonedump ./paris", 1, f"zonedump: ./paris: {NO_NAME}"),
    (f"zonedump {DATABASE}/Europe/Pariss", 1, f"zonedump: {DATABASE}/Europe/Pariss: no such file or zone; did you mean Europe/Paris?"),
    (f"zonedump {DATABASE}", 1, f"zonedump: {DATABASE}: {FOLDER}"),
    ("zonedump ''", 1, "zonedump: '': no such file or zone; a TZ string is given by --text ''"),
    ("zonedump text", 1, f"zonedump: text: {MAGIC}"),
    ("zonedump empty", 1, f"zonedump: empty: {WRONG['empty']}"),
    ("zonedump good.gz", 1, f"zonedump: good.gz: {NO_MAGIC}\nzonedump: good.gz is compressed: unpack it, as in gunzip -c good.gz | zonedump -"),
    ("zonedump EST5EDT,M3.2.0,M11.1.0", 1,
     "zonedump: EST5EDT,M3.2.0,M11.1.0: no such file or zone; a TZ string is given by --text 'EST5EDT,M3.2.0,M11.1.0'"),
    ("zonedump UTC+1", 1, "zonedump: UTC+1: no such file or zone; a TZ string is given by --text 'UTC+1', with + for west of UTC"),
    ("zonedump CET-1CEST", 1,
     "zonedump: CET-1CEST: no such file or zone; a TZ string needs a rule, as in --text 'CET-1CEST,M3.5.0,M10.5.0/3'"),
    ("zonedump 2026", 2, f"zonedump: 2026: {TIMES}"),
    ("zonedump Europe/Paris 2026-11-01", 2, f"zonedump: 2026-11-01: {TIMES}"),
    ("zonedump folder", 1, f"zonedump: folder: {FOLDER}"),
    ("zonedump --tzdir nowhere Europe/Paris", 1,
     "zonedump: Europe/Paris: no such file, and no tz database is here; name its folder with --tzdir FOLDER"),
    ("zonedump --tzdir good Europe/Paris", 1,
     "zonedump: Europe/Paris: no such file, and no tz database is here; name its folder with --tzdir FOLDER"),
    ("zonedump --tzdir folder Europe/Paris", 1, f"zonedump: Europe/Paris: {NO_ZONE.format('folder')}"),
    ("zonedump --text America/New_York", 1,
     "zonedump: America/New_York: not a TZ string: invalid number: expected a digit (10)\n"
     "  America/New_York\n         ^ at offset 7\n"
     "zonedump: America/New_York is the name of a zone: leave out --text, as in zonedump America/New_York"),
    ("zonedump --text UTC", 1,
     "zonedump: UTC: not a TZ string: invalid number: expected a digit (10)\n"
     "  UTC\n     ^ at offset 3\n"
     "zonedump: UTC is the name of a zone: leave out --text, as in zonedump UTC"),
    ("zonedump --text CET-1CEST", 1,
     "zonedump: CET-1CEST: not a TZ string: unsupported TZ string: expected days when daylight saving time starts and ends (15)\n"
     "  CET-1CEST\n           ^ at offset 9\n"
     "zonedump: a rule says when daylight saving time starts and ends, as in --text 'CET-1CEST,M3.5.0,M10.5.0/3'"),
    ("zonedump --text UTC0 Europe/Paris", 2, f"error: the argument '--text <TZ>' cannot be used with '[ZONE]...'\n{LEAVE_OUT}"),
    ("zonedump -v Europe/Paris", 2, f"error: unexpected argument '-v' found\n{AS_ZDUMP}"),
    ("zonedump --year 2026 Europe/Paris", 2, f"error: unexpected argument '--year' found\n{AS_ZDUMP}"),
    ("zonedump --form 2020 Europe/Paris", 2,
     "error: unexpected argument '--form' found\n  tip: a similar argument exists: '--from'\n--help has examples."),
    ("zonedump --from 0 Europe/Paris", 2, f"zonedump: {BOUND.format('from', '0')}"),
    ("zonedump --from -5 Europe/Paris", 2, f"zonedump: {BOUND.format('from', '-5')}"),
    ("zonedump --to soon Europe/Paris", 2, f"zonedump: {BOUND.format('to', 'soon')}"),
    ("zonedump --to 2026-02-29 Europe/Paris", 2, f"zonedump: {BOUND.format('to', '2026-02-29')}"),
    ("zonedump --from 2026-3-1 Europe/Paris", 2, f"zonedump: {BOUND.format('from', '2026-3-1')}"),
    ("zonedump --from 2026-13-01 Europe/Paris", 2, f"zonedump: {BOUND.format('from', '2026-13-01')}"),
    ("zonedump --from 2026 --to Europe/Paris", 2,
     "zonedump: name a zone, as in zonedump Europe/Paris, or write --text TZ; zonedump --help has examples"),
    ("zonedump --from 0000-01-01 Europe/Paris", 2, f"zonedump: {BOUND.format('from', '0000-01-01')}"),
    ("zonedump --from 2026-03-01T09:00 Europe/Paris", 2, f"zonedump: {BOUND.format('from', '2026-03-01T09:00')}"),
    ("zonedump --from 2040 --to 1990 Europe/Paris", 2, f"zonedump: --from 2040 is after --to 1990; {EARLIER}"),
    ("zonedump --from 2040 Europe/Paris", 2, f"zonedump: --from 2040 is after --to 2037; {EARLIER}"),
    ("zonedump --from 2026-03-02 --to 2026-03-01 Europe/Paris", 2, f"zonedump: --from 2026-03-02 is after --to 2026-03-01; {EARLIER}"),
    ("zonedump --from 2020 --from 2021 Europe/Paris", 2, f"error: the argument '--from <WHEN>' cannot be used multiple times\n{LEAVE_OUT}"),
    ("zonedump --from", 2, "error: a value is required for '--from <WHEN>' but none was supplied\n--help has examples."),
    ("zonedump --at now Europe/Paris", 2, f"zonedump: {TIME.format('now')}"),
    ("zonedump --at 1793523600 Europe/Paris", 2, f"zonedump: {TIME.format('1793523600')}"),
    ("zonedump --at 2026-02-29T09:00 Europe/Paris", 2, f"zonedump: {TIME.format('2026-02-29T09:00')}"),
    ("zonedump --at 2026-11-01T24:00 Europe/Paris", 2, f"zonedump: {TIME.format('2026-11-01T24:00')}"),
    ("zonedump --at 2026-11-01T09:00+1 Europe/Paris", 2, f"zonedump: {TIME.format('2026-11-01T09:00+1')}"),
    ("zonedump --at Europe/Paris 2026-11-01", 2, f"zonedump: {TIME.format('Europe/Paris')}"),
    ("zonedump --at 2026-11-01 09:00 Europe/Paris", 2, f"zonedump: 09:00: {TIMES}"),
    ("zonedump Europe/Paris --at", 2, "error: a value is required for '--at <TIME>' but none was supplied\n--help has examples."),
    ("zonedump --at 2026-11-01T09:00Z --local Europe/Paris", 2, f"zonedump: {LOCAL.format('2026-11-01T09:00Z')}"),
    ("zonedump --at @0 --local Europe/Paris", 2, f"zonedump: {LOCAL.format('@0')}"),
    ("zonedump --at 2026-11-01T09:00", 2,
     "zonedump: name a zone, as in zonedump Europe/Paris, or write --text TZ; zonedump --help has examples"),
    ("zonedump --at 2026-11-01 --json Europe/Paris", 2, f"error: the argument '--at <TIME>' cannot be used with '--json'\n{LEAVE_OUT}"),
    ("zonedump --local Europe/Paris", 2, "zonedump: --local goes with --at, as in --at 2026-11-01T09:00 --local"),
    ("zonedump --extended Europe/Paris", 2, f"error: the argument '--extended' cannot be used with '[ZONE]...'\n{LEAVE_OUT}"),
    ("zonedump --diff", 2, TWO),
    ("zonedump --diff good", 2, TWO),
    ("zonedump --diff good new good", 2, TWO),
    ("zonedump --diff - -", 2, "zonedump: --diff reads standard input once; name a file for OLD or NEW"),
    ("zonedump --diff=before after", 2, f"error: unexpected value 'before' for '--diff' found; no more were expected\n{NO_VALUE}"),
    ("zonedump --diff 2025b 2026f", 2, f"zonedump: 2025b: {UNKNOWN}\nzonedump: 2026f: {UNKNOWN}"),
    ("zonedump --diff before after --times", 2, "error: a value is required for '--times <FILE>' but none was supplied\n--help has examples."),
    ("zonedump --diff before after --times nowhere", 2, f"zonedump: nowhere: No such file or directory (os error 2)\n{LINES}"),
    ("zonedump --diff before after --times folder", 2, f"zonedump: folder: Is a directory (os error 21)\n{LINES}"),
    ("zonedump --json=yes Europe/Paris", 2, f"error: unexpected value 'yes' for '--json' found; no more were expected\n{NO_VALUE}"),
    ("zonedump --diff good folder", 2, f"{TWO} (folder is a folder, good is not)"),
    ("zonedump --diff good Europe/Pariss", 2, "zonedump: Europe/Pariss: no such file or zone; did you mean Europe/Paris?"),
    ("zonedump --summary good", 2, "zonedump: --summary goes with --diff, as in zonedump --diff OLD NEW --summary"),
    ("zonedump --times times good", 2, "zonedump: --times FILE goes with --diff, as in zonedump --diff OLD NEW --times FILE"),
    ("zonedump --write Europe/Paris", 2, "zonedump: --write takes a new file and then a zone, as in zonedump --write NEW Europe/Paris"),
    ("zonedump --write x Europe/Paris Asia/Tokyo", 2, "zonedump: --write takes one zone; call zonedump once for each zone"),
    ("zonedump --svg Europe/Paris", 2, "zonedump: --svg takes a new file and then a zone, as in zonedump --svg NEW Europe/Paris"),
    ("zonedump --svg good good", 2, "zonedump: --svg names the file that is read; name a new file"),
    ("zonedump --colors dark Europe/Paris", 2, "zonedump: --colors goes with --svg, as in --svg NEW --colors dark"),
    ("zonedump --svg x --colors blue Europe/Paris", 2, "zonedump: --colors takes light or dark, as in --colors dark; 'blue' is neither"),
    ("zonedump --json --zdump Europe/Paris", 2, f"error: the argument '--json' cannot be used with '--zdump'\n{LEAVE_OUT}"),
)

HELP = ("1 to 9999", "2026-03-01", "one zone", "--extended", "Exit status", "--text <TZ>")

WRONG_TEXTS = ("EST", "EST5EDT,M13.2.0,M11.1.0", "EST5EDT", "5")


if __name__ == "__main__":
    sys.exit(main())
