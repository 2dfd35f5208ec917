"""Writes the zone of each TZif file of a tz database by `TimeZone::to_tz_data`, and compares the written file with the one read.

Both must have the same clocks: by Python's zoneinfo around each transition and in each month of the years 1900 to 2100, and by
`zdump -v` if that command is installed. Written again, the bytes must be the same. With SLIM, a folder with the same zones by
`zic -b slim`, it also prints how many written files are the same, shorter and longer than those.

The program that reads and writes (written_files.txt) is a crate in a copy of this repository, and `rt try` runs it without a proof.
"""

import datetime
import shutil
import struct
import subprocess
import sys
import tempfile
import zoneinfo
from io import BytesIO
from pathlib import Path

from comparing.database import FOLDER, TzFile, tzif_files, zdump
from sources import TOP, needs

NAME = "written_files"
GROUP = 700_000
UTC = datetime.timezone.utc


def laid(top):
    """A copy of this repository with the program as one crate more. Returns its folder."""
    for file in ("HANDLES", "crates.txt"):
        shutil.copy(TOP / file, top / file)
    with (top / "crates.txt").open("a") as file:
        file.write(f"{NAME}: tz_info tz_write\n")
    shutil.copytree(TOP / "crates", top / "crates", ignore=shutil.ignore_patterns("out", "tests"))
    source = top / "crates" / NAME / "src"
    source.mkdir(parents=True)
    shutil.copy(Path(__file__).with_suffix(".txt"), source / "main.rt")
    return source.parent


def groups_of(contents):
    """The contents in groups, since `rt try` takes a megabyte of output at most."""
    group, size = [], 0
    for data in contents:
        if group and size + len(data) > GROUP:
            yield group
            group, size = [], 0
        group.append(data)
        size += len(data)
    yield group


def written_of_group(crate, contents):
    """What is written of each of these files, by one run."""
    given = b"".join(struct.pack(">I", len(data)) + data for data in contents)
    ran = subprocess.run(["rt", "try"], cwd=crate, input=given, capture_output=True)
    if ran.returncode != 0:
        sys.exit(ran.stdout[-2000:].decode("utf8", "replace") + ran.stderr[-2000:].decode("utf8", "replace"))
    answers, place = [], 0
    while place < len(ran.stdout):
        (size,) = struct.unpack(">I", ran.stdout[place : place + 4])
        answers.append(ran.stdout[place + 4 : place + 4 + size])
        place += 4 + size
    if len(answers) != len(contents):
        sys.exit(f"{len(answers)} answers to {len(contents)} files: {ran.stdout[:300]!r}")
    return answers


def written_of(crate, contents):
    """What is written of each of the files: nothing of one that isn't read, a 0 byte where nothing is written."""
    contents = list(contents)
    answers = {}
    for group in groups_of(dict.fromkeys(contents)):
        answers.update(zip(group, written_of_group(crate, group)))
    return [answers[data] for data in contents]


def clocks(data, seconds):
    zone = zoneinfo.ZoneInfo.from_file(BytesIO(data))
    shown = []
    for second in seconds:
        local = datetime.datetime.fromtimestamp(second, UTC).astimezone(zone)
        shown.append((local.utcoffset(), local.dst() != datetime.timedelta(0), local.tzname()))
    return shown


def seconds_of(data):
    low, high = -2_208_988_800, 4_102_444_800
    around = [t + d for t in TzFile(data).transitions for d in (-1, 0, 1) if low < t < high]
    return sorted(set(around) | set(range(low, high, 2_629_746)))


def dumped(folder, data):
    path = folder / "zone"
    path.write_bytes(data)
    return zdump(path, (1800, 2200))


def files_in(folder):
    """The TZif files by name."""
    return {str(path.relative_to(folder)): content for path, content in tzif_files(folder)}


def main(folder=FOLDER, slim=None):
    needs("rt")
    slim = files_in(slim) if slim else {}
    read = files_in(folder)
    names = list(read)
    with tempfile.TemporaryDirectory() as room:
        crate = laid(Path(room))
        written = dict(zip(names, written_of(crate, read.values())))
        again = dict(zip(names, written_of(crate, written.values())))
        refused = [name for name in names if not written[name]]
        names = [name for name in names if written[name]]
        wrong = [f"{name}: nothing written" for name in names if len(written[name]) == 1]
        wrong += [f"{name}: other bytes when written again" for name in names if written[name] != again[name]]
        checked = set()
        for name in names:
            pair = (read[name], written[name])
            if pair in checked or len(written[name]) == 1:
                continue
            checked.add(pair)
            seconds = seconds_of(read[name])
            if clocks(read[name], seconds) != clocks(written[name], seconds):
                wrong.append(f"{name}: other clocks by zoneinfo")
            if shutil.which("zdump") and dumped(Path(room), read[name]) != dumped(Path(room), written[name]):
                wrong.append(f"{name}: other lines by zdump")
    print("\n".join(wrong) or "no difference")
    if refused:
        print(f"not read, since no zone is valid there: {', '.join(refused)}")
    print(f"{len(names)} files read and written, {len(checked)} of them different")
    print(f"bytes read {sum(len(read[name]) for name in names)}, written {sum(len(written[name]) for name in names)}")
    both = [(written[name], slim[name]) for name in names if name in slim]
    if both:
        print(
            f"compared with {len(both)} files of zic -b slim: {sum(a == b for a, b in both)} the same,"
            f" {sum(len(a) < len(b) for a, b in both)} shorter, {sum(len(a) > len(b) for a, b in both)} longer,"
            f" {sum(len(a) for a, b in both)} bytes, and {sum(len(b) for a, b in both)}"
        )
    return 1 if wrong or not names else 0
