#!/usr/bin/env python3
"""Writes the inputs of the benchmark into a folder.

usage: bench/make_inputs.py FOLDER [ZONEINFO]

- zones/NAME: five zones of ZONEINFO (/usr/share/zoneinfo), New York also as `zic -b slim` writes it and with leap seconds
  (ZONEINFO/right), the string of zones/Text as the footer of a file without a transition, and a made zone of 1,048,576
  transitions;
- text: the TZ string itself;
- names: the names of the zones, one a line; years: the sets of years, one a line;
- at_SET.i64, wall_SET.i64: a million instants and a million local times, as seconds in 64 bits, low byte first. They are
  spread evenly over the years 1900 to 2099 (SET is wide) and 2020 to 2029 (near), from fixed seeds;
- gap_near.i64: a million local times that New York's clocks skip, in the years 2020 to 2029;
- lines: for zoneq, New York's file as a `data` line, and those of wall_wide as a million `wall` lines;
- lines_at: for zoneq, that `data` line, and the instants of at_near as a million `show` lines; seconds_at and stamps_at: these
  instants as numbers, one a line, and with `@` before each;
- growth: a folder of the same kind, with the questions of the years 1900 to 2099 and made zones of 16 to 1,048,576 transitions.
"""

import calendar
import os
import shutil
import struct
import subprocess
import sys
from array import array
from datetime import datetime, timedelta
from pathlib import Path

ZONES = ["America/New_York", "Europe/London", "Asia/Tehran", "Africa/Casablanca", "America/Sao_Paulo"]
TEXT = "EST5EDT,M3.2.0,M11.1.0"
COUNT = 1_000_000
YEARS = {"wide": (1900, 2100), "near": (2020, 2030)}
SEEDS = {("at", "wide"): 1, ("at", "near"): 2, ("wall", "wide"): 3, ("wall", "near"): 4}
# How many transitions the zones of growth/ have: each power of 4 from 2^4 to 2^20.
GROWTH = [1 << power for power in range(4, 21, 2)]
WORD = (1 << 64) - 1


def split_mix(seed):
    """Numbers of 64 bits, as the generator SplitMix64 draws them."""
    while True:
        seed = (seed + 0x9E3779B97F4A7C15) & WORD
        mixed = ((seed ^ (seed >> 30)) * 0xBF58476D1CE4E5B9) & WORD
        mixed = ((mixed ^ (mixed >> 27)) * 0x94D049BB133111EB) & WORD
        yield mixed ^ (mixed >> 31)


def seconds(seed, first_year, end_year):
    """A million seconds of these years."""
    start = calendar.timegm((first_year, 1, 1, 0, 0, 0))
    end = calendar.timegm((end_year, 1, 1, 0, 0, 0))
    draw = split_mix(seed)
    drawn = array("q", (start + next(draw) % (end - start) for _ in range(COUNT)))
    return drawn


def spelled(numbers):
    """Numbers as bytes, the low byte of each first."""
    copy = array("q", numbers)
    if sys.byteorder == "big":
        copy.byteswap()
    return copy.tobytes()


def zoneq_lines(file, locals_):
    """The lines that ask zoneq for each of the local times in the zone of the file."""
    yield f"data {file.hex()}\n"
    for second in locals_:
        local = datetime(1970, 1, 1) + timedelta(seconds=second)
        yield f"wall {local.year} {local.month} {local.day} {local.hour} {local.minute} {local.second}\n"


def skipped(second):
    """A second of an hour that New York's clocks skip, from two to three on the second Sunday of March of one of ten years."""
    first = datetime(2020 + second // 3600 % 10, 3, 8, 2)
    start = first + timedelta(days=(6 - first.weekday()) % 7)
    return calendar.timegm(start.timetuple()) + second % 3600


def zoneq_instants(file, instants):
    """The lines that ask zoneq what each of the instants shows in the zone of the file."""
    yield f"data {file.hex()}\n"
    yield from (f"show {second} 0\n" for second in instants)


def block(time_format, times, indexes, types, names):
    """A header of version 2 and its data block (RFC 8536 section 3), without leap seconds."""
    header = b"TZif2" + bytes(15) + struct.pack(">6I", 0, 0, 0, len(times), len(types), len(names))
    packed = b"".join(struct.pack(">" + time_format, time) for time in times) + bytes(indexes)
    return header + packed + b"".join(struct.pack(">iBB", *each) for each in types) + names


def file_of(times, indexes, types, names, footer):
    first = block("i", [], [], [(0, 0, 0)], b"UTC\0")
    return first + block("q", times, indexes, types, names) + f"\n{footer}\n".encode()


def made_zone(count, step):
    """An hour forward and back by turns, a step from each to the next, from 1900 on."""
    start = calendar.timegm((1900, 1, 1, 0, 0, 0))
    times = [start + step * i for i in range(count)]
    indexes = bytes((i + 1) % 2 for i in range(count))
    return file_of(times, indexes, [(0, 0, 0), (3600, 1, 4)], b"AAA\0BBB\0", "AAA0")


def slim_new_york(zoneinfo, folder):
    """New York as `zic -b slim` writes it, where zic and the database's text are there: a rule answers from 2007 on."""
    search = os.environ["PATH"] + ":/usr/sbin"
    zic = shutil.which("zic", path=search)
    text = zoneinfo / "tzdata.zi"
    if not zic or not text.exists():
        return None
    subprocess.run([zic, "-b", "slim", "-d", folder / "slim", text], check=True, stderr=subprocess.DEVNULL)
    return (folder / "slim/America/New_York").read_bytes()


def growing_zones(folder):
    """Zones whose transitions are spread evenly over 1900 to 2099, and the questions of the folder above."""
    (folder / "zones").mkdir(parents=True, exist_ok=True)
    for count in GROWTH:
        (folder / f"zones/{count}").write_bytes(made_zone(count, (6000 << 20) // count))
    for question in ("at", "wall"):
        questions = folder / f"{question}_wide.i64"
        questions.unlink(missing_ok=True)
        questions.symlink_to(f"../{questions.name}")
    (folder / "years").write_text("wide\n")
    (folder / "names").write_text("\n".join(map(str, GROWTH)) + "\n")


def main():
    folder = Path(sys.argv[1])
    zoneinfo = Path(sys.argv[2] if len(sys.argv) > 2 else "/usr/share/zoneinfo")
    (folder / "zones").mkdir(parents=True, exist_ok=True)
    zones = {name.split("/")[1]: (zoneinfo / name).read_bytes() for name in ZONES}
    slim = slim_new_york(zoneinfo, folder)
    if slim:
        zones["New_York_slim"] = slim
    right = zoneinfo / "right/America/New_York"
    if right.exists():
        zones["New_York_right"] = right.read_bytes()
    zones["Text"] = file_of([], [], [(-18000, 0, 0), (-14400, 1, 4)], b"EST\0EDT\0", TEXT)
    zones["Large"] = made_zone(1 << 20, 6000)
    for name, file in zones.items():
        (folder / "zones" / name).write_bytes(file)
    (folder / "text").write_text(TEXT)
    drawn = {(question, years): seconds(seed, *YEARS[years]) for (question, years), seed in SEEDS.items()}
    for (question, years), numbers in drawn.items():
        (folder / f"{question}_{years}.i64").write_bytes(spelled(numbers))
    with (folder / "lines").open("w") as lines:
        lines.writelines(zoneq_lines(zones["New_York"], drawn["wall", "wide"]))
    with (folder / "lines_at").open("w") as lines:
        lines.writelines(zoneq_instants(zones["New_York"], drawn["at", "near"]))
    for file, mark in (("seconds_at", ""), ("stamps_at", "@")):
        (folder / file).write_text("".join(f"{mark}{second}\n" for second in drawn["at", "near"]))
    (folder / "gap_near.i64").write_bytes(spelled(map(skipped, drawn["wall", "near"])))
    (folder / "years").write_text("\n".join(YEARS) + "\n")
    growing_zones(folder / "growth")
    # The last file to be written, so that it says that all are there.
    (folder / "names").write_text("\n".join(zones) + "\n")


main()
