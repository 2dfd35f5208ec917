#!/usr/bin/env python3
"""Tries the calls for C: the programs of examples/ over the static library, and the header.

usage: tools/try_examples.py [ZONEINFO]

ZONEINFO is a tz database (/usr/share/zoneinfo). It needs crates/zoned_ffi/out/libzoned_ffi.a, which `rt lib` builds in
crates/zoned_ffi, and gcc, g++, rustc and python3. Three things are tried:

- each program of examples/ is built and run by the two lines in its head, and what it prints is compared with Python's
  zoneinfo: zones.c, zones.cc, zones.rs and zones.py on files, rule.c on TZ strings;
- each call that the header declares is called by a program of examples/ or by try_handles.c, and defined in the archive. To the C
  compiler the types of its calls, and the size of each struct and the type and place of each of its fields, are those of the
  exports of crates/zoned_ffi/src;
- tools/header_pins.c, which pins the header's numbers and answers, compiles, and finds them in the archive's answers, over the kit's
  heap and over one of its own.

It takes a few seconds. The gate runs it. Ends with status 1 if anything differs.
"""

import re
import struct
import subprocess
import sys
import tempfile
from datetime import datetime, timedelta
from io import BytesIO
from pathlib import Path
from zoneinfo import ZoneInfo

from kit import kit
from sources import DATABASE, TOP, files, needs, text_of

# Each program, and what the line in its head makes.
BUILT = {"zones.c": "./zones_c", "zones.rs": "./zones_rs", "zones.py": "./libzoned_ffi.so", "rule.c": "./rule_c", "zones.cc": "./zones_cc"}
ZONES = ["America/New_York", "Europe/London", "Asia/Tehran", "America/Sao_Paulo", "Pacific/Apia", "Antarctica/Troll"]
EPOCH = datetime(1970, 1, 1)
DAY = 86_400
# Transitions of New York, London, Apia and Troll; half hours near them, and every 97 days over a century.
TRANSITIONS = [1_615_705_200, 1_636_264_800, 1_616_893_200, 1_325_239_200]
SECONDS = [second + 1800 * half_hours for second in TRANSITIONS for half_hours in range(-30, 31)]
SECONDS += [97 * DAY * step + 7 * step for step in range(-200, 200)]
REFUSED = [(b"TZif", 7), (b"not a file", 5)]
TEXTS = ["EST5EDT,M3.2.0,M11.1.0", "<-03>3", "LHST-10:30LHDT-11,M10.1.0,M4.1.0", "IST-1GMT0,M10.5.0,M3.5.0/1", "UTC0"]
REFUSED_TEXTS = [("EST5EDT", 15), ("FOO25", 6), ("5", 3)]
HEADER = TOP / "crates/zoned_ffi/include/zoned_ffi.h"
ARCHIVE = TOP / "crates/zoned_ffi/out/libzoned_ffi.a"
PINS = TOP / "tools/header_pins.c"
HANDLES = TOP / "tools/try_handles.c"
# The C names of the exports' types, and the calls that no export has: install/names.c has those.
TYPES = {
    "i32": "int32_t", "u32": "uint32_t", "i64": "int64_t", "usize": "size_t", "u8": "char", "Handle": "struct zoned_zone", "Lent": "struct zoned_zone",
    "WrittenType": "zoned_local_type", "WrittenSpan": "zoned_span", "WrittenChange": "zoned_change", "WrittenLocalInfo": "zoned_local_info",
    "WrittenLocalResult": "zoned_wall_clock", "Resolved": "zoned_resolved", "WrittenSaving": "zoned_saving", "WrittenDay": "zoned_day", "Fields": "zoned_fields",
}
SAME = "_Static_assert(__builtin_types_compatible_p(__typeof__({}), {}), \"{}\");"


def recipe(name):
    """The line that builds a program, and the one that runs it."""
    head = (TOP / "examples" / name).read_text().splitlines()[:9]
    lines = [line.removeprefix("//!").strip() for line in head]
    return [line for line in lines if line.startswith(("gcc ", "g++ ", "rustc ", "python3 ", "./"))]


def shown(zone, local):
    """The seconds at which a clock of the zone shows the local time, with their offsets."""
    seconds = {}
    for fold in (0, 1):
        reading = (EPOCH + timedelta(seconds=local)).replace(tzinfo=zone, fold=fold)
        second = local - offset(reading)
        back = instant(zone, second)
        if back.replace(tzinfo=None) == reading.replace(tzinfo=None):
            seconds[second] = offset(back)
    return sorted(seconds.items())


def offset(reading):
    return int(reading.utcoffset().total_seconds())


def instant(zone, second):
    return zone.fromutc((EPOCH + timedelta(seconds=second)).replace(tzinfo=zone))


def expected(zone):
    for second in SECONDS:
        at = instant(zone, second)
        yield f"instant {second}: {offset(at)} {at.tzname()}{' dst' if at.dst() else ''}"
        found = shown(zone, second)
        told = [f"{when} ({ahead})" for when, ahead in found]
        words = ["never", "once, at {}", "several times, first at {} and last at {}"][len(found)]
        yield f"wall clock {second}: {words.format(*told)}"
        # In a gap the first fold of a reading has the offset before it.
        taken = second - offset((EPOCH + timedelta(seconds=second)).replace(tzinfo=zone))
        yield f"taken {second}: {taken} ({offset(instant(zone, taken))})"


def told_by_rule(lines):
    """What zones.c prints as rule.c prints it: offsets alone."""
    for line in lines:
        if line.startswith("instant"):
            yield " ".join(line.split()[:3])
        elif line.startswith("wall clock"):
            yield re.sub(r"at -?\d+ \((-?\d+)\)", r"by \1", line)


def zone_of_text(text):
    """The zone of a TZ string for zoneinfo: a TZif file of version 2 without transitions, whose footer is the text."""
    counts = struct.pack(">6L", 0, 0, 0, 0, 1, 4)
    block = b"TZif2" + bytes(15) + counts + struct.pack(">lBB", 0, 0, 0) + b"UTC\0"
    return ZoneInfo.from_file(BytesIO(block + block + b"\n" + text.encode() + b"\n"))


def run(command):
    return subprocess.run(command, cwd=TOP, capture_output=True, text=True)


def built(name, folder):
    """The words that start a program of examples/, once the lines in its head have built it and run it; or a complaint."""
    build, line = (each.replace(BUILT[name], str(folder / name)) for each in recipe(name))
    made = run(["sh", "-c", build])
    if made.returncode:
        return None, f"{name} is not built: {made.stderr}"
    ran = run(["sh", "-c", line])
    if ran.returncode:
        return None, f"{name}: the line in its head ends with status {ran.returncode}: {ran.stderr}"
    given = ("/usr/share/zoneinfo", *TEXTS)
    return [word for word in line.split() if not word.startswith(given) and not word.isdigit()], None


def differences(name, what, command, lines):
    printed = run(command).stdout.splitlines()
    for ours, theirs in zip(printed, lines):
        if ours != theirs:
            yield f"{name}, {what}: {ours}, and zoneinfo: {theirs}"
    if len(printed) != len(lines):
        yield f"{name}, {what}: {len(printed)} lines of {len(lines)}"


def unrefused(name, what, command, number):
    ended = run(command)
    if ended.returncode != 1 or not re.search(rf"is rejected: {number}\b", ended.stderr):
        yield f"{name}: {what} ends with {ended.returncode}: {ended.stderr}"


def complaints_of_files(name, database, folder):
    start, complaint = built(name, folder)
    if complaint:
        yield complaint
        return
    for zone in ZONES:
        path = database / zone
        with path.open("rb") as file:
            lines = list(expected(ZoneInfo.from_file(file)))
        yield from differences(name, zone, [*start, str(path), *map(str, SECONDS)], lines)
    for bytes_, number in REFUSED:
        (folder / "refused").write_bytes(bytes_)
        yield from unrefused(name, bytes_, [*start, str(folder / "refused"), "0"], number)


def complaints_of_texts(name, folder):
    start, complaint = built(name, folder)
    if complaint:
        yield complaint
        return
    for text in TEXTS:
        lines = list(told_by_rule(expected(zone_of_text(text))))
        yield from differences(name, text, [*start, text, *map(str, SECONDS)], lines)
    for text, number in REFUSED_TEXTS:
        yield from unrefused(name, text, [*start, text, "0"], number)


def parameter(kind):
    """The C types of a parameter of an export: a slice is a pointer and a count, and the allocator is nothing."""
    if kind == "Global":
        return []
    reference, is_mut, is_slice, inner = re.fullmatch(r"(&(?:'\w+ )?)?(mut )?(\[)?(\w+)\]?", kind).groups()
    if not reference:
        return [TYPES[inner]]
    bare = "void" if is_slice and inner == "u8" and not is_mut else TYPES[inner]
    return ["const " * (not is_mut) + bare + " *", *["size_t"] * bool(is_slice)]


def field(name, kind):
    array = re.fullmatch(r"\[(\w+); (\d+)\]", kind)
    return f"{TYPES[array[1]]} {name}[{array[2]}];" if array else f"void *{name};" if kind.startswith("*") else f"{TYPES[kind]} {name};"


def complaints_of_exports():
    """What the header declares otherwise than the exports do."""
    text, lines = "\n".join(map(text_of, files("src", ".rt", ["zoned_ffi"]))), [f'#include "{HEADER}"']
    for name, parameters, result in re.findall(r'pub extern "C" fn (\w+)\(([^)]*)\)(?: -> (\w+))?', text):
        kinds = [each.split(":", 1)[1].strip() for each in re.split(r",\s*", parameters.strip().rstrip(",")) if each]
        types = ", ".join(kind for each in kinds for kind in parameter(each)) or "void"
        lines.append(SAME.format(name, f"{TYPES[result] if result else 'void'}({types})", name))
    for name, body in re.findall(r"(?s)#\[repr\(C\)\](?:\s*#\[[^\]]*\])*\s*pub struct (\w+) \{(.*?)\n\}", text):
        fields = [each for each in re.findall(r"(?m)^\s*(?:pub )?(\w+): ([^,{]+),", body) if each[1] != "Global"]
        lines.append(f"struct of_{name} {{ {' '.join(field(*each) for each in fields)} }};")
        lines.append(f'_Static_assert(sizeof(struct of_{name}) == sizeof({TYPES[name]}), "the size of {TYPES[name]}");')
        for part in [each for each, _ in fields] if TYPES[name] != "struct zoned_zone" else []:
            lines.append(SAME.format(f"((struct of_{name} *)0)->{part}", f"__typeof__((({TYPES[name]} *)0)->{part})", f"{TYPES[name]}.{part}"))
            lines.append(f'_Static_assert(offsetof(struct of_{name}, {part}) == offsetof({TYPES[name]}, {part}), "the place of {TYPES[name]}.{part}");')
    said = subprocess.run(["gcc", "-std=gnu17", "-fsyntax-only", "-xc", "-"], input="\n".join(lines), capture_output=True, text=True)
    if len(lines) < 100 or said.returncode:
        yield f"the header isn't what {len(lines)} lines say of the exports: {said.stderr[:2000]}"


def complaints_of_header(folder):
    """What is amiss between the header, the archive and the programs."""
    text = re.sub(r"/\*.*?\*/", "", HEADER.read_text(), flags=re.S)
    declared = set(re.findall(r"^(?:uint32_t|size_t|void) (\w+)\(", text, re.M))
    defined = set(re.findall(r" T (zoned_\w+)$", run(["nm", str(ARCHIVE)]).stdout, re.M))
    callers = [*(TOP / "examples" / name for name in BUILT), HANDLES]
    called = {call for path in callers for call in re.findall(r"\bzoned_\w+(?=\()", path.read_text())}
    if not declared:
        yield f"{HEADER.name} declares no call"
    for call in sorted(declared - defined):
        yield f"{call} is declared in the header, and the archive has no such call"
    for call in sorted(defined - declared):
        yield f"{call} is in the archive, and the header doesn't declare it"
    for call in sorted(declared - called):
        yield f"{call} is called neither by a program of examples/ nor by {HANDLES.name}"
    yield from complaints_of_exports()
    pins = folder / "pins"
    for heap in (str(kit() / "c/liblibc_c.a"), "-DOWN_HEAP"):
        made = run(["gcc", "-O2", "-Wall", "-Wextra", "-Werror", "-o", str(pins), str(PINS), str(ARCHIVE), heap])
        if made.returncode:
            yield f"{PINS.name} is not built with {heap}: {made.stderr}"
            continue
        ended = run([str(pins)])
        if ended.returncode:
            yield f"{PINS.name} with {heap} ends with {ended.returncode}: {ended.stderr}"


def main():
    database = Path(sys.argv[1]) if len(sys.argv) > 1 else DATABASE
    needs("rt", "gcc", "g++", "rustc", "nm", ARCHIVE, database)
    failed = False
    with tempfile.TemporaryDirectory() as folder:
        room = Path(folder)
        tried = [(f"{name}: {len(ZONES) * len(SECONDS)} questions of each kind", complaints_of_files(name, database, room))
                 for name in BUILT if name != "rule.c"]
        tried.append((f"rule.c: {len(TEXTS) * len(SECONDS)} questions of each kind", complaints_of_texts("rule.c", room)))
        tried.append(("the header, its types and its pins", complaints_of_header(room)))
        for what, complaints in tried:
            found = list(complaints)
            failed = failed or bool(found)
            print(f"{what}: {len(found)} differences")
            for each in found[:10]:
                print("  " + each)
    sys.exit(failed)


main()
