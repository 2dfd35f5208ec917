#!/usr/bin/env python3
"""Tries the calls of zoned_ffi.h by handle from C: try_handles.c says how.

usage: tools/try_handles.py [CALLS [SEED]]

CALLS random calls are made (a million), by SEED (1). It needs crates/zoned_ffi/out/libzoned_ffi.a, which `rt lib` builds in
crates/zoned_ffi, gcc, and a tz database in /usr/share/zoneinfo. The program is built and run as it is, also to see how much stack
calls use; with AddressSanitizer, which finds leaks, and UndefinedBehaviorSanitizer, and with ThreadSanitizer, a tenth as often; and, if
valgrind is installed, under memcheck, helgrind and drd, with fewer calls. (The archive isn't instrumented: ThreadSanitizer sees what the
program and the heap do, helgrind and drd see all.) It takes a minute. The gate runs it. Ends with status 1 if anything differs, leaks or
races.
"""

import shutil
import subprocess
import sys
import tempfile
from pathlib import Path

from kit import kit
from sources import DATABASE, TOP, needs

PROGRAM = TOP / "tools/try_handles.c"
ARCHIVE = TOP / "crates/zoned_ffi/out/libzoned_ffi.a"
ZONES = ["America/New_York", "Europe/Dublin", "Asia/Tehran", "Africa/Casablanca", "Pacific/Apia", "Antarctica/Troll", "Etc/UTC"]
SANITIZERS = ["-g", "-fsanitize=address,undefined", "-fno-sanitize-recover=all"]
THREAD_SANITIZER = ["-g", "-fsanitize=thread"]
VALGRIND = ["valgrind", "--quiet", "--error-exitcode=9"]
TOOLS = {"memcheck": ["--leak-check=full"], "helgrind": [], "drd": []}


def build(name, folder, flags):
    program = folder / name
    words = ["gcc", "-O2", "-Wall", "-Wextra", "-Werror", *flags, "-o", program, PROGRAM, ARCHIVE, kit() / "c/liblibc_c.a"]
    subprocess.run([*map(str, words), "-Wl,--wrap=malloc,--wrap=realloc", "-lpthread"], check=True)
    return str(program)


def failed(what, command):
    ended = subprocess.run(command, capture_output=True, text=True)
    print(f"{what}: {ended.stdout.strip() if ended.returncode == 0 else f'status {ended.returncode}'}")
    if ended.returncode:
        print(ended.stderr[:4000])
    return ended.returncode != 0


def main():
    calls, seed = (int(word) for word in (sys.argv[1:] + ["1000000", "1"][len(sys.argv) - 1 :]))
    needs("rt", "gcc", ARCHIVE, DATABASE)
    files = [str(DATABASE / zone) for zone in ZONES]
    with tempfile.TemporaryDirectory() as folder:
        plain = build("plain", Path(folder), [])
        checked = build("checked", Path(folder), SANITIZERS)
        raced = build("raced", Path(folder), THREAD_SANITIZER)
        results = [
            failed("handles", [plain, str(calls), str(seed), *files]),
            failed("stack", [plain, "stack"]),
            failed("handles, with sanitizers", [checked, str(calls // 10), str(seed + 1), *files]),
            failed("handles, with ThreadSanitizer", [raced, str(calls // 10), str(seed + 1), *files]),
        ]
        for tool, flags in TOOLS.items() if shutil.which("valgrind") else ():
            words = [*VALGRIND, f"--tool={tool}", *flags, plain, str(calls // 500), str(seed + 2)]
            results.append(failed(f"handles, under {tool}", [*words, *files]))
    sys.exit(any(results))


main()
