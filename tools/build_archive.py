#!/usr/bin/env python3
"""Builds the static library after `rt ci`: crates/zoned_ffi/out/libzoned_ffi.a.

usage: tools/build_archive.py [--target TRIPLE] [FILE]

`rt lib` in that crate builds it too, and is what README shows. But it proves the libraries below again if `rt ci` has built them;
this uses them as they are, and checks only the crate. While an `rt ci` still runs, with its output in FILE, it waits until they are
proved. The gate calls it. Ends with the checker's status.

--target aarch64-unknown-linux-gnu builds crates/zoned_ffi/out/libzoned_ffi-aarch64.a, for 64-bit ARM. The kit has no heap for it:
compile crates/zoned_ffi/install/heap.c, and name both to tools/install.sh (tools/try_install.py shows how).
"""

import argparse
import subprocess
import sys
from pathlib import Path

from kit import compiled, wait_for, words
from sources import TOP, libraries_below

NAME = "zoned_ffi"


def main():
    parser = argparse.ArgumentParser(usage=__doc__.split("usage: ")[1].split("\n")[0])
    parser.add_argument("--target")
    parser.add_argument("log", nargs="?", type=Path)
    asked = parser.parse_args()
    if not wait_for(libraries_below(NAME), asked.log):
        sys.exit(f"a library below {NAME} isn't proved")
    folder = TOP / "crates" / NAME
    (folder / "out").mkdir(exist_ok=True)
    processor = f"-{asked.target.split('-')[0]}" if asked.target else ""
    made = [*words("build", NAME), *compiled(f"out/lib{NAME}{processor}.a", asked.target)]
    return subprocess.run(made, cwd=folder, stdin=subprocess.DEVNULL).returncode


if __name__ == "__main__":
    sys.exit(main())
