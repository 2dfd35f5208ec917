#!/usr/bin/env python3
"""Tries the programs of tools/refused, which must not compile: values that outlive what they borrow, and types that don't mix.

usage: tools/must_not_compile.py [NAME ..]

Each text is a test, which says in its head why it is rejected, by `//! error: ` and words of the compiler's message. Lines that
end with `// refused` make the fault, and lines that end with `// accepted` mend it. The texts are tried both ways, with a
copy of this repository's libraries: without their faults all tests must pass, in one crate, so that nothing else is amiss; with
its fault the compiler must reject each text, with those words at a line of that text.
"""

import re
import shutil
import sys
import tempfile
from pathlib import Path

from kit import REFUSED, tried
from sources import TOP, libraries_below

TEXTS = TOP / "tools/refused"
# The gate tries them while it proves, so that they take longer.
SECONDS = "1200"
LIBRARIES = sorted({*libraries_below("zoned_ref"), "zoned_ref"})


def without(text, mark):
    return "".join(line for line in text.splitlines(True) if not line.rstrip().endswith(f"// {mark}"))


def repository(top):
    """A copy of this repository's libraries, with which texts are tried."""
    (top / "HANDLES").write_text((TOP / "HANDLES").read_text())
    listed = (TOP / "crates.txt").read_text().splitlines()
    listed = [line for line in listed if line.split(":")[0] in LIBRARIES]
    (top / "crates.txt").write_text("\n".join([*listed, f"tried: {' '.join(LIBRARIES)}\n"]))
    for library in LIBRARIES:
        kept = shutil.ignore_patterns("out")
        shutil.copytree(TOP / "crates" / library, top / "crates" / library, ignore=kept)
    (top / "crates/tried/src").mkdir(parents=True)
    return top / "crates/tried"


def try_texts(crate, texts):
    """The status with which these texts are tried as modules of one crate, and what is said of them."""
    source = crate / "src"
    shutil.rmtree(source)
    source.mkdir()
    source.joinpath("lib.rt").write_text("#![tactic(auto)]\n" + "".join(f"#[cfg(test)]\nmod {name};\n" for name in texts))
    for name, text in texts.items():
        source.joinpath(f"{name}.rt").write_text(text)
    return tried(crate, LIBRARIES, SECONDS)


def faults_of(crate, texts):
    """What is amiss with each of these texts when they are tried with their faults, or None for it.

    They are tried in one crate. The compiler reports those faults that it meets first, and the rest once those texts are left out.
    """
    found, left = {}, {name: without(text, "accepted") for name, text in texts.items()}
    while left:
        status, report = try_texts(crate, left)
        lines = {name: re.findall(rf"(?m)^src/{name}\.rt:\d+:\d+: error.*$", report) for name in left}
        told = [name for name in left if lines[name] and status == REFUSED]
        for name in told or left:
            error = re.search(r"^//! error: (.*)$", texts[name], re.M)
            if not error:
                found[name] = "it names no error"
            elif name in told and any(error[1] in line for line in lines[name]):
                found[name] = None
            else:
                found[name] = f"status {status}, where `{error[1]}` was due:\n{report}"
        left = {name: text for name, text in left.items() if name not in found}
    return found


def main():
    known = {path.stem: path.read_text() for path in sorted(TEXTS.glob("*.txt"))}
    names = sys.argv[1:] or list(known)
    texts = {name: known[name] for name in names if name in known}
    with tempfile.TemporaryDirectory() as folder:
        crate = repository(Path(folder))
        status, report = try_texts(crate, {name: without(text, "refused") for name, text in texts.items()})
        do_pass = status == 0 and f"{len(texts)} passed; 0 failed" in report
        if not do_pass:
            print(f"without their faults they don't all pass:\n{report}")
        faults = 0
        for name, fault in faults_of(crate, texts).items():
            faults += fault is not None
            print(f"{name}: {fault or 'refused, as it must be'}", flush=True)
    print(f"{len(texts)} tried, {faults} not as they must be")
    return 0 if do_pass and not faults and len(texts) == len(names) else 1


if __name__ == "__main__":
    sys.exit(main())
