#!/usr/bin/env python3
"""Tries the code blocks of the documents, without a proof.

usage: tools/try_documents.py [rattle | programs | c | python ..]

Without words all four are tried:

- rattle: each line of a `rust` block of README.md, docs/FROM_CHRONO.md and docs/OWN_ZONE.md is code of crates/*/src, which `rt ci`
  proves, or of crates/*/tests or an example of a doc comment, which tools/try_tests.py runs; and so is each span of the column *here*
  of FROM_CHRONO's tables. Comments, white space and commas before a closing bracket don't count. (tools/check_documents.py tries this
  too.)
- programs: each command of a `console` block (a line that begins with `$ `) prints what follows it there. It needs the built
  zoneq and zonedump. A command with `rt try` runs in a copy of the crates, so that it may run while `rt ci` does. Those that run
  the tests aren't run here: the gate runs them by themselves. FROM_CHRONO's first program prints what it says, too.
- c: each `c` block, under the name that the line before it gives, and the `console` block that compiles it and runs it. It needs
  the static library, gcc and rt.
- python: the `pycon` blocks of each page, one after another, by doctest. It needs python/src/sahvumbi/libzoned_ffi.so, which tools/python_tests.sh builds, and
  Debian's python3 with numpy and pandas.

`sh` blocks aren't run here: tools/python_tests.sh runs those that install the package, and the gate proves what `rt run` proves.
It takes a minute. Prints what differs, and ends with status 1 if anything does.
"""

import os
import re
import subprocess
import sys
import tempfile
from pathlib import Path

from doc_examples import GIVEN, blocks as examples
from sources import TOP, crates, files, needs, shown, text_of, without_comments
from try_tests import repository

PAGES = [TOP / "README.md", *sorted((TOP / "docs").glob("*.md")), TOP / "python/README.md"]
FROM_CHRONO = TOP / "docs/FROM_CHRONO.md"
TESTS = "tools/try_tests.py"
WITH_RATTLE = [TOP / "README.md", FROM_CHRONO, TOP / "docs/OWN_ZONE.md"]
OURS = "| task | chrono 0.4.45 | here |"
PYTHON = "/usr/bin/python3"
PACKAGE = TOP / "python/src/sahvumbi/libzoned_ffi.so"


def blocks(path, language):
    """The code blocks of a page in that language: the place, the line before it and the text of each."""
    for block in re.finditer(rf"(?ms)^([^\n]*)\n+```{language}\n(.*?)^```", text_of(path)):
        yield block.start(2), block[1], block[2]


# Rattle


def bare(text):
    """Code without white space, and without the commas that rt fmt puts before a closing bracket."""
    return re.sub(r",(?=[)}\]])", "", re.sub(r"\s+", "", text))


def code():
    texts = [*map(text_of, [*files("src", ".rt"), *files("tests", ".txt")]), *("\n".join(lines) for crate in crates() for _, lines in examples(crate))]
    return "".join(bare(without_comments(text, "//")) for text in texts)


def ours(text):
    """The spans of code in the last column of the tables of FROM_CHRONO, each with its place."""
    for table in re.finditer(rf"(?m)^{re.escape(OURS)}\n(?:\|.*\n)*", text):
        for row in re.finditer(r"(?m)^\|.* \| (.*) \|$", table[0]):
            for span in re.finditer(r"`([^`]+)`", row[1]):
                yield table.start() + row.start(1) + span.start(), span[1]


def rattle():
    known = code()
    for crate in crates():
        if any(examples(crate)) and not (TOP / "crates" / crate / GIVEN).is_file():
            yield f"crates/{crate}: its doc comments have examples, and there is no {GIVEN} with which they are run"
    for path in WITH_RATTLE:
        for place, _, text in blocks(path, "rust"):
            for line in re.finditer(r"(?m)^.*$", without_comments(text, "//")):
                if bare(line[0]).rstrip(",") not in known:
                    yield f"{shown(path, place + line.start())}: no code has the line: {line[0].strip()}"
    for place, span in ours(text_of(FROM_CHRONO)):
        if bare(span) not in known:
            yield f"{shown(FROM_CHRONO, place)}: no code has: {span}"


# Programs, C and Python


def commands(text):
    """The commands of a `console` block, each with what it prints."""
    return re.findall(r"(?m)^\$ ((?:.*\\\n)*.*)\n((?:(?!\$ ).*\n)*)", text)


def printed(path, place, text, folder):
    """What commands print that isn't what follows them. A folder is the top of the repository, or has a link to its crates."""
    for command, due in commands(text):
        if command.startswith(TESTS):
            continue
        done = subprocess.run(["bash", "-c", command], cwd=folder, stdin=subprocess.DEVNULL, capture_output=True, text=True)
        if done.stdout + done.stderr != due:
            yield f"{shown(path, place)}: {command}\n  due:\n{due}  printed:\n{done.stdout}{done.stderr}"


def programs():
    needs("rt", TOP / "crates/zoneq/out/zoneq", TOP / "crates/zonedump/out/zonedump")
    with tempfile.TemporaryDirectory() as folder:
        copy = Path(folder, "copy")
        copy.mkdir()
        repository(copy, [])
        for path in PAGES:
            for place, _, text in blocks(path, "console"):
                if "gcc" not in text:
                    yield from printed(path, place, text, copy if "rt try" in text else TOP)
        yield from first_program(copy)


def first_program(copy):
    """What the first program of FROM_CHRONO prints that isn't in the comment at its output, in the repository that the commands make."""
    (place, _, made), = blocks(FROM_CHRONO, "sh")
    main = next(text for _, _, text in blocks(FROM_CHRONO, "rust") if "fn main(" in text)
    (copy / "tools").symlink_to(TOP / "tools")
    subprocess.run(["bash", "-ec", made], cwd=copy, check=True, capture_output=True)
    crate = copy.parent / "mine/crates/my_app"
    (crate / "src/main.rt").write_text(main)
    ran = subprocess.run(["rt", "try"], cwd=crate, stdin=subprocess.DEVNULL, capture_output=True, text=True)
    due = re.search(r"println!.* // (.*)", main)[1]
    if ran.stdout.strip() != due:
        yield f"{shown(FROM_CHRONO, place)}: the program prints:\n{ran.stdout}{ran.stderr}"


def c():
    needs("rt", "gcc", TOP / "crates/zoned_ffi/out/libzoned_ffi.a")
    for path in PAGES:
        with tempfile.TemporaryDirectory() as folder:
            (Path(folder) / "crates").symlink_to(TOP / "crates")
            for place, before, text in blocks(path, "c"):
                name = re.search(r"`(\w+\.c)`:$", before)
                if name:
                    (Path(folder) / name[1]).write_text(text)
            for place, _, text in blocks(path, "console"):
                if "gcc" in text:
                    yield from printed(path, place, text, folder)


def python():
    needs(Path(PYTHON), PACKAGE)
    environment = {**os.environ, "PYTHONPATH": str(TOP / "python/src"), "PYTHONDONTWRITEBYTECODE": "1"}
    for path in PAGES:
        found = list(blocks(path, "pycon"))
        if not found:
            continue
        with tempfile.NamedTemporaryFile("w", suffix=".txt") as file:
            file.write("\n".join(text for _, _, text in found))
            file.flush()
            made = [PYTHON, "-m", "doctest", file.name]
            done = subprocess.run(made, cwd="/", env=environment, capture_output=True, text=True)
        if done.returncode != 0:
            yield f"{shown(path, found[0][0])}: {done.stdout}{done.stderr}"


TRIED = {"rattle": rattle, "programs": programs, "c": c, "python": python}


def main():
    words = sys.argv[1:] or list(TRIED)
    if not set(words) <= set(TRIED):
        sys.exit(__doc__)
    faults = [fault for word in words for fault in TRIED[word]()]
    print("\n".join(faults) or f"{', '.join(words)}: the documents' code does what they say")
    sys.exit(bool(faults))


if __name__ == "__main__":
    main()
