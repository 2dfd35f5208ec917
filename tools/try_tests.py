#!/usr/bin/env python3
"""Runs the tests of crates/NAME/tests, which are run and not proved.

usage: tools/try_tests.py [--fmt] [NAME ..]
       tools/try_tests.py --self-test

`rt ci` proves each test of a crate's src/, which takes seconds to minutes for a test. What a test says of values from outside
it says when it runs. So tests are next to `src/`: each text of crates/NAME/tests is a module that uses the crate by its
name, and others that it needs, as a client does. All of them, or those of the named crates, are laid into one crate with a
copy of this repository's libraries, and are run as `rt try --test` does: it stops at what Rust would panic at, and proves nothing. No
crate can use a static library: its texts are laid into the copy of that crate itself. The examples of doc comments are tests too:
tools/doc_examples.py adds them to the text doc_comments.txt.

With --fmt the texts are laid out as `rt fmt` lays out code, and none is run. --self-test tries how tests are counted, and
examples read.

Names the tests that failed, and ends with status 1 if one did, or if not each `#[test]` of the texts ran.

Takes the command rt from the variable RT, if that is set.
"""

import re
import shutil
import subprocess
import sys
import tempfile
from pathlib import Path

from doc_examples import GIVEN, statements, tests as examples
from kit import RT, tried
from sources import TOP, crates, is_static, needs, uses

LAID = "tests"
# The gate runs them while it proves, so that they take longer.
SECONDS = "1200"


def texts_of(name):
    return sorted((TOP / "crates" / name / LAID).glob("*.txt"))


def content(name, text):
    """A text of that crate, with the examples if it is the one for them."""
    return examples(name) if text.match(GIVEN) else text.read_text()


def named_in(texts):
    """The crates of this repository that the texts name."""
    return {word for text in texts for word in re.findall(r"(?m)^use (\w+)::", text.read_text()) if word in uses()}


def repository(top, names, content=content):
    """A copy of this repository with one crate more. Returns each crate that has tests laid in: the names whose they are, and the
    libraries that it names."""
    apart = [name for name in names if not is_static(name)]
    below = {library for name in apart for library in [name, *uses()[name], *named_in(texts_of(name))]}
    for file in ("HANDLES", "crates.txt"):
        shutil.copy(TOP / file, top / file)
    left = shutil.ignore_patterns("out", LAID)
    shutil.copytree(TOP / "crates", top / "crates", ignore=left)
    laid_in = {top / "crates" / name: ([name], uses()[name]) for name in names if is_static(name)}
    if apart:
        with (top / "crates.txt").open("a") as file:
            file.write(f"{LAID}: {' '.join(sorted(below))}\n")
        laid_in[top / "crates" / LAID] = apart, sorted(below)
    for crate, (those, _) in laid_in.items():
        lay(crate / "src", those, content)
    return laid_in


def lay(src, names, content):
    """The tests of crate NAME are the modules of the module of_NAME."""
    src.mkdir(parents=True, exist_ok=True)
    root = src / "lib.rt"
    text = root.read_text() if root.exists() else "#![tactic(auto)]\n"
    root.write_text(text + "".join(f"#[cfg(test)]\nmod of_{name};\n" for name in names))
    for name in names:
        (src / f"of_{name}").mkdir()
        modules = [f"mod {text.stem};\n" for text in texts_of(name)]
        (src / f"of_{name}.rt").write_text("".join(modules))
        for text in texts_of(name):
            laid(src, name, text).write_text(content(name, text))


def laid(src, name, text):
    return src / f"of_{name}" / f"{text.stem}.rt"


def lay_out(crate, names):
    """Gives the texts the layout of `rt fmt`."""
    needs(RT)
    formatted = subprocess.run([RT, "fmt"], cwd=crate, capture_output=True, text=True)
    if formatted.returncode != 0:
        sys.exit(formatted.stdout + formatted.stderr)
    for name in names:
        for text in texts_of(name):
            shutil.copyfile(laid(crate / "src", name, text), text)


def count(text):
    """How many tests a text has, also indented ones."""
    return len(re.findall(r"(?m)^[ \t]*#\[test\]", text))


def summary(due, status, report):
    """The lines about tests of which each crate has as many as `due` says, and whether all of them passed."""
    ended = re.findall(r"(?m)^test of_(\w+)::(\S+) \.\.\. (ok|FAILED)$", report)
    lines = []
    for name, wanted in due.items():
        passed = sum(crate == name and word == "ok" for crate, _, word in ended)
        failed = [test for crate, test, word in ended if crate == name and word == "FAILED"]
        lines.append(f"{name}: {passed} of {wanted} tests passed" + (f"; failed: {', '.join(failed)}" if failed else ""))
    passed, wanted = sum(word == "ok" for _, _, word in ended), sum(due.values())
    all_passed = status == 0 and passed == len(ended) == wanted > 0
    return [*lines, f"{passed} of {wanted} tests passed, status {status}"], all_passed


PASTED = "    #[test]\n    fn two(rt: HostRuntime) {\n    }\n"
TEXT = f"#[test]\nfn one(rt: HostRuntime) {{\n}}\n\n{PASTED}\n// #[test]\n"
EXAMPLE = ["let noon = f()?; // 2021-03-14 12:00:00, a Sunday", "g(noon) // (7, None)", "let x = 1; // a note"]
PASSED = "test of_low::dates::one ... ok\ntest of_low::dates::two ... ok\n"


def self_test():
    """What is counted otherwise than it must be."""
    if count(TEXT) != 2:
        yield f"{count(TEXT)} tests are counted in a text of two, one of them indented"
    for status, report, due in (
        (0, PASSED, (["low: 2 of 2 tests passed", "2 of 2 tests passed, status 0"], True)),
        (0, PASSED[: PASSED.find("test", 1)], (["low: 1 of 2 tests passed", "1 of 2 tests passed, status 0"], False)),
        (101, PASSED.replace("two ... ok", "two ... FAILED"),
         (["low: 1 of 2 tests passed; failed: dates::two", "1 of 2 tests passed, status 101"], False)),
    ):
        if summary({"low": 2}, status, report) != due:
            yield f"{summary({'low': 2}, status, report)}, where {due} is due"


    made = " ".join(statements("here", EXAMPLE))
    for due in ('let noon = f().expect(', 'told.as_str() == "2021-03-14T12:00:00"', "let told = g(noon);", 'told.as_str() == "7"', 'told.as_str() == "None"'):
        if due not in made or made.count("assert!") != 3:
            yield f"an example becomes {made}, where {due} is due"


def reports(laid_in):
    """The worst status, and what is said of the tests of each crate."""
    ran = [tried(crate, used, SECONDS) for crate, (_, used) in laid_in.items()]
    return max(status for status, _ in ran), "".join(said for _, said in ran)


def main():
    words = sys.argv[1:]
    if words == ["--self-test"]:
        faults = list(self_test())
        print("\n".join(f"tools/try_tests.py: {fault}" for fault in faults) or "tests are counted, and examples read, as they must be")
        return 1 if faults else 0
    having = [name for name in crates() if texts_of(name)]
    names = [word for word in words if word != "--fmt"] or having
    lacking = [name for name in names if name not in having]
    if lacking:
        sys.exit(f"no tests of {', '.join(lacking)}: there are those of {', '.join(having)}")
    due = {name: sum(count(content(name, text)) for text in texts_of(name)) for name in names}
    with tempfile.TemporaryDirectory() as folder:
        if "--fmt" in words:
            laid_in = repository(Path(folder), names, lambda _, text: text.read_text())
            for crate, (those, _) in laid_in.items():
                lay_out(crate, those)
            return 0
        status, report = reports(repository(Path(folder), names))
    lines, all_passed = summary(due, status, report)
    if not all_passed:
        print(report)
    print("\n".join(lines))
    return 0 if all_passed else 1


if __name__ == "__main__":
    sys.exit(main())
