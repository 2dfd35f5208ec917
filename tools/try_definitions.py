#!/usr/bin/env python3
"""Tries wrong definitions: edits of pages of specs/ that a pin or a law must reject.

usage: tools/try_definitions.py [--lanes N] [--beside FILE] [--tenth] [EDIT ..]

A wrong definition is a block of its crate's wrong_definitions.txt: the page and the texts that it exchanges there, each of which is
once in the page, what the definition says then, and the pins that are no longer proved:

    [change_of_offset_only]
    file: specs/Changes.antt
    old: pub differ : c.before ≢ c.after
    new: pub differ : c.before.offset ≢ c.after.offset
    says: change: by another offset only
    pins: clock_changes::differences

A line `law: CRATE FUNCTION` in place of `pins:` names a law that must reject it, if no pin does.

The pins are checked over the pages alone, in a copy of the repository: the libraries keep their types and their pages, and lose
their functions; each of their lemmas is taken as given, with a hole for its proof. So it is the words that reject an edit, and no
library needs to be built. First the pins of all wrong definitions, or of those that are named, are checked over the pages as they
are: each must be proved there. Of a law its crate keeps its functions and its lemmas. If the page is of the law's own crate, the
libraries below are used as `rt ci` or `rt check` has built them: beside an `rt ci` that is still running, with its output in FILE,
as soon as they are proved.

Edits are tried together if none of them changes a definition that a pin of another one speaks of, also through other definitions
and through lemmas of crates/tests_pins. An edit doesn't count if a page can't be read any more, or if a proof misses a name.

With no names all are tried, N at a time (2), which takes half an hour of a processor and more, and their number and the date are
written to docs/TESTING.md; with --tenth only a tenth of them, chosen by the commit. Ends with status 1 unless each edit is rejected.
"""

import argparse
import re
import shutil
import subprocess
import sys
import tempfile
from collections import defaultdict
from concurrent.futures import ThreadPoolExecutor
from dataclasses import dataclass, field
from functools import lru_cache
from pathlib import Path
from queue import Queue

from edits import ALL, DEFINITIONS_TRIED, WRONG_DEFINITIONS, all_blocks, record, tenth
from kit import PROVED_WITHOUT_LEMMAS, UNREAD, VERDICT, wait_for, words, words_over_pages
from sources import TOP, imports_of, libraries_below, text_of, uses

DEFINITIONS = TOP / "docs/DEFINITIONS.md"
# A line below a definition: pins, and what they say.
PINNED = re.compile(r"(?m)^  - ((?:`\w+::\w+`(?:, )?)+): (.*)$")
WORD = re.compile(r"[^\s(){}\[\],;:.λ→×≡∙|\"`?]+")
FUNCTION = re.compile(r'( *)(?:pub(?:\([a-z: ]+\))? )?(?:(?:final|const|unsafe|extern "C") )*fn (\w+)')
BLOCK = re.compile(r"(?:pub(?:\([a-z: ]+\))? )?(?:unsafe )?(impl|trait)\b")
SIGNATURE = re.compile(r"(?:pub )?([^\s(){}\[\],;]+) :(?: |$)")


@dataclass
class Edit:
    """A wrong definition."""

    name: str
    # Each text that it exchanges, with its page before and the new text after it.
    pairs: list = field(default_factory=list)
    says: str = ""
    pins: list = field(default_factory=list)
    law: tuple = ()

    @property
    def page(self):
        """The page of the definition, from the folder of the crates on: the first one that the edit changes."""
        return self.pairs[0][0] if self.pairs else ""

    @property
    def file(self):
        return f"crates/{self.page}"

    def is_over_built(self):
        """Whether the page is of its law's crate, so that the libraries below are as they were built."""
        return self.page.startswith(f"{self.law[0]}/")

    def applied(self, pages={}):
        """The pages that it changes, over those of `pages`, or None if a text isn't in its page exactly once."""
        made = {}
        for page, old, new in self.pairs:
            path = TOP / "crates" / page
            text = made.get(page) or pages.get(page) or (text_of(path) if path.is_file() else "")
            if text.count(old) != 1:
                return None
            made[page] = text.replace(old, new)
        return made


@lru_cache(maxsize=None)
def edits():
    """The wrong definitions, in the order of their pages and names."""
    found = []
    for block in all_blocks(WRONG_DEFINITIONS):
        notes, pairs = block.notes, [(f"{block.crate}/{file}", old, new) for file, old, new in block.pairs]
        pins = [pin for row in notes["pins"] for pin in row.split(", ")]
        found.append(Edit(block.name, pairs, "".join(notes["says"]), pins, tuple(" ".join(notes["law"]).split())))
    return sorted(found, key=lambda edit: (edit.file, edit.name))


def faults():
    """What is wrong with the files, and with the pins that docs/DEFINITIONS.md lists."""
    for edit in edits():
        if not edit.applied():
            yield f"wrong definition {edit.name}: an old text isn't once in its page, {edit.file} or another one"
        for pin in edit.pins:
            module, _, function = pin.partition("::")
            source = TOP / f"crates/tests_pins/src/{module}.rt"
            if not source.is_file() or f"pub fn {function}()" not in text_of(source):
                yield f"wrong definition {edit.name}: there is no pin {pin}"
    listed = [pin for found in PINNED.finditer(text_of(DEFINITIONS)) for pin in re.findall(r"[\w:]+", found[1])]
    for pin in sorted(pins() ^ set(listed)) + [pin for pin in set(listed) if listed.count(pin) > 1]:
        yield f"docs/DEFINITIONS.md: it doesn't list the pin {pin} once, or there is none"


# The lines of docs/DEFINITIONS.md


def pins():
    """The pins of the code, each as MODULE::FUNCTION; those of zoned_ffi are in its module pins."""
    paths = [*sorted((TOP / "crates/tests_pins/src").glob("*.rt")), TOP / "crates/zoned_ffi/src/pins.rt"]
    return {f"{path.stem}::{pin}" for path in paths for pin in re.findall(r"(?m)^pub fn (\w+)\(", text_of(path))}


# Copies of crates, without code and without proofs


def blocks(text):
    """The text cut before each line that begins at its left side, but for closing brackets."""
    cut = [0, *[found.start() for found in re.finditer(r"(?m)^[^\s})\]|]", text)][1:], len(text)]
    return [text[start:end] for start, end in zip(cut, cut[1:])]


def without_proofs(text):
    """A page of lemmas with a hole for each proof."""
    kept, lemma = [], None
    for block in blocks(text):
        signature = SIGNATURE.match(block)
        if signature and not block.startswith("use "):
            lemma = signature[1]
            kept.append(f"{block.rstrip()}\n{lemma} = ?\n\n")
        elif not (lemma and block.split(None, 1)[0] in (lemma, "unfolding")):
            lemma = lemma if block.startswith("--") else None
            kept.append(block)
    return "".join(kept)


def without_functions(text, removed):
    """A file of code with its types and its impls of traits: functions are left out, and the others have no body."""
    kept, lines, at, kind = [], text.split("\n"), 0, "free"
    while at < len(lines):
        line, function = lines[at], FUNCTION.match(lines[at])
        if BLOCK.match(line):
            head = " ".join(lines[at : at + 6]).split("{")[0]
            is_trait = BLOCK.match(line)[1] == "trait" or re.search(r"\bfor\b(?!<)", head)
            kind = "free" if line.endswith("{}") else "trait" if is_trait else "inherent"
        elif line == "}":
            kind = "free"
        if not function or "const fn" in line:
            kept.append(line)
            at += 1
            continue
        end = end_of(lines, at, function[1], kind == "trait")
        if kind == "trait":
            kept += without_body(lines[at : end + 1], function[1])
        else:
            while kept and re.match(rf"{function[1]}(///|//|#\[)", kept[-1]):
                kept.pop()
            removed |= {function[2]} if kind == "free" else set()
        at = end + 1
    return "\n".join(kept)


def end_of(lines, at, indent, may_lack_body):
    """The last line of the function that begins at that line."""
    if re.search(r"\{.*\}$|;$", lines[at]):
        return at
    for end in range(at, len(lines)):
        if lines[end] in (f"{indent}}}", f"{indent}{{}}"):
            return end
        if may_lack_body and lines[end].endswith(";") and not any(is_body(line, indent, at == place) for place, line in enumerate(lines[at:end], at)):
            return end
    raise SystemExit(f"no end of {lines[at]}")


def is_body(line, indent, is_first):
    """Whether a function's body begins at the end of that line of it."""
    return line == f"{indent}{{" or line.endswith("{") and (is_first or line.startswith(f"{indent})"))


def without_body(lines, indent):
    """A method of a trait whose body is not reached."""
    for place, line in enumerate(lines):
        if is_body(line, indent, place == 0):
            return [*lines[: place + 1], f"{indent}    unreachable!()", f"{indent}}}"]
    return lines


def without_names(text, removed):
    """A file of code whose imports don't name these functions."""

    def fewer(found):
        body = re.sub(r"(?<=[{,:\s])(\w+)(?: as \w+)?(?=\s*[,}]|\s*$)", lambda it: "" if it[1] in removed else it[0], found[2])
        while True:
            shorter = re.sub(r",\s*,", ",", body)
            shorter = re.sub(r"\{\s*,", "{", re.sub(r",\s*\}", "}", shorter))
            shorter = re.sub(r"\w+::\{\s*\}", "", shorter)
            if shorter == body:
                break
            body = shorter
        return "" if re.search(r"::\s*$", body) or body.strip() in ("", "{}") else f"{found[1]}{body};"

    return re.sub(r"(?m)^( *(?:pub(?:\([a-z: ]+\))? )?use )([^;]*);", fewer, text)


def lay(room, crate, with_code=False, is_over_built=False):
    """Lays a copy of the crate and of the libraries below it: of these only types and pages, and their lemmas are taken as given.
    A crate that calls what lies below needs the code too."""
    removed = set()
    below = [] if is_over_built else sorted(libraries_below(crate))
    for name in [*below, crate]:
        for part in ("src", "specs", "proofs"):
            if (TOP / "crates" / name / part).is_dir():
                shutil.copytree(TOP / "crates" / name / part, room / name / part)
        if name == crate:
            continue
        for path in (room / name / "proofs").rglob("*.antt"):
            if path.name in ("Answers.antt", "Invariants.antt", "Proof.antt"):
                path.unlink()
            else:
                path.write_text(without_proofs(path.read_text()))
        for path in (room / name / "src").rglob("*.rt") if not with_code else []:
            path.write_text(without_functions(path.read_text(), removed))
    for name in below:
        for path in (room / name / "src").rglob("*.rt"):
            path.write_text(without_names(path.read_text(), removed))
    for path in sorted(room.rglob("*"), reverse=True):
        if path.is_dir() and not any(path.iterdir()):
            path.rmdir()


def check(room, crate, functions, is_over_built=False):
    """Checks these functions of the crate in that copy, and returns what is said."""
    (room / "kept").mkdir(exist_ok=True)
    only = [word for name in functions for word in ("--only", name)]
    start = words("check", crate) if is_over_built else words_over_pages(crate, room)
    made = [*start, "--incremental", room / "kept", "--allow-holes", *only]
    ran = subprocess.run(made, cwd=room / crate, stdin=subprocess.DEVNULL, capture_output=True, text=True)
    return ran.stdout + ran.stderr


# Which edits can be tried together


@lru_cache(maxsize=None)
def page_of(module):
    """The page of that name, if it is one of this repository: Rattle.tz_info.specs.Zones."""
    crate, *rest = module.split(".")[1:] or [""]
    path = TOP / "crates" / crate / ("/".join(rest) + ".antt")
    root = TOP / "crates" / crate / "specs/Lib.antt"
    if crate in uses() and not path.is_file() and root.is_file():
        passed = re.search(rf"(?m)^pub use (\S+\.{rest[-1]})$", text_of(root))
        return page_of(passed[1]) if passed else None
    return path if crate in uses() and path.is_file() else None


@lru_cache(maxsize=None)
def definitions(path):
    """What a page defines: each name with the words of its definitions; and what its imports name."""
    found = {}
    for block in blocks(text_of(path)):
        if not block.startswith(("use ", "pub use", "unfoldable pub use", "--", "pub mod", "mod ", "infix")):
            for name in defined(block):
                found.setdefault(name, set()).update(WORD.findall(block))
    return found, imports_of(text_of(path).replace("unfoldable pub use", "pub use"))


def defined(block):
    """The names that a block of a page defines: that of a definition, or of data with its cases."""
    words = WORD.findall(block.split("\n")[0])
    plain = [word for word in words if word not in ("pub", "abbrev", "unfoldable", "opaque", "record", "data", "unfolding")]
    cases = re.findall(rf"(?m)^  ({WORD.pattern}) :", block) if "data" in words else []
    return {*plain[:1], *cases}


def named(words, own, imports):
    """The definitions that these words name, as pairs of a page and a name."""
    for word in words:
        if own and word in definitions(own)[0]:
            yield own, word
        elif word in imports:
            module, there = imports[word]
            page = page_of(module)
            if page and there:
                yield from named([there], page, definitions(page)[1])
            elif page:
                yield from ((page, name) for name in definitions(page)[0])


@lru_cache(maxsize=None)
def spoken_of(pin):
    """Each definition that the pin speaks of: in its clauses and its answers, and through other definitions and lemmas."""
    module, _, function = pin.partition("::")
    crate = TOP / "crates" / ("zoned_ffi" if module == "pins" else "tests_pins")
    source = text_of(crate / f"src/{module}.rt")
    start = source.index(f"pub fn {function}()")
    todo = set(named(WORD.findall(source[start : source.index("{}\n", start)]), None, imports_of(source)))
    answers = crate / f"proofs/{module}/{function}/Answers.antt"
    if answers.is_file():
        todo |= set(named(WORD.findall(text_of(answers)), answers, imports_of(text_of(answers))))
    seen = set()
    while todo:
        page, name = todo.pop()
        seen.add((page, name))
        words, imports = definitions(page)
        todo |= set(named(words.get(name, ()), page, imports)) - seen
    return seen


@lru_cache(maxsize=None)
def changed(name):
    """The definitions that the edit of that name changes."""
    edit = next(edit for edit in edits() if edit.name == name)
    return {
        (TOP / "crates" / page, name)
        for page, old, _ in edit.pairs
        for block in blocks(text_of(TOP / "crates" / page))
        if old in block and not block.startswith(("use", "pub use"))
        for name in defined(block)
    }


def are_apart(a, b):
    spoken = [set().union(*map(spoken_of, edit.pins)) for edit in (a, b)]
    return not (changed(a.name) & spoken[1] or changed(b.name) & spoken[0])


def rounds(chosen):
    """The edits in rounds, each of edits that can be tried together."""
    found = []
    for edit in chosen:
        for others in found:
            if all(are_apart(edit, other) for other in others) and made([*others, edit]) is not None:
                others.append(edit)
                break
        else:
            found.append([edit])
    return found


def made(chosen):
    """The pages that the edits change, or None if a text isn't in its page exactly once."""
    pages = {}
    for edit in chosen:
        texts = edit.applied(pages)
        if texts is None:
            return None
        pages |= texts
    return pages


# Trying them


def verdicts(said, crate):
    """What is said of each function."""
    return dict(re.findall(rf"(?m)^(?=fn {crate}::){VERDICT}$", said))


def is_accepted(verdict):
    return bool(re.fullmatch(PROVED_WITHOUT_LEMMAS, verdict))


def unread(edit, said, room):
    """The faults of the edit's pages, and the names that pins miss: nothing that a pin says."""
    errors = re.findall(r"(?m)^(\S+?):\d+:\d+: error: (.*)$", said)
    pages = {str(room / page) for page, *_ in edit.pairs}
    return [f"{path}: {text}" for path, text in errors if path in pages or not path.startswith(str(room)) and re.search(UNREAD, text)]


def outcome(edit, said, room, crate):
    """What is said of an edit, and whether it is rejected."""
    functions = [edit.law[1]] if edit.law else edit.pins
    found = [next((it for path, it in verdicts(said, crate).items() if f"::{path}".endswith(f"::{name}")), "") for name in functions]
    elsewhere = [it for it in found if re.search(rf"stands on `Rattle\.(?!{crate}\.)", it)]
    if unread(edit, said, room) or elsewhere or not all(found):
        return f"{edit.name}: not tried: {[*unread(edit, said, room), *elsewhere, said[-300:]][0][:300]}", False
    if any(map(is_accepted, found)):
        return f"{edit.name}: NOT REJECTED by {', '.join(n for n, it in zip(functions, found) if is_accepted(it))}", False
    return f"{edit.name}: rejected by {', '.join(functions)}", True


def write(room, pages):
    for page, text in pages.items():
        (room / page).write_text(text)


def restore(room, pages):
    for page in pages:
        (room / page).write_text(text_of(TOP / "crates" / page))


def tried(chosen, room):
    """Tries edits of one round by pins in that copy. If pages can't be read, those that change them are tried one by one."""
    pages = made(chosen)
    write(room, pages)
    said = check(room, "tests_pins", sorted({pin for edit in chosen for pin in edit.pins}))
    restore(room, pages)
    faulty = [edit for edit in chosen if unread(edit, said, room)]
    if faulty and len(chosen) > 1:
        apart = [[edit for edit in chosen if edit not in faulty], *([edit] for edit in faulty)]
        return [row for those in apart if those for row in tried(those, room)]
    return [outcome(edit, said, room, "tests_pins") for edit in chosen]


def tried_by_law(law, is_over_built, chosen, log):
    """Tries edits by a law in a copy of its crate, one after the other, and says of each what came of it."""
    crate, function = law
    if is_over_built and not wait_for(libraries_below(crate), log):
        yield from ((f"{edit.name}: not tried: the libraries below {crate} aren't proved", False) for edit in chosen)
        return
    with tempfile.TemporaryDirectory() as folder:
        room = Path(folder)
        lay(room, crate, with_code=True, is_over_built=is_over_built)
        before = verdicts(check(room, crate, [function], is_over_built), crate)
        is_proved = before and all(map(is_accepted, before.values()))
        for edit in chosen:
            if not is_proved:
                yield f"{edit.name}: {function} isn't proved of the page as it is", False
                continue
            pages = edit.applied()
            write(room, pages)
            yield outcome(edit, check(room, crate, [function], is_over_built), room, crate)
            restore(room, pages)


def tried_by_pins(chosen, pins, lanes):
    """Tries edits by pins, and says of each what came of it, if all of `pins` are proved of the pages as they are."""
    with tempfile.TemporaryDirectory() as folder:
        rooms = Queue()
        first = Path(folder) / "0"
        lay(first, "tests_pins")
        said = check(first, "tests_pins", pins)
        found = verdicts(said, "tests_pins")
        unproved = [pin for pin in pins if not is_accepted(found.get(pin, ""))]
        if unproved:
            yield f"not proved of the pages as they are: {', '.join(unproved)}: {said[-900:] if not found else ''}", False
            return
        for lane in range(1, lanes):
            shutil.copytree(first, Path(folder) / str(lane))
        for lane in range(lanes):
            rooms.put(Path(folder) / str(lane))

        def one(those):
            room = rooms.get()
            try:
                return tried(those, room)
            finally:
                rooms.put(room)

        with ThreadPoolExecutor(lanes) as pool:
            for rows in pool.map(one, rounds(chosen)):
                yield from rows


def main():
    given = argparse.ArgumentParser(usage=__doc__.partition("usage: ")[2].partition("\n\n")[0])
    given.add_argument("--lanes", type=int, default=2)
    given.add_argument("--beside", type=Path)
    given.add_argument("--tenth", action="store_true")
    given.add_argument("names", nargs="*")
    given = given.parse_args()
    missing = set(given.names) - {edit.name for edit in edits()}
    if missing:
        sys.exit(f"no wrong definition of this name: {', '.join(sorted(missing))}")
    for edit in edits():
        if not edit.applied():
            sys.exit(f"{edit.name}: an old text isn't exactly once in its page, {edit.file} or another one")
    is_chosen = tenth() if given.tenth else lambda name: not given.names or name in given.names
    chosen = [edit for edit in edits() if is_chosen(edit.name)]
    count = rejected = 0
    by_laws = defaultdict(list)
    for edit in chosen:
        if edit.law:
            by_laws[edit.law, edit.is_over_built()].append(edit)
    by_law = (row for law, those in by_laws.items() for row in tried_by_law(*law, those, given.beside))
    by_pins = [edit for edit in chosen if edit.pins]
    # A pin that isn't proved of the pages as they are fails each run, whichever tenth the commit chooses.
    pins = sorted({pin for edit in (chosen if given.names else edits()) for pin in edit.pins})
    for rows in (tried_by_pins(by_pins, pins, given.lanes) if by_pins else [], by_law):
        for row, is_rejected in rows:
            print(row, flush=True)
            count, rejected = count + 1, rejected + is_rejected
    print(f"{count} tried, {count - rejected} not rejected")
    if count == len(edits()):
        record(DEFINITIONS_TRIED, {ALL: [count, rejected]})
    return 0 if count == rejected == len(chosen) else 1


if __name__ == "__main__":
    sys.exit(main())
