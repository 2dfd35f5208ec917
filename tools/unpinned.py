#!/usr/bin/env python3
"""Finds words of public contracts that no pin speaks of.

usage: tools/unpinned.py [--list]

A pin is a worked example of definitions (crates/tests_pins, and crates/zoned_ffi/src/pins.rt). This script collects the definitions
that clauses of public functions and of traits name, also through other definitions, and those that pins name. A word of the first
kind (but for pages of specs/Steps) that isn't of the second must be in tools/unpinned.txt, with the reason; so must no other word. A line there is

    CRATE/PAGE: WORD ..: REASON

and `law CRATE::FUNCTION` as the reason says that the contract of this law speaks of each word, which is checked. With --list it
prints each word that is missing there, by page, and how many public functions name it.
"""

import re
import sys
from functools import lru_cache

from sources import TOP, crates, files, imports_of, text_of
from try_definitions import BLOCK, FUNCTION, WORD, definitions, is_body, named, pins, spoken_of

LISTED = TOP / "tools/unpinned.txt"
# Crates that no other project uses.
OURS = ("tests_", "bench_", "demo_")


def contracts(path):
    """The name and the clauses of each function of a file, and whether users see them: a public one, or one of a trait."""
    lines, kind = text_of(path).split("\n"), "free"
    for at, line in enumerate(lines):
        if BLOCK.match(line):
            head = " ".join(lines[at : at + 6]).split("{")[0]
            kind = "trait" if BLOCK.match(line)[1] == "trait" or re.search(r"\bfor\b(?!<)", head) else "inherent"
        elif line == "}":
            kind = "free"
        function = FUNCTION.match(line)
        if function:
            end = next(k for k in range(at, len(lines)) if ends(lines[k], function[1], k == at, kind == "trait"))
            clauses = re.search(r"(?s)\b(?:requires|ensures)\b.*", "\n".join(lines[at : end + 1]))
            if clauses:
                yield function[2], clauses[0], kind == "trait" or bool(re.match(r" *pub (?!\()", line))


def ends(line, indent, is_first, may_lack_body):
    """Whether a function's contract ends at that line."""
    return is_body(line, indent, is_first) or line.endswith("{}") or is_first and line.endswith("}") or may_lack_body and line.endswith(";")


@lru_cache(maxsize=None)
def reached(path):
    """The definitions that the contracts of a file name, also through others, for each function; and whether users see it."""
    return [(name, closed(named(WORD.findall(clauses), None, imports_of(text_of(path)))), public) for name, clauses, public in contracts(path)]


def closed(found):
    """These definitions and those that they name."""
    todo, seen = set(found), set()
    while todo:
        page, name = todo.pop()
        seen.add((page, name))
        words, imports = definitions(page)
        todo |= set(named(words.get(name, ()), page, imports)) - seen
    return seen


def shown(page):
    return str(page.relative_to(TOP / "crates")).replace("/specs/", "/").removesuffix(".antt")


def public_words():
    """Each definition that public contracts name, with these functions."""
    found = {}
    for path in files("src", ".rt", [crate for crate in crates() if not crate.startswith(OURS)]):
        for name, words, public in reached(path):
            for page, word in words if public else ():
                if page.parent.name != "Steps":
                    found.setdefault((shown(page), word), set()).add(name)
    return found


def exceptions():
    """The words of the list: each with its reason."""
    found = {}
    for row in text_of(LISTED).splitlines():
        if row and not row.startswith("#"):
            page, words, reason = row.split(": ", 2)
            found |= {(page, word): reason for word in words.split()}
    return found


def faults():
    """What is missing in the list of exceptions, and what is wrong in it."""
    public, listed = public_words(), exceptions()
    pinned = {(shown(page), word) for pin in pins() for page, word in spoken_of(pin)}
    for page, word in sorted(public.keys() - pinned - listed.keys()):
        yield f"{page}: {word}: no pin speaks of it, and {len(public[page, word])} public contracts do"
    for page, word in sorted(listed.keys() - (public.keys() - pinned)):
        yield f"tools/unpinned.txt: {page}: {word}: " + ("a pin speaks of it" if (page, word) in pinned else "no public contract names it")
    for (page, word), reason in listed.items():
        law = re.match(r"law (\w+)::(?:\w+::)*(\w+)", reason)
        if law and not any(name == law[2] and (page, word) in {(shown(p), w) for p, w in words} for path in files("src", ".rt", [law[1]]) for name, words, _ in reached(path)):
            yield f"tools/unpinned.txt: {page}: {word}: {law[0]} doesn't speak of it"


def main():
    found = list(faults())
    if "--list" in sys.argv:
        pages = {}
        for row in found:
            page, word, said = row.split(": ", 2)
            pages.setdefault(page, []).append(f"{word} ({re.sub(r'[^0-9]', '', said)})")
        print("\n".join(f"{page}: {' '.join(words)}" for page, words in pages.items()))
    else:
        print("\n".join(found) or f"{len(public_words())} words of public contracts: each is pinned, or listed with a reason")
    return 1 if found else 0


if __name__ == "__main__":
    sys.exit(main())
