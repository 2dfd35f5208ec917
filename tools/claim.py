#!/usr/bin/env python3
"""Leads from a sentence to its proof: the clauses that it cites, the definitions that they use, and what pins those.

usage: tools/claim.py PAGE:LINE | 'CRATE::MODULE::FUNCTION' [CLAUSE ..] | WORD
       python3 -m doctest tools/claim.py

PAGE is a document, such as PROVED or docs/PROVED.md; each clause that its line cites is shown. Or a function's path and clauses are
given, as docs/PROVED.md cites them. CRATE::FUNCTION is enough if one module of the crate has a function of that name; else the paths of
those that have one are listed. The second command checks this. For each clause it prints:

- the clause, with its place;
- the definitions that the clause cites, each with its place and its meaning, the worked examples (pins) that speak of it, and the
  wrong definitions that these reject;
- the definitions that those use in turn, by their pages;
- the command that proves the function, or each function of that name.

WORD is a definition, such as IsWallAnswer: its text is printed with its meaning, its pins and what they reject, the definitions below it, and
how many public clauses cite it, with the files that have the most. For a function's name alone its paths are listed.

A pin is printed with a definition if its clauses cite it; pins of words below it bear on it too (tools/claim.py doesn't follow them).
"""

import os
import sys
from collections import Counter, defaultdict

from check_headline import CITATION
from definitions import below, clauses, pins_of, text_of_definition, used_in, words
from sources import TOP, crates, files, public_clauses, shown, text_of, without_comments
from try_definitions import edits

import re


def document(name):
    """The document of that name, with or without its folder and ending."""
    for path in (TOP / name, TOP / f"{name}.md", TOP / "docs" / f"{name}.md"):
        if path.is_file():
            return path
    sys.exit(f"no document {name}")


def citations(arguments):
    """What is asked: each function, trait or impl with the names of its clauses."""
    page, _, line = arguments[0].rpartition(":")
    if not line.isdigit():
        return [(arguments[0], arguments[1:])]
    rows = text_of(document(page)).splitlines()
    if not 0 < int(line) <= len(rows):
        sys.exit(f"{page} has {len(rows)} lines")
    found = [(path, re.findall(r"`(\w+)`", names)) for path, names in CITATION.findall(rows[int(line) - 1])]
    if not found:
        sys.exit(f"line {line} of {page} cites no clause")
    return found


def paths_of(crate, name):
    """The paths of the functions of that name in the modules of a crate.

    >>> paths_of("zoned_ffi", "zoned_zone_instant")
    ['zoned_ffi::asking::locals::zoned_zone_instant']
    >>> paths_of("zoned_ffi", "no_function"), paths_of("no_crate", "zoned_zone_instant")
    ([], [])
    >>> whole_path("zoned_ffi::zoned_zone_instant")
    'zoned_ffi::asking::locals::zoned_zone_instant'
    >>> whole_path("zoned_ffi::pins::no_function")
    'zoned_ffi::pins::no_function'
    >>> len(paths_of("tz_info", "new")) > 1
    True
    """
    head, source = re.compile(rf"\bfn {re.escape(name)}\b"), TOP / "crates" / crate / "src"
    found = [path for path in files("src", ".rt", [crate]) if head.search(without_comments(text_of(path), "//"))]
    modules = [path.relative_to(source).with_suffix("").parts for path in found]
    return ["::".join([crate, *(part for part in module if part != "lib"), name]) for module in modules]


def whole_path(path):
    """The path with its modules, if only CRATE::FUNCTION is given."""
    crate, _, name = path.partition("::")
    paths = paths_of(crate, name) if crate in crates() and re.fullmatch(r"\w+", name) else []
    if len(paths) > 1 and path not in paths:
        sys.exit("\n".join(["several modules have a function of that name:", *paths]))
    return paths[0] if len(paths) == 1 else path


def show(cited):
    """Prints definitions with what pins them, and the names of those that they use."""
    for key, word in sorted(cited.items(), key=lambda each: each[0][1].lower()):
        print(f"\n  {word.name}: {word.meaning or 'see its page'}\n    {shown(word.page, word.place)}")
        for pin, (source, place) in pins_of(key).items():
            print(f"    pinned by {pin} ({shown(source, place)})")
        wrong = [edit for edit in edits() if TOP / edit.file == word.page and any(pin in pins_of(key) for pin in edit.pins)]
        for edit in wrong:
            print(f"    rejected: {edit.name} ({edit.says})")
    further = below(cited)
    pages = defaultdict(list)
    for page, word in sorted(set(further) - set(cited)):
        pages[page].append(word)
    print(f"\n  More definitions that these use: {len(further) - len(cited)}. Pages in all: {len({page for page, _ in further})}.")
    for page, more in pages.items():
        print(f"    {shown(page)}: {', '.join(more)}")


def explain_word(name):
    """Prints the definitions of that name."""
    found = {(page, name): words(page)[name] for page in files("specs", ".antt") if name in words(page)}
    if not found:
        functions = [path for crate in crates() for path in paths_of(crate, name)]
        kits = f"no page of specs/ defines {name}; `rt lemma {name}`, in the folder of a crate, shows a word of the kit"
        sys.exit("\n".join(["functions of that name:", *functions]) if functions else kits)
    for key in found:
        print(f"\n== {shown(key[0])}\n{text_of_definition(*key)}")
    show(found)
    places = Counter(shown(clause.path) for clause in public_clauses() if found.keys() & used_in(clause.text, clause.imports).keys())
    print(f"\n  Public clauses that cite it: {sum(places.values())}")
    for place, count in places.most_common(12):
        print(f"    {place}: {count}")


def explain(path, names):
    path = whole_path(path)
    print(f"\n== {path}")
    found = clauses(path, names)
    if not found:
        sys.exit("there is no such clause")
    cited = {}
    for clause in found:
        print(f"{shown(clause.path, clause.place)}\n    {clause.text}")
        cited |= used_in(clause.text, clause.imports)
    show(cited)
    crate, name = path.split("::")[0], path.split("::")[-1]
    if re.fullmatch(r"\w+", name):
        print(f"  To prove it again: (cd crates/{crate} && rt check --only {name})")
    else:
        print(f"  A ghost member is a definition. To prove what uses it: (cd crates/{crate} && rt check)")


def main():
    if len(sys.argv) < 2 or sys.argv[1].startswith("-"):
        sys.exit(__doc__)
    for path, names in citations(sys.argv[1:]):
        explain(path, names) if "::" in path else explain_word(path)
    print("\nA † marks a wrong definition that asks for less: the pin's proof no longer fits. A function that is proved ends with `only=N proved=N`.")
    print("The first check in a checkout also proves the libraries below its crate, which takes minutes: CONTRIBUTING.md says how many.")


if __name__ == "__main__":
    try:
        main()
    except BrokenPipeError:
        # Nobody reads on, as after `head`.
        os.dup2(os.open(os.devnull, os.O_WRONLY), sys.stdout.fileno())
