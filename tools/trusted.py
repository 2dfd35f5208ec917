#!/usr/bin/env python3
"""Finds all that gives clauses a meaning: pages of definitions, ghost members of traits and impls, and `unsafe` code, each with its place.

usage: tools/trusted.py

Prints the ghost members of each public trait and impl, and the structs that say what memory they own. docs/TRUSTED.md has those of the headline.
"""

import re
import signal

from believed import cited_words, in_order
from check_headline import names_of
from definitions import below
from sources import (
    NAME, TOP, block_end, crates, files, imports_of, is_private_trait, is_public, public_clauses, shown, text_of, uses, without_comments,
)

HEADLINE = TOP / "crates/zoned/src/headline.rt"
# Crates that no user calls.
NOT_FOR_USERS = ("tests_", "demo_", "bench_")
# Types of std and type parameters: no impl of the repository gives them a meaning.
TYPE = r"\b[A-Z]\w+"
PRELUDE = "Rattle.std.specs.Prelude"


def for_users():
    return [crate for crate in crates() if not crate.startswith(NOT_FOR_USERS)]


def pages_of_headline():
    """The pages that the headline reaches, in the order of their imports, each with its words that it reaches."""
    words = {key: word for key, word in below(cited_words(True)).items() if "Steps" not in key[0].parts}
    pages = in_order({page for page, _ in words})
    return [(page, [name for (there, name), _ in sorted(words.items(), key=lambda each: each[1].place) if there == page]) for page in pages]


class Ghosts:
    """A trait or an impl with ghost members: its head, its file, and the names and texts of the members."""

    def __init__(self, path, head, inside):
        self.path, self.crate = path, path.relative_to(TOP / "crates").parts[0]
        self.head = " ".join(re.sub(r"\b(pub|unsafe)\b|\bwhere\b.*", "", head).split())
        self.names = list(dict.fromkeys(re.findall(r"(?m)^    (?:pub )?ghost (?!use\b)(\w+)", inside)))
        self.text = "\n".join(re.findall(r"(?ms)^    (?:pub )?ghost (?!use\b).*?(?=^    \S|\Z)", inside))

    def name(self):
        """The name by which docs/PROVED.md cites it: the shortest of those that tools/check_headline.py knows."""
        return min(names_of(self.head), key=len, default=self.head)


def ghosts():
    """Each trait and impl of the libraries and programs that has ghost members and that callers see."""
    for path in files("src", ".rt", for_users()):
        crate, text = path.relative_to(TOP / "crates").parts[0], without_comments(text_of(path), "//")
        for block in re.finditer(r"(?m)^(?:pub )?(?:unsafe )?(?:trait|impl)\b[^{;]*(?=\{)", text):
            found = Ghosts(path, block[0], text[block.end() : block_end(text, block.end())])
            *_, of_trait, of_whom = ["", *found.head.removeprefix("impl").split(" for ")]
            is_seen = any(is_public(crate, path, name) for name in re.findall(r"\w+", of_whom))
            if found.names and is_seen and not is_private_trait(crate, path, of_trait):
                yield found


def ghosts_of_headline():
    """Those of the types and traits that the theorems of the headline name, and of those that their members name in turn."""
    every, found = list(ghosts()), []
    names = set(re.findall(TYPE, without_comments(text_of(HEADLINE), "//")))
    while True:
        more = [each for each in every if each not in found and gives_meaning(each, names)]
        if not more:
            return found
        found += more
        names |= {name for each in more for name in re.findall(TYPE, each.text + fields_of(each))}


def gives_meaning(each, names):
    """Whether it is what a value of one of those types shows to a contract, or such a type as a zone, or a trait of zones itself."""
    trait = re.match(r"(?:impl(?:<.*?>)? )?(?:Model|TimeZone|Offset) for (\w+)", each.head)
    return bool(trait) and trait[1] in names or each.head.startswith("trait ") and each.head.split()[1].rstrip(":") in names


def fields_of(each):
    """The fields of the struct that an impl is for, if its file has it."""
    struct = re.search(rf"(?s)\bstruct {each.head.split(' for ')[-1].split('<')[0]}\b.*?(?:\n}}|;\n)", text_of(each.path))
    return struct[0] if struct and " for " in each.head else ""


def owners():
    """Each struct that says what memory it owns: its file and its name."""
    for path in files("src", ".rt", for_users()):
        for struct in re.finditer(r"(?m)^pub (?:\(\w+\) )?struct (\w+)[^;{]*\{", without_comments(text_of(path), "//")):
            if "ghost also_owns" in text_of(path)[struct.start() :]:
                yield path, struct[1]


def unsafe_code():
    """Each `unsafe` block and impl: its file and its line."""
    for path in files("src", ".rt", for_users()):
        for line in without_comments(text_of(path), "//").splitlines():
            if re.search(r"\bunsafe (\{|impl\b)", line):
                yield path, line.strip()


def link(path):
    inside = "/".join(path.relative_to(TOP / "crates").parts[2:])
    return f"[`{path.relative_to(TOP / 'crates').parts[0]}` {inside.rsplit('.', 1)[0]}](../{path.relative_to(TOP)})"


def code(text):
    return f"`{text}`".replace("|", "/")


def in_code(texts):
    return ", ".join(map(code, texts))


def kits_pages():
    """The pages of the kit that the pages of the headline import."""
    modules = {module for page, _ in pages_of_headline() for module, _ in imports_of(text_of(page)).values()}
    return sorted(module for module in modules if module.split(".")[1] not in crates())


def kits_words():
    """The words of the kit that clauses of public calls cite."""
    clauses = [clause for clause in public_clauses() if clause.path.relative_to(TOP / "crates").parts[0] in for_users()]
    named = {clause.imports.get(name, ("", None)) for clause in clauses for name in re.findall(NAME, clause.text)}
    return {(page, word) for page, word in named if page and word and page.split(".")[1] not in crates()}


def kits_libraries():
    """The libraries of the kit that the libraries and programs use, besides the standard library."""
    used = {library for crate in for_users() for library in uses()[crate]}
    return sorted(used - {*crates(), "core", "std_alloc"})


def parts():
    """What each place of docs/TRUSTED.md has, by its name."""
    book = pages_of_headline()
    lines = sum(len(text_of(path).splitlines()) for path, _ in book)
    return {
        "the kit's words": [
            f"Clauses of public calls cite {len(kits_words())} words of the kit, {sum(page == PRELUDE for page, _ in kits_words())} of them from "
            f"`{PRELUDE}`; the pages of the headline import {len(kits_pages())} of its pages."
        ],
        "the kit's libraries": [f"The libraries and programs use the kit's standard library, with `core` and `std_alloc`, and {in_code(kits_libraries())}."],
        "pages": [
            f"The theorems of `zoned::headline` reach {len(book)} pages with {sum(len(names) for _, names in book)} words, {lines:,} lines in all:",
            "",
            "| page | words that the headline reaches |",
            "|---|---|",
            *(f"| {link(path)} | {in_code(names)} |" for path, names in book),
        ],
        "ghost members": [
            "| trait or impl | ghost members | in |",
            "|---|---|---|",
            *(f"| {code(each.head)} | {in_code(each.names)} | {link(each.path)} |" for each in ghosts_of_headline()),
        ],
        "unsafe": ["| in | code |", "|---|---|", *(f"| {link(path)} | {code(line)} |" for path, line in unsafe_code())],
    }


def main():
    # Nobody may read on, as after `head`.
    signal.signal(signal.SIGPIPE, signal.SIG_DFL)
    for each in ghosts():
        print(f"{shown(each.path)}: {each.head}: {', '.join(each.names)}")
    for path, name in owners():
        print(f"{shown(path)}: {name}: also_owns")


if __name__ == "__main__":
    main()
