#!/usr/bin/env python3
"""Prints what you need to believe, as one book: the definitions that public contracts use, page by page, each page after those that it imports.

usage: tools/believed.py [--headline] [--pages]

Without options: the pages of all public contracts. --headline: only those that the theorems of crates/zoned/src/headline.rt reach.
--pages: only the pages' names, with how many lines each has.

Pages below specs/Steps are steps of proofs and are left out: no contract of a public function cites them.
"""

import argparse
import os
import sys

from definitions import below, pages, used_in
from sources import TOP, files, imports_of, public_clauses, shown, text_of

# Crates of tests, examples and measures: their contracts promise nothing to users.
NOT_FOR_USERS = ("tests_", "demo_", "bench_")


def cited_words(of_headline):
    """The words that the clauses cite: those of the headline, or of all public contracts."""
    found = {}
    for clause in public_clauses():
        crate = clause.path.relative_to(TOP / "crates").parts[0]
        if (clause.path.name == "headline.rt") if of_headline else not crate.startswith(NOT_FOR_USERS):
            found |= used_in(clause.text, clause.imports)
    return found


def in_order(wanted):
    """The pages, each after those of them that it imports."""
    by_module = {module: path for module, path in pages().items() if path in wanted}
    done = []

    def visit(path):
        if path in done:
            return
        for module, name in imports_of(text_of(path)).values():
            there = by_module.get(module)
            if there and there != path:
                visit(there)
        done.append(path)

    for path in [path for path in files("specs", ".antt") if path in wanted]:
        visit(path)
    return done


def book_of(of_headline):
    """The pages of the headline, or of all public contracts, in that order."""
    return in_order({page for page, _ in below(cited_words(of_headline)) if "Steps" not in page.parts})


def main():
    parser = argparse.ArgumentParser(description=__doc__, formatter_class=argparse.RawDescriptionHelpFormatter)
    parser.add_argument("--headline", action="store_true")
    parser.add_argument("--pages", action="store_true")
    asked = parser.parse_args()
    book = book_of(asked.headline)
    for path in book:
        if asked.pages:
            print(f"{len(text_of(path).splitlines()):5} {shown(path)}")
        else:
            print(f"-- {shown(path)}\n\n{text_of(path)}")
    if asked.pages:
        print(f"{sum(len(text_of(path).splitlines()) for path in book):5} lines on {len(book)} pages")


if __name__ == "__main__":
    try:
        main()
    except BrokenPipeError:
        # Nobody reads on, as after `head`.
        os.dup2(os.open(os.devnull, os.O_WRONLY), sys.stdout.fileno())
