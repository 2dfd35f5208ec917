#!/usr/bin/env python3
"""Check that each clause that a document cites is one of the code.

A citation is `crate::module::function` {`clause`}, or `crate::module::function` {} for a function
whose only clause has no name: the clause is one of the function's `ensures`. A ghost member is cited
by its trait, as `crate::module::Trait` {`ghost`}, or by its impl, as
`crate::module::Trait<Argument> for Type` {`ghost`}, without the impl's parameters. The type's
arguments may be left out. The module is a path of files below src/. The blocks of definitions in docs/PROVED.md are
parts of crates/zoned/specs/Headline.antt. Each answer of crates/zoned/src/headline/calls.rt is that of the call whose name
its field has, or of an operator, `default` or `from`.
"""
import re
import sys

from sources import TOP, block_end, text_of, without_comments

DOCUMENTS = [*sorted(TOP.glob("*.md")), *sorted((TOP / "docs").glob("*.md")), *sorted(TOP.glob("crates/*/README.md"))]
PROVED = TOP / "docs/PROVED.md"
CALLS = TOP / "crates/zoned/src/headline/calls.rt"
BY_TRAIT = {"eq", "sub", "sub_reference", "default_in_utc", "default_at_offset", "fixed_from_utc", "utc_from_fixed"}
CITATION = re.compile(r"`((?:\w+::)+[^`\n]+)` \{([^}]*)\}")


def source_of(path):
    """The file of a module's path, and the name of what is cited there."""
    modules, name = re.fullmatch(r"((?:[a-z]\w*::)+)(.*)", path).groups()
    crate, *inside = modules.split("::")[:-1]
    source = TOP / "crates" / crate / "src"
    return source.joinpath(*inside).with_suffix(".rt") if inside else source / "lib.rt", name


def clauses_of(text, function):
    """The clauses of each function of that name, up to the next function."""
    found = None
    for start in re.finditer(rf"\bfn {re.escape(function)}\b", text):
        following = re.search(r"\bfn \w", text[start.end():])
        end = start.end() + following.start() if following else len(text)
        found = (found or set()) | set(re.findall(r"\bensures (\w*) ?\{", text[start.end():end]))
    return found


def without_parameters(text):
    """What follows the parameters in angle brackets that a text begins with."""
    depth = 0
    for place, mark in enumerate(text):
        depth += {"<": 1, ">": -1}.get(mark, 0)
        if not depth:
            return text[place:].lstrip("> ")
    return text


def names_of(head):
    """How the head of a trait or an impl is cited."""
    kind, rest = re.match(r"(?:pub )?(?:unsafe )?(trait|impl)\b(.*)", " ".join(head.split())).groups()
    if kind == "trait":
        return {re.search(r"\w+", rest)[0]}
    trait, _, of_whom = without_parameters(rest).partition(" where ")[0].partition(" for ")
    trait = re.sub(r"^(?:\w+::)+", "", trait)
    return {f"{trait} for {name}" for name in (of_whom, of_whom.partition("<")[0])}


def ghosts_of(text, name):
    """The ghost members of the trait or the impl of that name. `None` if there isn't exactly one."""
    heads = re.finditer(r"(?m)^(?:pub )?(?:unsafe )?(?:trait|impl)\b[^{;]*(?=\{)", text)
    blocks = [text[head.end():block_end(text, head.end())] for head in heads if name in names_of(head[0])]
    return set(re.findall(r"(?m)^    (?:pub )?ghost (\w+) ?[:=]", blocks[0])) if len(blocks) == 1 else None


def missing(path, clauses):
    """What of a citation is not in the code."""
    source, name = source_of(path)
    if not source.is_file():
        return f"{path}: no file {source.relative_to(TOP)}"
    text = without_comments(text_of(source), "//")
    is_function = re.fullmatch(r"\w+", name) and re.search(rf"\bfn {name}\b", text)
    known = clauses_of(text, name) if is_function else ghosts_of(text, name)
    if known is None:
        return f"{path}: no such function, and not exactly one such trait or impl"
    lacking = [clause for clause in clauses if clause not in known]
    return f"{path}: no clause {', '.join(repr(c) for c in lacking)}" if lacking else None


def main():
    citations = [citation for document in DOCUMENTS for citation in CITATION.findall(text_of(document))]
    faults = [missing(path, re.findall(r"`(\w+)`", clauses) or [""]) for path, clauses in citations]
    faults = [fault for fault in faults if fault]
    blocks = re.findall(r"(?ms)^```antt\n(.*?)^```$", text_of(PROVED))
    page = TOP / "crates/zoned/specs/Headline.antt"
    faults += [f"no part of {page.relative_to(TOP)}: {block.splitlines()[0]}" for block in blocks if block not in text_of(page)]
    answers = re.findall(r"(?ms)^        (\w+): (.*?),$(?=\n        \w|\n    \})", text_of(CALLS))
    faults += [
        f"{CALLS.name}: {name} is no answer of a call of that name"
        for name, value in answers
        if name not in BY_TRAIT and not re.search(rf"(?i)\b{name}\(", value)
    ]
    for fault in faults:
        print(fault)
    if not CITATION.search(text_of(PROVED)) or not blocks or not answers:
        faults.append("docs/PROVED.md cites no clause, or doesn't have the headline, or there is no call")
        print(faults[-1])
    print(f"{len(citations)} citations, {len(faults)} faults")
    return 1 if faults else 0


if __name__ == "__main__":
    sys.exit(main())
