#!/usr/bin/env python3
"""Writes what is generated in the documents, in seconds and without a proof. tools/check_documents.py checks that it is up to date.

usage: tools/generate_documents.py

- docs/TRUSTED.md: the definitions and ghost members of the headline, the `unsafe` code, and what is used of the kit (tools/trusted.py).
- docs/TESTING.md: a table of planted bugs and wrong definitions by crate, with how many functions they cover, and one of the tables of
  tools/comparing/peers.
- docs/MAP.md: a table of crates, each with its README and the first sentence of its root.
- docs/PROGRAMS.md: the error numbers 1 to 17 with the words of the comments of tz_info's `Error`.
- docs/PYTHON.md: the calls about columns, each with the first sentence of its docstring.
- README.md and docs/TESTING.md: how many tests, planted bugs and wrong definitions there are, and the last line that the tests print.

A generated table is between `<!-- NAME -->` and `<!-- end -->`, or ends its page.
"""

import ast
import re

import crafted_files
import trusted
from comparing.peers import KNOWN, TABLES as PEERS
from doc_examples import blocks as examples
from edits import BUGS_TRIED, PLANTED_BUGS, WRONG_DEFINITIONS, all_blocks, blocks, rows as recorded
from sources import TOP, cited, crates, files, public_clauses, module_of, text_of, words_of
from try_definitions import PINNED
from try_edits import bodies
from unpinned import exceptions

DEFINITIONS, MAP = TOP / "docs/DEFINITIONS.md", TOP / "docs/MAP.md"
TRUSTED = TOP / "docs/TRUSTED.md"
PROGRAMS, PYTHON_PAGE = TOP / "docs/PROGRAMS.md", TOP / "docs/PYTHON.md"
README, TESTING = TOP / "README.md", TOP / "docs/TESTING.md"
ERROR = TOP / "crates/tz_base/src/error.rt"
NUMBERS = TOP / "crates/tz_base/specs/Errors.antt"
PYTHON = TOP / "python/src/sahvumbi"
# The modules whose calls PYTHON.md lists: those of a zone, and functions of the package.
OF_ZONES, OF_PACKAGE = ["zone"], ["_zones"]
PLANTED = "## Planted bugs and wrong definitions by crate\n"
LAST_OF_TESTS = re.compile(r"(?m)^\d+ of \d+ tests passed, status 0$")


def between(name, text, rows):
    """The page with these rows as its table of that name."""
    return re.sub(rf"(?s)(<!-- {name} -->\n).*?(\n<!-- end -->)", lambda found: found[1] + "\n".join(rows) + found[2], text)


def with_parts(text, parts):
    for name, rows in parts.items():
        text = between(name, text, rows)
    return text


# Words of contracts


def words_in_contracts():
    """The words that public contracts cite, each with its page, its meaning, and a place that cites it."""
    words = {(module_of(page), word.name): word for page in files("specs", ".antt") for word in words_of(page)}
    found = {}
    for clause in public_clauses():
        for page, name in cited(clause) if clause.path.relative_to(TOP / "crates").parts[0] != "tests_pins" else []:
            if (page, name) in words:
                found.setdefault((page, name), (words[page, name], clause))
    return found


# Planted bugs


def covered(crate, bugs):
    """How many functions of a crate have a clause of their own, and how many of these a planted bug changes."""
    found = []
    for path in files("src", ".rt", [crate]):
        text, file = text_of(path), str(path.relative_to(TOP / "crates" / crate))
        places = [text.find(old) for bug in bugs for changed, old, _ in bug.pairs if changed == file]
        for head, opening, end in bodies(text):
            if re.search(r"\bensures\b", text[head.end() : opening if opening > 0 else text.find("{\n", head.end())]):
                found.append(any(head.start() <= place <= end for place in places))
    return len(found), sum(found)


def planted():
    """The table of planted bugs and wrong definitions: how many each crate has, and how many functions they cover."""
    bugs = {crate: blocks(PLANTED_BUGS, crate) for crate in crates()}
    rows = {
        crate: (
            *covered(crate, those), sum(bug.is_in_gate for bug in those), sum(not bug.is_in_gate for bug in those),
            sum(bool(bug.why_listed) for bug in those), len(blocks(WRONG_DEFINITIONS, crate)),
        )
        for crate, those in bugs.items()
    }
    rows = {crate: row for crate, row in rows.items() if any(row[2:])}
    rows["all"] = tuple(map(sum, zip(*rows.values())))
    table = [f"| {crate if crate == 'all' else f'`{crate}`'} | {' | '.join(f'{count:,}' for count in row)} |" for crate, row in rows.items()]
    return "\n".join([
        PLANTED, f"The bugs are in `{PLANTED_BUGS}` of each crate, the wrong definitions in `{WRONG_DEFINITIONS}` of the crate whose page they change.",
        "*Functions* are those with a clause of their own, *covered* those of them that some planted bug changes. *Listed* are bugs with a line",
        "`listed:`, which says why no more than a hand-written part of the proof may fail.\n",
        "| crate | functions | covered | in the gate | by hand | listed | wrong definitions |", "|---|--:|--:|--:|--:|--:|--:|", *table, ""
    ])


# Other projects' tests


def with_peers(text):
    """The page with a row for each table of other projects' tests: how many rows agree, and why the others don't."""

    def row(table):
        source = re.match(r"# Rows of (.*?)'s (\S+?),? ", text_of(table))
        count = sum(line[:1].isdigit() for line in text_of(table).splitlines())
        reasons = KNOWN.get(table.stem, {})
        differ = "; ".join(f"{len(lines)}: {reason}" for reason, lines in reasons.items()) or "none"
        return f"| {source[1]}, `{source[2]}` | {count} | {count - sum(map(len, reasons.values()))} | {differ} |"

    return between("peers", text, ["| test of | rows | agree | differ, and why |", "|---|--:|--:|---|", *map(row, sorted(PEERS.glob("*.txt")))])


# The map of crates


def head_of(path):
    """What the head of a module says first: the first sentence of its `//!` comment."""
    comment = re.match(r"(?:#!\[.*\]\n)*((?://!.*\n)+)", text_of(path))
    words = re.sub(r"(?m)^//! ?", "", comment[1]).partition("\n\n")[0] if comment else ""
    plain = re.sub(r"\[(`[^`]*`)\](?:\([^)]*\))?", r"\1", " ".join(words.split()))
    return re.split(r"\.(?:\s|$)", plain)[0].removesuffix(":").replace("|", "/")


def with_crates(text):
    """The map with a row for each crate: its name, and what its root says first."""

    def row(crate):
        root = next(path for path in (TOP / "crates" / crate / "src" / name for name in ("lib.rt", "main.rt")) if path.exists())
        readme = TOP / "crates" / crate / "README.md"
        name = f"[`{crate}`](../{readme.relative_to(TOP)})" if readme.exists() else f"`{crate}`"
        return f"| {name} | {head_of(root)} |"

    return between("crates", text, ["| crate | is |", "|---|---|", *map(row, crates())])


# Error numbers


def first_sentence(comment):
    """A comment's first sentence, as a table has it."""
    sentence = re.split(r"\.(?:\s|$)", " ".join(comment.replace("///", " ").split()))[0]
    return sentence[:1].lower() + sentence[1:]


def numbers_of_errors():
    """The number of each variant of `Error`, with its name and the words of its comment."""
    error = text_of(ERROR).partition("\npub enum Error {\n")[2].partition("\n}\n")[0]
    variants = re.findall(r"((?: *///[^\n]*\n)+) *#\[error[^\n]*\n *(\w+)", error)
    numbers = dict(re.findall(r"(?m)^\w+ \(?errors\.(\w+).* = (\d+)$", text_of(NUMBERS)))
    return {int(numbers[name]): (name, first_sentence(comment)) for comment, name in variants}


def with_numbers(text):
    """The page of the programs with a row for each number of an error."""
    rows = [f"| {number} | `{name}` | {words} |" for number, (name, words) in sorted(numbers_of_errors().items())]
    return between("numbers of errors", text, ["| number | variant | means |", "|---|---|---|", *rows])


# The calls of the Python package


def documented_calls(module):
    """The calls of a module that users have, each with the first sentence of its docstring."""
    tree = ast.parse(text_of(PYTHON / f"{module}.py"))
    for node in ast.walk(tree) if module in OF_ZONES else tree.body:
        says = isinstance(node, ast.FunctionDef) and not node.name.startswith("_") and ast.get_docstring(node)
        names = [each.arg for each in node.args.args] if says else []
        if says and ("self" in names if module in OF_ZONES else f'"{node.name}"' in text_of(PYTHON / "__init__.py")):
            parameters = [name for name in names if name != "self"]
            taken = f"({', '.join(parameters)})"
            is_property = any(getattr(each, "id", "") == "property" for each in node.decorator_list)
            sentence = " ".join(says.partition("\n\n")[0].split()).removeprefix("Returns ").removesuffix(".")
            sentence = sentence[0].lower() + sentence[1:]
            yield f"{'zone.' * (module in OF_ZONES)}{node.name}{'' if is_property else taken}", sentence


def with_calls(text):
    """The page of the Python package with a row for each call about a column."""
    rows = [f"| `{call}` | {says} |" for module in OF_ZONES + OF_PACKAGE for call, says in documented_calls(module)]
    return between("calls", text, ["| call | returns |", "|---|---|", *rows])


# Counts


def how_often(pattern, paths):
    return sum(len(re.findall(pattern, text_of(path))) for path in paths)


def byte_changes():
    """How many files tools/crafted_files.py makes, and how many of them differ from the file that they are made of."""
    made = [(old, new) for content in crafted_files.vectors().values() for new in crafted_files.OTHERS for old in content]
    return len(made), sum(old != new for old, new in made)


def own_pins():
    """The pins below a definition whose source begins with "own": a form, a limit or a number that no standard has."""
    return [pin for names, says in PINNED.findall(text_of(DEFINITIONS)) if "(own " in says for pin in names.split(", ")]


def counts():
    """The words after the number, at the start of a row or in bold: `| 468 | tests in Rattle ..`, `**468** tests in Rattle ..`."""
    pins = [*files("src", ".rt", ["tests_pins"]), TOP / "crates/zoned_ffi/src/pins.rt"]
    bugs = all_blocks(PLANTED_BUGS)
    tried, refuted, still_open, listed = (sum(int(row[column]) for row in recorded(BUGS_TRIED).values()) for column in (1, 2, 3, 4))
    return {
        "tests in Rattle": how_often(r"(?m)^#\[test\]$", files("tests", ".txt")) + sum(1 for crate in crates() for _ in examples(crate)),
        "worked examples": how_often(r"(?m)^pub fn ", pins),
        "of these": how_often(r"(?m)^pub fn ", pins) - len(own_pins()),
        "words of public contracts without a pin": len(exceptions()),
        "tried in": tried,
        "refuted": refuted,
        "open": still_open,
        "listed": listed,
        "planted bugs in the gate": sum(block.is_in_gate for block in bugs),
        "planted bugs in all": len(bugs),
        "wrong definitions": len(all_blocks(WRONG_DEFINITIONS)),
        "rows of [other projects' tests]": how_often(r"(?m)^\d", sorted(PEERS.glob("*.txt"))),
        "files in which one byte is set": byte_changes()[0],
        "TZif files with one byte changed": byte_changes()[1],
        "random calls by handle from C": int(re.search(r'\["(\d+)", "1"\]', text_of(TOP / "tools/try_handles.py"))[1]),
        "programs that must not compile": len(list((TOP / "tools/refused").glob("*.txt"))),
        "test functions of the Python package": how_often(r"(?m)^ *def test_", sorted((TOP / "python/tests").glob("test_*.py"))),
    }


def row(words):
    return re.compile(rf"(?m)(^\| |\*\*)([\d,]+)( \| |\*\* )(?={re.escape(words)}(?!\w))")


def with_counts(text):
    """A page with the counts of the day in its rows and in bold."""
    for words, count in counts().items():
        text = row(words).sub(rf"\g<1>{count:,}\g<3>", text)
    return text


def last_of_tests():
    tests = counts()["tests in Rattle"]
    return f"{tests} of {tests} tests passed, status 0"


def generated():
    """Each page that has generated parts, with its text as it is due."""
    testing = text_of(TESTING)
    return {
        TRUSTED: with_parts(text_of(TRUSTED), trusted.parts()),
        TESTING: with_counts(with_peers(testing[: testing.find(PLANTED)] + planted())),
        MAP: with_crates(text_of(MAP)),
        PROGRAMS: with_numbers(text_of(PROGRAMS)),
        PYTHON_PAGE: with_calls(text_of(PYTHON_PAGE)),
        README: LAST_OF_TESTS.sub(last_of_tests(), with_counts(text_of(README))),
    }


def main():
    for path, text in generated().items():
        path.write_text(text)


if __name__ == "__main__":
    main()
