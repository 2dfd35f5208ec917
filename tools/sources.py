"""Reads this repository's .rt and .antt files as far as these scripts need: names, clauses, imports, lemmas."""

import re
import shutil
import sys
from dataclasses import dataclass, field
from functools import lru_cache
from pathlib import Path

TOP = Path(__file__).resolve().parent.parent
DATABASE = Path("/usr/share/zoneinfo")
# Debian's package of what scripts need, if it has another name.
PACKAGES = {"cc": "gcc", "nm": "binutils", "zdump": "libc-bin", "/usr/bin/python3": "python3", str(DATABASE): "tzdata"}
NAME = r"[^\s(){}\[\],;:.λ→×≡∙|\"`]+"


def needs(*wanted):
    """Ends the script if one of these programs (by name) or files (by path) is missing. A line for each says how to get it."""
    missing = [each for each in wanted if not (each.exists() if isinstance(each, Path) else shutil.which(each))]
    if missing:
        named = [shown(each) if isinstance(each, Path) and each.is_relative_to(TOP) else each for each in missing]
        sys.exit("\n".join(f"{Path(sys.argv[0]).name} needs {name}{remedy(each)}" for name, each in zip(named, missing)))


def remedy(wanted):
    """How to get a program or a file."""
    if wanted == "rt":
        return ", the command of the Rattle kit"
    if isinstance(wanted, str) or str(wanted) in PACKAGES:
        return f": apt-get install {PACKAGES.get(str(wanted), wanted)}"
    if wanted.is_relative_to(TOP / "python"):
        return ": tools/python_tests.sh"
    if wanted.parent.parent.parent == TOP / "crates":
        return f": (cd {shown(wanted.parent.parent)} && {'rt lib' if wanted.suffix == '.a' else 'rt run </dev/null'})"
    return ", which isn't there"


@lru_cache(maxsize=None)
def text_of(path):
    return path.read_text()


def without_comments(text, mark):
    """The text with its comments blanked, so that places stay."""
    return re.sub(rf"(?m){re.escape(mark)}(?: |/|!|$).*$", lambda found: " " * len(found[0]), text)


def uses():
    """The crates that crates.txt lists, each with the libraries that it names there."""
    rows = [row.split("#")[0].partition(":") for row in text_of(TOP / "crates.txt").splitlines()]
    return {words.split()[0]: libraries.split() for words, _, libraries in rows if words.strip()}


def crates():
    """The crates that crates.txt lists."""
    return list(uses())


def is_static(crate):
    """Whether crates.txt makes it a static library, which no crate can use."""
    return any(row.split(":")[0].split() == [crate, "staticlib"] for row in text_of(TOP / "crates.txt").splitlines())


def libraries_below(crate):
    """This repository's libraries that a crate uses, also through others."""
    direct = [library for library in uses()[crate] if library in uses()]
    return {below for library in direct for below in [library, *libraries_below(library)]}


def files(folder, ending, of=None):
    """The crates' files of that folder and ending, without what rt made: of all crates, or of those."""
    return [
        path
        for crate in of or crates()
        for path in sorted((TOP / "crates" / crate / folder).rglob(f"*{ending}"))
        if "out" not in path.relative_to(TOP / "crates" / crate).parts
    ]


def shown(path, place=None):
    """A path as messages have it, with the line of that place in the text."""
    line = f":{text_of(path).count(chr(10), 0, place) + 1}" if place is not None else ""
    return f"{path.relative_to(TOP)}{line}"


def module_of(path):
    """The name of an .antt file as imports have it: Rattle.tz_info.specs.Zones."""
    return "Rattle." + ".".join(path.relative_to(TOP / "crates").with_suffix("").parts)


@dataclass
class Word:
    """A public definition of a page of specs/."""

    name: str
    page: Path
    place: int
    meaning: str


def words_of(page):
    """The public definitions of a page, each with the comment before it, or before its group."""
    meaning, found, place = "", [], 0
    comment = []
    for line in text_of(page).splitlines(keepends=True):
        if line.startswith("--"):
            comment.append(line.strip("- \n"))
        elif comment and line.strip() and not line.startswith(("use", "pub use", "infix")):
            meaning, comment = " ".join(comment), []
        elif not line.strip() or line.startswith(("use", "pub use")):
            comment = []
        named = re.match(rf"(?=.*\bpub\b)(?:(?:pub|abbrev|unfoldable|opaque|data|record) )+({NAME})", line)
        if named and not line.startswith(("use", "pub use", "pub mod")):
            found.append(Word(named[1], page, place, meaning))
        place += len(line)
    return found


@dataclass
class Clause:
    """A clause of a function that callers see."""

    path: Path
    place: int
    text: str
    imports: dict = field(default_factory=dict)


def imports_of(text):
    """What names mean under the imports of a text: name -> (page, name there)."""
    found = {}
    for each in re.findall(r"(?m)^[ \t]*(?:ghost )?(?:pub )?use ([\w.+-]+(?:\.\{.*\})?(?: as \S+?)?);?\s*$", on_one_line(text)):
        found |= imported("", each)
    return found


def on_one_line(text):
    """The same text with each group of imports on one line."""
    return re.sub(r"(?m)^(.*\buse .*\{)\n((?:  .*\n)+)\}", lambda group: group[1] + " ".join(group[2].split()).rstrip(",") + "}", text)


def imported(page, each):
    """The same of one import, or of a part of its braces: `a.{b, c.{d, e as f}}`."""
    if each.endswith("}"):
        path, _, inside = each[:-1].partition(".{")
        return {name: of for part in parts(inside) for name, of in imported(f"{page}.{path}".strip("."), part).items()}
    there, _, here = each.partition(" as ")
    above, _, name = there.rpartition(".")
    return {here or name: (f"{page}.{above}".strip("."), name) if page else (there, None)}


def parts(inside):
    """The parts between the commas outside of braces."""
    depth, start = 0, 0
    for place, mark in enumerate(inside + ","):
        depth += {"{": 1, "}": -1}.get(mark, 0)
        if mark == "," and not depth:
            yield inside[start:place].strip()
            start = place + 1


def block_end(text, start):
    """The place after the brace that closes the one at that place."""
    depth = 0
    for place in range(start, len(text)):
        depth += {"{": 1, "}": -1}.get(text[place], 0)
        if not depth:
            return place + 1
    return len(text)


def is_private_trait(crate, path, head):
    """Whether the trait that an impl is of is one of the crate that callers don't reach."""
    name = re.search(r"(\w+)(?:<.*>)?\s*$", head)
    return bool(name) and f"trait {name[1]}" in sources_of(crate) and not is_public(crate, path, name[1])


@lru_cache(maxsize=None)
def sources_of(crate):
    return "".join(text_of(path) for path in (TOP / "crates" / crate / "src").rglob("*.rt"))


def is_public(crate, path, name):
    """Whether callers of the crate reach that item, by a public module or by a name that the root passes on."""
    source = TOP / "crates" / crate / "src"
    root = source / ("lib.rt" if (source / "lib.rt").exists() else "main.rt")
    heads = without_comments(text_of(root), "//")
    passed = set(re.findall(r"\w+", " ".join(re.findall(r"pub use [^;]*;", heads))))
    if name in passed or path == root:
        return True
    parts = path.relative_to(source).with_suffix("").parts
    at = root
    for part in parts:
        if not re.search(rf"(?m)^\s*pub mod {part};", text_of(at)):
            return False
        at = at.parent / (part if at == root or at.stem in ("lib", "main") else f"{at.stem}/{part}")
        at = at.with_suffix(".rt")
    return True


def public_clauses():
    """The clauses of what the libraries' callers see: public functions, methods of public types, items of traits."""
    for path in files("src", ".rt"):
        crate = path.relative_to(TOP / "crates").parts[0]
        if "tests" in path.parts or path.stem == "tests" or not (TOP / "crates" / crate / "specs").exists():
            continue
        text = without_comments(text_of(path), "//")
        imports = imports_of(text)
        for block in re.finditer(r"(?m)^(pub )?(?:unsafe )?(trait|impl)\b([^{;]*)\{", text):
            end = block_end(text, block.end() - 1)
            inside = text[block.end() : end]
            of_trait = block[2] == "trait" or " for " in block[3]
            of_whom, _, trait = reversed(block[3].rpartition(" for "))
            named = re.findall(r"\w+", of_whom.lstrip("<'a>, "))
            if not any(is_public(crate, path, name) for name in named[:4]) or is_private_trait(crate, path, trait):
                continue
            yield from clauses_in(path, text, block.end(), inside, of_trait, imports)
        for function in re.finditer(r"(?m)^pub (?:extern \"C\" )?fn (\w+)", text):
            if is_public(crate, path, function[1]) or 'extern "C"' in function[0]:
                yield from clauses_of(path, text, function.end(), imports)


def clauses_in(path, text, start, inside, of_trait, imports):
    """The clauses of a trait or an impl. The member `laws` of an impl is left out: it proves what its trait says."""
    for item in re.finditer(r"(?m)^    (pub )?(?:final )?(fn \w+|ghost \w+)", inside):
        if item[2] in ("ghost use", "ghost laws"):
            continue
        if item[1] or of_trait:
            if item[2].startswith("ghost"):
                brace = inside.find("{", item.end())
                if 0 <= brace:
                    yield Clause(path, start + item.start(), inside[brace : block_end(inside, brace)], imports)
            else:
                yield from clauses_of(path, text, start + item.end(), imports)


def clauses_of(path, text, place, imports):
    """The clauses between a function's head and its body."""
    while True:
        body = text.find("{", place)
        clause = re.compile(r"\b(requires|ensures)\b[^{;]*\{").search(text, place)
        if not clause or body < 0 or clause.end() - 1 > body:
            return
        end = block_end(text, clause.end() - 1)
        yield Clause(path, clause.start(), text[clause.start() : end], imports)
        place = end


def cited(clause):
    """The words of the repository's own pages that a clause cites: (page, name)."""
    for name in set(re.findall(NAME, clause.text)):
        page, there = clause.imports.get(name, (None, None))
        if page and there and page.split(".")[1] in crates():
            yield page, there
    for alias, name in set(re.findall(rf"(?<![\w.])({NAME})\.({NAME})", clause.text)):
        page, there = clause.imports.get(alias, (None, None))
        if page and not there and page.split(".")[1] in crates():
            yield page, name
