"""Finds definitions: where a word of a clause is defined, which words its definition uses, and which pins speak of it."""

import re
from functools import lru_cache

from check_headline import names_of, source_of
from sources import (
    NAME, TOP, Clause, block_end, clauses_of, files, imports_of, module_of, text_of, without_comments, words_of,
)

# How a page is passed on by another crate: `pub use Rattle.gregorian.specs.Year`.
PASSED_ON = re.compile(r"(?m)^pub use ([\w.]+)\.(\w+)$")


@lru_cache(maxsize=None)
def pages():
    """Each page of specs/ by its module's name, also by the names under which other crates pass it on."""
    found = {module_of(path): path for path in files("specs", ".antt")}
    for lib in files("specs", ".antt"):
        if lib.name == "Lib.antt":
            above = module_of(lib).removesuffix(".Lib")
            for there, name in PASSED_ON.findall(text_of(lib)):
                found.setdefault(f"{above}.{name}", found.get(f"{there}.{name}"))
    return {name: path for name, path in found.items() if path}


@lru_cache(maxsize=None)
def words(page):
    """The words that a page defines, by name."""
    return {word.name: word for word in words_of(page)}


def defined(module, name):
    """The word that a name of that module means, also if its page takes it from another one. `None` if no page of specs/ has it."""
    page = pages().get(module)
    if not page:
        return None
    there = words(page).get(name)
    if there:
        return there
    module_there, name_there = imports_of(text_of(page)).get(name, (None, None))
    return defined(module_there, name_there) if name_there and module_there != module else None


def used_in(text, imports):
    """The words of specs/ that a text cites, under the imports of its file."""
    found = {}
    for name in set(re.findall(NAME, text)):
        module, there = imports.get(name, (None, None))
        alias, _, inside = name.rpartition(".")
        if alias in imports and not imports[alias][1]:
            module, there = imports[alias][0], inside
        word = defined(module, there) if module and there else None
        if word:
            found[word.page, word.name] = word
    return found


@lru_cache(maxsize=None)
def text_of_definition(page, name):
    """The definition: from its head to the next word or comment of the page."""
    text, word = text_of(page), words(page)[name]
    after = re.compile(r"(?m)^(?:--|(?=.*\bpub\b)(?:(?:pub|abbrev|unfoldable|opaque|data|record|infix\S*) ))").search(text, word.place + 1)
    return text[word.place : after.start() if after else len(text)].rstrip()


def below(start):
    """The words that these words use, these included, each once."""
    found, left = {}, list(start.items())
    while left:
        key, word = left.pop()
        if key in found:
            continue
        found[key] = word
        text = without_comments(text_of_definition(*key), "--")
        here = {(word.page, name): other for name, other in words(word.page).items() if re.search(rf"(?<![^\s()]){re.escape(name)}(?![^\s()])", text)}
        left += [*used_in(text, imports_of(text_of(word.page))).items(), *here.items()]
    return found


# Clauses


def clauses(path, names):
    """The clauses of a function, or the ghost members of a trait or an impl, of these names; all if no name is given."""
    source, name = source_of(path)
    text = without_comments(text_of(source), "//")
    function = re.search(rf"\bfn {re.escape(name)}\b", text) if re.fullmatch(r"\w+", name) else None
    if function:
        found = list(clauses_of(source, text, function.end(), imports_of(text)))
        return [clause for clause in found if not names or re.search(rf"\b(?:ensures|requires) (?:{'|'.join(names)}) ?\{{", clause.text)]
    for head in re.finditer(r"(?m)^(?:pub )?(?:unsafe )?(?:trait|impl)\b[^{;]*(?=\{)", text):
        if name in names_of(head[0]):
            inside = text[head.end() : block_end(text, head.end())]
            return [
                Clause(source, head.end() + ghost.start(), inside[ghost.start() : ghost_end(inside, ghost.end())].strip(), imports_of(text))
                for ghost in re.finditer(r"(?m)^    (?:pub )?ghost (\w+)", inside)
                if not names or ghost[1] in names
            ]
    return []


def ghost_end(text, start):
    after = re.compile(r"(?m)^    \S|^}").search(text, start)
    return after.start() if after else len(text)


# Pins


@lru_cache(maxsize=None)
def pins():
    """Each pin as MODULE::FUNCTION, with its place and the words that its clauses cite."""
    found = {}
    for path in [*files("src", ".rt", ["tests_pins"]), TOP / "crates/zoned_ffi/src/pins.rt"]:
        text = without_comments(text_of(path), "//")
        for function in re.finditer(r"(?m)^pub fn (\w+)", text):
            cited = {}
            for clause in clauses_of(path, text, function.end(), imports_of(text)):
                cited |= used_in(clause.text, clause.imports)
            found[f"{path.stem}::{function[1]}"] = (path, function.start(), cited)
    return found


def pins_of(key):
    """The pins whose clauses cite that word."""
    return {name: (path, place) for name, (path, place, cited) in pins().items() if key in cited}
