"""Reads tables of edits: the planted bugs and the wrong definitions of a crate. Writes the record of full runs: two
tables of docs/TESTING.md, with dates and verdicts.

A table is a file of the crate with a block for each edit: its name in brackets, and lines of a key and a text. `file:` names a file
of the crate, and each `old:` with its `new:` a text that is once in that file, and what takes its place. `only:` names the function
or module whose contract rejects a planted bug, if that isn't the edited function, or if another function or a module has the same
name; `in:` says who tries it. `listed:` says why no goal of its function is open by itself, if only the hand-written part of the
proof fails. `due:` is what must become of an edit that is no planted bug: `harmless`, which must not be refuted, or `reads on`, in which
tests_large_zone must not end.
`says:` is what a wrong definition says, `pins:` and `law:` are what must reject it.
"""

import hashlib
import re
import subprocess
from collections import defaultdict
from dataclasses import dataclass, field
from datetime import date
from functools import lru_cache

from sources import TOP, crates, text_of

PLANTED_BUGS, WRONG_DEFINITIONS = "planted_bugs.txt", "wrong_definitions.txt"
HARMLESS, READS_ON = "harmless", "reads on"
TESTING = TOP / "docs/TESTING.md"
BUGS_TRIED, DEFINITIONS_TRIED, ALL = "planted bugs tried", "wrong definitions tried", "all"


@dataclass
class Block:
    """An edit of a table: for each file the texts that it exchanges there, in order, and the texts of its other keys."""

    crate: str
    name: str
    pairs: list = field(default_factory=list)
    notes: dict = field(default_factory=lambda: defaultdict(list))

    @property
    def is_in_gate(self):
        return self.notes["in"] == ["the gate"]

    @property
    def why_listed(self):
        return " ".join(self.notes["listed"])

    def faults(self):
        """Each old text that isn't once in its file, after the texts before it are exchanged."""
        texts = {}
        for file, old, new in self.pairs:
            path = TOP / "crates" / self.crate / file
            texts.setdefault(file, text_of(path) if path.is_file() else "")
            if texts[file].count(old) != 1:
                yield f"{self.crate}/{self.name}: its old text is {texts[file].count(old)} times in {file}: {old}"
            texts[file] = texts[file].replace(old, new)


@lru_cache(maxsize=None)
def blocks(table, crate, due=""):
    """The blocks of a crate's table of that name with that line `due:`, or without one."""
    path, found = TOP / "crates" / crate / table, []
    for line in text_of(path).splitlines() if path.is_file() else []:
        key, _, text = line.partition(":")
        text = text.removeprefix(" ")
        if line.startswith("["):
            found.append(Block(crate, line.strip("[]")))
        elif key == "file":
            file = text
        elif key == "old":
            old = text
        elif key == "new":
            found[-1].pairs.append((file, old, text))
        elif line and not line.startswith("#"):
            found[-1].notes[key].append(text)
    return [block for block in found if " ".join(block.notes["due"]) == due]


def tenth():
    """Whether the edit of a name is in the tenth that the commit chooses."""
    commit = subprocess.run(["git", "rev-parse", "HEAD"], cwd=TOP, capture_output=True, text=True, check=True).stdout
    return lambda name: hashlib.sha256(f"{commit}{name}".encode()).digest()[0] * 10 < 256


def all_blocks(table, due=""):
    return [block for crate in crates() for block in blocks(table, crate, due)]


def table_of(name):
    return re.compile(rf"(?s)(<!-- {name} -->\n[^\n]*\n\|[-:|]+\|\n)(.*?)(\n<!-- end -->)")


def rows(name):
    """The rows of the table of that name, by their first cell."""
    lines = table_of(name).search(text_of(TESTING))[2].splitlines()
    return {cells[0]: cells[1:] for cells in ([cell.strip() for cell in line.strip("|").split("|")] for line in lines)}


def record(name, counts):
    """Writes rows of that table, each with today's date and its counts, in the order of the crates."""
    kept = rows(name) | {key: [date.today().isoformat(), *map(str, those)] for key, those in counts.items()}
    order = [key for key in [*(f"`{crate}`" for crate in crates()), ALL] if key in kept]
    lines = [f"| {' | '.join([key, *kept[key]])} |" for key in order]
    TESTING.write_text(table_of(name).sub(lambda found: found[1] + "\n".join(lines) + found[3], text_of(TESTING)))
