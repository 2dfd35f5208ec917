#!/usr/bin/env python3
"""Tries planted bugs: edits of function bodies that the prover must reject.

usage: tools/try_edits.py [--lanes N] [--beside FILE] [--tenth] [--record] [NAME | NAME/EDIT ..]
       tools/try_edits.py --self-test [--beside FILE]
       tools/try_edits.py --reads-on

Each crate has a table of them, planted_bugs.txt. Without names it tries those with the line `in: the gate`, and with --tenth also a
tenth of the others, chosen by the commit. For a named crate it tries all. With --record it tries all of the named crates, or of all
crates, and writes each crate's verdicts and the date to docs/TESTING.md; tools/release.py asks for a record of all.

A planted bug is rejected by the contract of the function that has it, whatever is above and below that function. So only the
functions that edits change are checked, in a copy of their crate, and one check tries all edits of a crate that change different
functions. A line `only: PATH` of an edit names the function or module whose contract rejects it, if that is another one, or if two
functions, or a function and a module, have the same name. An edit that changes something outside of functions is tried alone.

The verdict on an edit is one of these.

refuted         A goal of its function is open: the checker has values at which it is false, or searched to the end and found no proof.
open            The search for a proof of such a goal stopped at one of its limits, or the tactic that answers it found none.
no longer fits  Only a hand-written part of the function's proof fails: an answer, or a name in it. The edit is then tried again
                without the answers: it is refuted if the checker has values at which a goal is false, and NOT REJECTED if the
                search proves the function.
listed          The same of an edit whose block says after `listed:` why it can't be refuted. It isn't tried again.
NOT REJECTED    The function is proved.
NOT TRIED       The edit's text is not in the files that are checked, or the edited code can't be read.

The last two are failures, except that an edit chosen by --tenth may be NOT TRIED. Without --beside `no longer fits` is a failure too,
since a harmless edit may have it: rewrite such an edit until it is refuted, or say why it can't be.

Libraries are used as `rt ci` or `rt check` has built them. Beside an `rt ci` that is still running, with its output in FILE, a
crate's edits wait until the crate is proved. Then each function that FILE reports as proved, and that no edit changes, is
reduced to its contract: a hole takes the place of its proof, and `unreachable!()` that of its body. If FILE reports none, since
an earlier run proved the crate, the functions with a plain name are found in the sources. The edits of tz_info don't wait for
its long proof: processors are free meanwhile. What is left out must reject nothing. So the same functions are first checked in
the same copy without the edits, and the edits of one that isn't proved there, or whose name isn't one function's, are NOT
TRIED. Without FILE nothing is left out: the functions that the edited ones call are proved as well, starting from what `rt
check` has kept of the crate.

--self-test tries this script without a proof, and then the edits with the line `due: harmless`, which change the text and not the
meaning: it fails if one of them is refuted. --reads-on tries those with `due: reads on`: they leave each answer and each count as it is,
and make a lookup read on, which no clause rejects. tests_large_zone runs without a proof: as it is it must end within its two minutes,
and with each of these edits it must not. That takes some five minutes.

N crates are tried at a time (3). The last line counts the verdicts. The status is 1 if one is a failure.
"""

import argparse
import re
import shutil
import subprocess
import sys
import tempfile
import threading
from collections import Counter, defaultdict
from concurrent.futures import ThreadPoolExecutor
from dataclasses import dataclass, field, replace
from pathlib import Path

from edits import BUGS_TRIED, HARMLESS, PLANTED_BUGS, READS_ON, all_blocks, blocks, record, tenth
from kit import (
    ANSWER_FALSE, ANSWER_OPEN, FALSE, GOAL, OPEN, PROVED_WITHOUT_PROOFS, RT, SAME_HOLES, TOLD, UNDECIDED, UNREAD, VERDICT, messages, wait_for, words,
)
from sources import TOP, crates, files, libraries_below, needs

REFUTED, OPEN_GOAL, NO_LONGER_FITS, LISTED = "refuted", "open", "no longer fits", "listed"
NOT_REJECTED, NOT_TRIED = "NOT REJECTED", "NOT TRIED"
# Its proof takes as long as those of all crates that can be proved at the same time.
EARLY = "tz_info"
FUNCTION = re.compile(r'(?m)^( *)(?:pub(?:\([a-z: ]+\))? )?(?:(?:final|const|unsafe|extern "C") )*fn (\w+)')
LOST = "its text is not in the files that are checked"
# What takes the place of a body that is left out. `rt fmt` writes no such line.
LEFT_OUT = "{ unreachable!() }"
HOLE = """use {module}.Statement.{{statement}}

pub {name}_spec : {{M : Type 1}} → statement M
{name}_spec = ?
"""


@dataclass
class Edit:
    """A planted bug: the texts that it exchanges in files, the functions that it changes, and the functions or modules whose contracts
    reject it."""

    crate: str
    name: str
    pairs: list = field(default_factory=list)
    changed: set = field(default_factory=set)
    parts: list = field(default_factory=list)
    is_alone: bool = False
    is_in_gate: bool = False
    why_listed: str = ""

    def __str__(self):
        return f"{self.crate}/{self.name}"


def read(block):
    """A table's edit, and of each text that it changes the function that has it."""
    for fault in block.faults():
        sys.exit(fault)
    edit, texts = Edit(block.crate, block.name, block.pairs, is_in_gate=block.is_in_gate, why_listed=block.why_listed), {}
    for file, old, new in block.pairs:
        texts[file] = texts.get(file) or (TOP / "crates" / block.crate / file).read_text()
        edit.changed.add(function_at(texts[file], old))
        texts[file] = texts[file].replace(old, new)
    edit.is_alone = None in edit.changed
    edit.changed.discard(None)
    edit.parts = block.notes["only"] or sorted(edit.changed)
    if not edit.parts:
        sys.exit(f"{edit}: it changes no function, so it needs a line `only: PATH`")
    return edit


def bodies(text):
    """Each function that has lines between the braces of its body: its head, and the places of these braces (-1 for one that ends the
    head's line). A trait's `fn ..;` has no body, and `{}` no lines: the next braces are a later function's."""
    heads = list(FUNCTION.finditer(text))
    for head, following in zip(heads, [*heads[1:], None]):
        stop = following.start() if following else len(text)
        opening = re.compile(rf"\n{head[1]}{{(}}?)\n").search(text, head.end(), stop)
        end = text.find(f"\n{head[1]}}}\n", head.end(), stop)
        if end >= 0 and not (opening and opening[1]):
            yield head, opening.start() if opening else -1, end


def function_at(text, part):
    """The name of the function that has that part of the text, for one of a trait after its type and the trait."""
    place = text.find(part)
    name = next((head[2] for head, _, end in bodies(text) if head.start() <= place <= end), None)
    if name is None:
        return None
    before = text[:place]
    owner = re.sub(r"(?m)^.*\{\}$", "", before[before.rfind("\n}") + 1 :])
    of_trait = re.search(r"(?m)^(?:unsafe )?impl\b.*?\b(\w+)(?:<(\w+)>)? for (\w+)", owner)
    return "::".join([*([of_trait[3] + of_trait[1] + (of_trait[2] or "")] if of_trait else []), name])


def wanted(names, is_chosen):
    """The edits to be tried, by their crates: for each name all of its edits, and without names those of the gate and those that are
    chosen."""
    found = defaultdict(list)
    for word in names or crates():
        crate, _, name = word.partition("/")
        those = [block for block in blocks(PLANTED_BUGS, crate) if (name in ("", block.name) if names else block.is_in_gate or is_chosen(f"{crate}/{block.name}"))]
        if names and not those:
            sys.exit(f"no planted bug: {word}")
        found[crate] += map(read, those)
    return {crate: edits for crate, edits in found.items() if edits}


def apart(edits):
    """The edits in rounds. Those of a round change different functions, and each finds its texts after the others are made."""
    rounds = []
    for edit in edits:
        for others in [] if edit.is_alone else rounds:
            is_free = not any(other.is_alone or set(other.parts) & set(edit.parts) for other in others)
            if is_free and made([*others, edit], TOP / "crates" / edit.crate) is not None:
                others.append(edit)
                break
        else:
            rounds.append([edit])
    return rounds


def made(edits, folder):
    """The files of the crate in that folder that the edits change, by their paths, or None if a text isn't there once."""
    texts = {}
    for edit in edits:
        for file, old, new in edit.pairs:
            text = texts.get(file) or (folder / file).read_text()
            if text.count(old) != 1:
                return None
            texts[file] = text.replace(old, new)
    return texts


def leave_out(folder, crate, functions, edits):
    """Puts a hole in the place of the proof of each of these functions that no edit changes."""
    for path in functions:
        parts = path.split("::")
        calls_itself = folder.joinpath("proofs", *parts[:-1], f"+{parts[-1]}").is_dir()
        is_closure = "fn" in parts[:-1]
        if calls_itself or is_closure or any(edits_function(edit, path) for edit in edits):
            continue
        proof = folder.joinpath("proofs", *parts)
        shutil.rmtree(proof, ignore_errors=True)
        proof.mkdir(parents=True)
        hole = HOLE.format(module=".".join(["Rattle", crate, "proofs", *parts]), name=parts[-1])
        (proof / "Proof.antt").write_text(hole)


def leave_bodies_out(folder, functions, edits):
    """Takes the body from each of these functions that no edit changes: with its proof left out, only its contract is used, and what it
    calls isn't checked. A function keeps its body if it has a closure, which has a proof, if it calls itself, or if a function
    that isn't given has the same name."""
    kept = {part.rsplit("::", 1)[-1] for edit in edits for part in {*edit.parts, *edit.changed}}
    kept |= {path.name[1:] for path in folder.joinpath("proofs").rglob("+*")}
    kept |= {path.rsplit("::", 1)[-1] for path in functions if any(edits_function(edit, path) for edit in edits)}
    texts = {path: path.read_text() for path in folder.joinpath("src").rglob("*.rt")}
    written = Counter(head[2] for text in texts.values() for head, start, _ in bodies(text) if start >= 0)
    given = Counter(path.rsplit("::", 1)[-1] for path in functions)
    names = {name for name, count in given.items() if written[name] <= count} - kept
    for path, text in texts.items():
        for head, start, end in reversed(list(bodies(text))):
            if head[2] in names and start >= 0 and "|" not in text[start:end] and "const fn" not in head[0]:
                text = f"{text[:start]}\n{head[1]}{LEFT_OUT}{text[end + 2 + len(head[1]):]}"
        path.write_text(text)


def edits_function(edit, path):
    return any(is_of(path, part) for part in edit.parts)


def is_of(path, part):
    """Whether the function of that path is the one that the part names, or is in the module that it names."""
    return f"::{path}::".find(f"::{part}::") >= 0


def checked(crate, edits, around, proved, by_search=False):
    """Checks the functions that the edits change in a copy of their crate, and returns what is said. In the copy, proofs and bodies are
    left out but for those that the edits `around` change, and `by_search` also the answers in their proofs."""
    with tempfile.TemporaryDirectory() as room:
        folder = Path(room)
        for part in ("src", "specs", "proofs"):
            if (TOP / "crates" / crate / part).is_dir():
                shutil.copytree(TOP / "crates" / crate / part, folder / part)
        leave_out(folder, crate, proved, around)
        leave_bodies_out(folder, proved, around)
        for path in folder.joinpath("proofs").rglob("Answers.antt") if by_search else []:
            if any(edits_function(edit, "::".join(path.relative_to(folder).parent.parts[1:])) for edit in edits):
                path.unlink()
        texts = made(edits, folder)
        if texts is None:
            return LOST
        for file, text in texts.items():
            (folder / file).write_text(text)
        only = [word for part in sorted({part for edit in edits for part in edit.parts}) for word in ("--only", part)]
        holes = ["--allow-holes"] if proved else ["--incremental", kept_of(crate, folder / "kept")]
        command = [*words("check", crate), "--jobs", "1", *only, *holes]
        ran = subprocess.run(command, cwd=folder, stdin=subprocess.DEVNULL, capture_output=True, text=True)
        return without_left_out(ran.stdout + ran.stderr, folder)


def without_left_out(said, folder):
    """What is said, without the goals of bodies that are left out: they say nothing of an edit."""
    numbered = {path: enumerate(path.read_text().splitlines(), 1) for path in folder.joinpath("src").rglob("*.rt")}
    places = [f"{path.relative_to(folder)}:{at}:" for path in numbered for at, line in numbered[path] if line.strip() == LEFT_OUT]
    return "\n".join(line for line in said.splitlines() if not any(place in line for place in places))


def kept_of(crate, folder):
    """A folder that begins with what `rt check` has kept of the crate, if it has."""
    kept = TOP / "crates" / crate / "out/incremental"
    folder.mkdir()
    return shutil.copytree(kept, folder, dirs_exist_ok=True) if kept.is_dir() else folder


def verdict_of(edit, said):
    """The verdict on an edit, and the message that decides it."""
    verdicts, goals, answers, notes, faults = [], [], [], [], []
    for line in messages(said):
        place, verdict = re.fullmatch(TOLD, line), re.fullmatch(VERDICT, line)
        if verdict:
            if edits_function(edit, verdict[1]):
                verdicts.append(verdict[2])
                goals += notes if verdict[2].startswith(OPEN) else []
            notes = []
        elif place and place[1].startswith("proofs/"):
            if edits_function(edit, "::".join(Path(place[1]).parent.parts[1:])):
                answers.append(f"{place[1]}: {place[2]}")
        elif place:
            is_fault = not re.search(GOAL, place[2]) and re.search(UNREAD, place[2])
            (faults if is_fault else notes).append(f"{place[1]}: {place[2]}")
    if faults or not verdicts:
        return NOT_TRIED, (faults or [said[-900:]])[0]
    if not any(verdict.startswith(OPEN) for verdict in verdicts):
        return NOT_REJECTED, "; ".join(verdicts)
    goals = [goal for goal in goals if re.search(GOAL, goal)]
    false = [*(goal for goal in goals if FALSE in goal), *(answer for answer in answers if re.search(ANSWER_FALSE, answer))]
    # A goal whose answer misses a name may be open for that alone, unless values make it false.
    own = [goal for goal in goals if not any(re.search(UNREAD, answer) for answer in answers)]
    refuting = false or [goal for goal in own if UNDECIDED not in goal]
    undecided = own + [answer for answer in answers if re.search(ANSWER_OPEN, answer)]
    if refuting:
        return REFUTED, refuting[0]
    return (OPEN_GOAL, undecided[0]) if undecided else (NO_LONGER_FITS, (answers or verdicts)[0])


def not_proved(crate, edits, proved):
    """The rows of the edits whose functions aren't proved if no edit is made: what rejects them need not be the edit."""
    said = checked(crate, [replace(edit, pairs=[]) for edit in edits], edits, proved)
    unnamed = re.search(r"(?:has no function|several functions are named) `([\w:+]+)`", said)
    rows = {}
    if unnamed:
        why = f"{unnamed[0]}: it needs a line `only: PATH`"
        rows = {edit.name: (edit, NOT_TRIED, why) for edit in edits if unnamed[1] in edit.parts}
    others = [edit for edit in edits if edit.name not in rows]
    if rows:
        return rows | (not_proved(crate, others, proved) if others else {})
    verdicts = re.findall(f"(?m)^{VERDICT}$", said)
    for edit in edits:
        of_edit = [verdict for path, verdict in verdicts if edits_function(edit, path)] or [said[-900:]]
        if not all(is_proved(verdict, dict(verdicts)) for verdict in of_edit):
            rows[edit.name] = (edit, NOT_TRIED, f"without the edit: {'; '.join(of_edit)}")
    return rows


def is_proved(verdict, verdicts):
    """Whether a function is proved but for what is left out. A verdict may say that this is the same as for another function."""
    same = re.fullmatch(SAME_HOLES, verdict)
    return bool(re.fullmatch(PROVED_WITHOUT_PROOFS, verdicts.get(same[1], "") if same else verdict))


def tried_together(crate, edits, around, proved):
    """Tries edits by one check, each alone of which it says nothing, and by another one without their answers those that no longer fit."""
    said = checked(crate, edits, around, proved)
    rows, unfit = [], []
    for edit in edits:
        verdict, why = verdict_of(edit, said)
        if verdict == NOT_TRIED and len(edits) > 1:
            rows += tried_together(crate, [edit], around, proved)
        elif verdict != NO_LONGER_FITS:
            rows.append((edit, verdict, why))
        elif edit.why_listed:
            rows.append((edit, LISTED, edit.why_listed))
        else:
            unfit.append((edit, verdict, why))
    by_search = checked(crate, [edit for edit, _, _ in unfit], around, proved, by_search=True) if unfit else ""
    for row in unfit:
        verdict, why = verdict_of(row[0], by_search)
        rows.append((row[0], verdict, why) if verdict == NOT_REJECTED or FALSE in why else row)
    return rows


def tried(crate, edits, free, log):
    """Tries a crate's edits, once what they wait for is proved and a lane is free."""
    needed = libraries_below(crate) if crate == EARLY else [crate]
    if not wait_for(needed, log):
        return [(edit, NOT_TRIED, f"{', '.join(needed)} isn't proved") for edit in edits]
    with free:
        proved = (proved_of(crate, log) or plain_functions(crate)) if log else []
        rows = not_proved(crate, edits, proved) if log else {}
        rest = apart([edit for edit in edits if edit.name not in rows])
        return [*rows.values(), *[row for those in rest for row in tried_together(crate, those, edits, proved)]]


def proved_of(crate, log):
    """The functions of the crate that are proved, by the words of `rt ci`."""
    return re.findall(rf"(?m)^fn {crate}::(\S+): proved$", log.read_text(errors="replace"))


def plain_functions(crate):
    """The functions that are in no impl, and the methods of types without parameters."""
    texts = {path: path.read_text() for path in files("src", ".rt", [crate])}
    declared = r"(?m)^(?:pub(?:\([a-z: ]+\))? )?(?:struct|enum) (\w+)"
    homes, found = defaultdict(list), set()
    for path, text in texts.items():
        for name in re.findall(declared, text):
            homes[name].append(path)
    for path, text in texts.items():
        for begin in FUNCTION.finditer(text):
            owner = text[text.rfind("\n}", 0, begin.start()) + 1 : begin.start()]
            method_of = re.search(r"(?m)^impl (\w+) \{$", owner)
            if not begin[1]:
                found.add("::".join([*module_of(crate, path), begin[2]]))
            elif method_of and len(homes[method_of[1]]) == 1:
                found.add("::".join([*module_of(crate, homes[method_of[1]][0]), method_of[1], begin[2]]))
    return sorted(found)


def module_of(crate, path):
    """The module that a file of src/ is: its names below the crate."""
    names = path.relative_to(TOP / "crates" / crate / "src").with_suffix("").parts
    return [] if names == ("lib",) else names


SELF_TEST = """pub trait Numbered {
    fn first(&self) -> u8
        ensures { result ≡ 1 };

    fn second(&self) -> u8
        ensures { result ≡ 2 }
    {
        if self.first() == 1 {
            2
        } else {
            0
        }
    }
}

pub fn theorem()
    ensures { 1 ≡ 1 }
{}

fn third() -> u8
    ensures { result ≡ 3 }
{
    3
}
"""


def self_test():
    """Tries without a proof which bodies are left out, and what counts as rejected."""
    with tempfile.TemporaryDirectory() as room:
        folder, file, edit = Path(room), Path(room, "src/lib.rt"), Edit("it", "edit", [("src/lib.rt", "    3", "    4")], {"third"}, ["third"])

        def text_without(functions, edits):
            file.write_text(SELF_TEST)
            leave_bodies_out(folder, functions, edits)
            return file.read_text()

        file.parent.mkdir()
        assert text_without(["Numbered::first", "theorem", "third"], [edit]) == SELF_TEST
        body = SELF_TEST[SELF_TEST.index("    {\n        if") : SELF_TEST.index("}\n\npub fn")]
        assert text_without(["Numbered::second"], [edit]) == SELF_TEST.replace(body, f"    {LEFT_OUT}\n")
        assert made([edit], folder) is not None
        assert [function_at(SELF_TEST, part) for part in ("            2", "{}\n", "    3")] == ["second", None, "third"]
        # An edit whose text is lost, and the goal of the body that is left out.
        line = text_without(["third"], []).splitlines().index(LEFT_OUT) + 1
        assert made([edit], folder) is None and verdict_of(edit, LOST) == (NOT_TRIED, LOST)
        same = "depends on a hole in the same 2 declarations as `it::second`"
        assert is_proved(same, {"second": "depends on a hole in `It.proofs.third.Proof.third_spec`, `It.proofs.fourth.Proof.fourth_spec`"})
        assert not is_proved(same, {"second": "depends on a hole in `It.proofs.Lemmas.open`"}) and not is_proved(same, {})
        goal = "note: src/lib.rt:{}:3: it is not proved that control never comes here{}\nfn it::third: no proof: it is open"
        assert verdict_of(edit, without_left_out(goal.format(line, ""), folder))[0] == NO_LONGER_FITS
        # A proof that misses a name, in a message of two lines, and one that has another type.
        answer = "./proofs/third/Answers.antt:3:9: error: `returns`: record `It.Lts`{}\nfn it::third: not proved; it stands on it"
        misses, differs = answer.format(" (nearest: .x)\n  has no field `y`"), answer.format(" has another type")
        for text, verdict in (
            (goal.format(line - 1, ""), REFUTED),
            (goal.format(line - 1, f"; {UNDECIDED}"), OPEN_GOAL),
            (goal.replace("it is not proved that control never comes here", "`search` found no proof (`invariant`)").format(line - 1, ""), REFUTED),
            (misses, NO_LONGER_FITS),
            (differs, NO_LONGER_FITS),
            (misses + "\n" + goal.format(line - 1, ""), NO_LONGER_FITS),
            (differs.replace("has another type", "`grind` found no proof"), OPEN_GOAL),
            (differs.replace("has another type", "the goal does not follow. The hypotheses hold, and it fails at `x` = `1`"), REFUTED),
            (misses + "\n" + goal.format(line - 1, f"; the facts known there {FALSE}"), REFUTED),
            ("fn it::third: no holes", NOT_REJECTED),
        ):
            assert verdict_of(edit, text)[0] == verdict, (text, verdict)


def harmless(log):
    """Tries the edits that change nothing but the text, and returns the rows of those that are refuted, or not tried."""
    edits = {crate: [read(block) for block in blocks(PLANTED_BUGS, crate, HARMLESS)] for crate in crates()}
    rows = [row for crate, those in edits.items() if those for row in tried(crate, those, threading.Semaphore(1), log)]
    print(*[f"{edit}: {verdict}, and changes nothing" for edit, verdict, _ in rows], sep="\n")
    return [row for row in rows if row[1] in (REFUTED, NOT_TRIED)] if rows else [("no harmless edit", NOT_TRIED, "")]


def ends(edit):
    """Whether tests_large_zone, with the edit if there is one, ends in its two minutes."""
    with tempfile.TemporaryDirectory() as room:
        copy = Path(room)
        for file in ("HANDLES", "crates.txt"):
            shutil.copy(TOP / file, copy)
        shutil.copytree(TOP / "crates", copy / "crates", ignore=shutil.ignore_patterns("out", "tests"))
        for file, text in made([edit], copy / "crates" / edit.crate).items() if edit else ():
            (copy / "crates" / edit.crate / file).write_text(text)
        ran = subprocess.run([RT, "try", "--seconds", "120"], cwd=copy / "crates/tests_large_zone", capture_output=True, text=True)
        said = ran.stdout + ran.stderr
        return "checked: ended status=0" in said if "error[" not in said else sys.exit(f"{edit}: {said}")


def reads_on():
    """Tries the edits that make a lookup read on, and returns how many were found to be otherwise."""
    needs(RT)
    wrong = 0
    for edit in [None, *map(read, all_blocks(PLANTED_BUGS, READS_ON))]:
        has_ended = ends(edit)
        print(f"{edit or 'as it is'}: {'ends' if has_ended else 'does not end'}", flush=True)
        wrong += has_ended != (edit is None)
    return wrong


def main():
    given = argparse.ArgumentParser(usage=__doc__.partition("usage: ")[2].partition("\n\n")[0])
    given.add_argument("--lanes", type=int, default=3)
    given.add_argument("--beside", type=Path)
    given.add_argument("--tenth", action="store_true")
    given.add_argument("--record", action="store_true")
    given.add_argument("--self-test", action="store_true")
    given.add_argument("--reads-on", action="store_true")
    given.add_argument("names", nargs="*")
    given = given.parse_args()
    if given.reads_on:
        return 1 if reads_on() else 0
    if given.record:
        given.names = [crate for crate in given.names or crates() if blocks(PLANTED_BUGS, crate)]
    if given.self_test:
        self_test()
        wrong = harmless(given.beside)
        print(*[f"tools/try_edits.py: {edit}: {verdict}: {why}" for edit, verdict, why in wrong], sep="\n", end="\n" * bool(wrong))
        return 1 if wrong else 0
    edits, free = wanted(given.names, tenth() if given.tenth else lambda name: False), threading.Semaphore(given.lanes)
    faults = {NOT_REJECTED, NOT_TRIED} if given.beside else {NO_LONGER_FITS, NOT_REJECTED, NOT_TRIED}
    count, failures = Counter(), 0
    by_crate = {crate: Counter() for crate in edits}
    with ThreadPoolExecutor(len(edits)) as pool:
        for rows in pool.map(lambda crate: tried(crate, edits[crate], free, given.beside), edits):
            for edit, verdict, why in rows:
                is_due = verdict not in faults or given.tenth and verdict == NOT_TRIED and not edit.is_in_gate
                print(f"{edit}: {verdict}: {why[:300 if is_due else 900]}", flush=True)
                count[verdict] += 1
                by_crate[edit.crate][verdict] += 1
                failures += not is_due
    if given.record:
        record(BUGS_TRIED, {f"`{crate}`": [sum(those.values()), *(those[verdict] for verdict in (REFUTED, OPEN_GOAL, LISTED))] for crate, those in by_crate.items()})
    kinds = ", ".join(f"{count[verdict]} {verdict}" for verdict in (REFUTED, OPEN_GOAL, NO_LONGER_FITS, LISTED, NOT_REJECTED, NOT_TRIED) if count[verdict])
    print(f"{sum(count.values())} tried: {kinds}; {failures} failures")
    return 0 if count and not failures else 1


if __name__ == "__main__":
    sys.exit(main())
