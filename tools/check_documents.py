#!/usr/bin/env python3
"""Checks the documents against the code, in seconds and without a proof.

usage: tools/check_documents.py

- Each relative link of a document leads to a file, and its anchor to a heading there; no line is left of a merge.
- Each name and each path in backticks, each path of a `sh` block and each module that docs/MAP.md names is in the code, or is one of
  another project (OTHERS). That page names the scripts that the gate doesn't run. The headers have the names of zoned(3). The calls
  that the README of a crate cites are calls of that crate. docs/PROGRAMS.md has the options of zonedump.
- What tools/generate_documents.py writes is up to date.
- No clause of a public function cites a step of a proof (specs/Steps). docs/DEFINITIONS.md names the types whose invariants do. Each word
  that a contract cites has a comment.
- tools/claim.py finds each clause that a document cites.
- No code of tz_search, tz_file and tz_info returns error 17 by itself, but for numbers above the limits that contracts state.
- Each old text of a planted bug is once in its file, and each text of a wrong definition once in its page; its pins exist.
- A lemma that nothing names is an error, and so is a page of lemmas that its proofs/Lib.antt doesn't name.
- Each module begins with a comment that says what it is.
- Each page that a public contract of the libraries of `zoned` cites is passed on by zoned/specs/Lib.antt, and each type that one cites
  is a name of `zoned`.
- No call for C requires anything: what C passes is checked, or is what the header says.
- The texts of zoned_ffi, its header and the Python package have the words of the error numbers, for all numbers that C returns.
- The code blocks in Rattle are code of the crates (tools/try_documents.py).
- README.md has two commands with their output before its first heading, one that answers a question by `rt try` and one that runs
  all tests, and .ci/run runs both.
- README.md names the number and the logic of the kit that `rt version` prints (if there is rt).
- One version is in the C header, the Python package, zonedump, README.md, CONTRIBUTING.md and CHANGELOG.md.
- Counts and limits that documents state in a sentence are those of the code, such as the shapes of input. A test calls each function
  of the crate of idioms.
- The tables of docs/SPEED.md and README.md have the figures of the latest file of bench/results (bench/write_speed.py).

Prints a line for each fault, with its place, and ends with status 1 if there is one.
"""

import re
import shutil
import subprocess
import sys
from collections import Counter
from functools import lru_cache
from pathlib import Path

from check_headline import CITATION, DOCUMENTS
from definitions import clauses
from edits import HARMLESS, PLANTED_BUGS, READS_ON, all_blocks
from generate_documents import (
    DEFINITIONS, ERROR, MAP, PROGRAMS, README, TESTING, byte_changes, counts, generated, head_of, numbers_of_errors, words_in_contracts,
)
from sources import (
    NAME, TOP, cited, crates, files, imports_of, module_of, public_clauses, shown, text_of, without_comments,
)
from try_definitions import faults as wrong_definitions
from try_documents import TESTS, blocks, commands, rattle as rattle_blocks
from try_edits import FUNCTION, read as read_edit
from try_shapes import MOST_GROWTH, MOST_TIMES, shapes
from try_zonedump import WRONG_USES

sys.path.append(str(TOP / "bench"))
from write_speed import latest as latest_results, written as with_figures  # noqa: E402

FACADE = TOP / "crates/zoned"
PACKAGE = TOP / "python/README.md"
GATE = TOP / ".ci/run"
SPEED = TOP / "docs/SPEED.md"
CONTRIBUTING, DECISIONS, OWN_ZONE = TOP / "CONTRIBUTING.md", TOP / "docs/DECISIONS.md", TOP / "docs/OWN_ZONE.md"
PICTURE = TOP / "crates/zonedump_lib/src/picture"
TEXTS = TOP / "crates/zoned_ffi/specs/Texts.antt"
HEADER = TOP / "crates/zoned_ffi/include/zoned_ffi.h"
MAN_PAGE = TOP / "crates/zoned_ffi/install/zoned.3"
PYTHON = TOP / "python/src/sahvumbi/errors.py"
WORD = r"[A-Za-z_][A-Za-z0-9_]*"
# The pages of tz_info whose numbers have a limit: their contracts say which ones are above it.
LIMITS = ("kept", "shown")
OWN_ERROR = r"(?:Err|ok_or|else)\W+(?:\w+::)*(?:AllocError|OutOfMemory)\b"


def without_blocks(text):
    """The text with its fenced blocks blanked, line by line."""
    return re.sub(r"(?ms)^ *```.*?^ *```", lambda block: re.sub(r"[^\n]", " ", block[0]), text)


# Links


def anchor(heading):
    """The anchor of a heading, as GitHub forms it."""
    plain = re.sub(r"\[([^\]]*)\]\([^)]*\)", r"\1", heading).replace("`", "")
    return re.sub(r"[^\w\- ]", "", plain.strip().lower()).replace(" ", "-")


@lru_cache(maxsize=None)
def anchors(path):
    return {anchor(heading) for heading in re.findall(r"(?m)^#+ (.*)$", without_blocks(text_of(path)))}


def links():
    for path in DOCUMENTS:
        text = without_blocks(text_of(path))
        for link in re.finditer(r"(?m)(?:\]\(|^\[[^\]]+\]: )([^)\s]+)", text):
            target, _, place = link[1].partition("#")
            if re.match(r"\w+:", target):
                continue
            file = (path.parent / target).resolve() if target else path
            if not file.exists():
                yield f"{shown(path, link.start())}: the link {link[1]} leads nowhere"
            elif place and place not in anchors(file):
                yield f"{shown(path, link.start())}: {file.name} has no heading for #{place}"


def merge_lines():
    for path in DOCUMENTS:
        for found in re.finditer(r"(?m)^(?:<{7}|>{7}) ", text_of(path)):
            yield f"{shown(path, found.start())}: a line that a merge left behind"


# What is generated


def stale_parts():
    for path, text in generated().items():
        rows, due = set(text_of(path).splitlines() if path.exists() else []), text.splitlines()
        if not path.exists() or text_of(path) != text:
            lacking = next((row for row in due if row not in rows), "lines in another order")
            yield f"{path.relative_to(TOP)}: tools/generate_documents.py must be run; for example it lacks: {lacking}"


# Contracts


def contract_words():
    for (page, name), (word, clause) in words_in_contracts().items():
        if not word.meaning:
            yield f"{shown(word.page, word.place)}: {name} has no comment that says what it means"
        if ".Steps" in page and not is_invariant(clause):
            yield f"{shown(clause.path, clause.place)}: a public contract cites {name} of {page}, a step"


def is_invariant(clause):
    return bool(modelled_type(clause))


def modelled_type(clause):
    """The type of the `impl Model` that the clause belongs to, which says how a value is kept and what it shows."""
    before = without_comments(text_of(clause.path), "//")[: clause.place]
    heads = re.findall(r"(?m)^(?:pub )?(?:trait|impl|struct)\b[^{;]*", before)
    found = re.search(r"Model for (\w+)", heads[-1]) if heads else None
    return found[1] if found else ""


def types_with_steps():
    clauses = [clause for clause in public_clauses() if any(".Steps" in page for page, _ in cited(clause))]
    *names, last = (f"`{name}`" for name in sorted({modelled_type(clause) for clause in clauses if is_invariant(clause)}))
    due = f"the invariants of {', '.join(names)} and {last} do"
    if due not in text_of(DEFINITIONS):
        yield f"{shown(DEFINITIONS)}: it doesn't say: {due}"


NUMBERS_IN_WORDS = "no one two three four five six seven eight nine ten eleven twelve thirteen".split()


def claims():
    for document in DOCUMENTS:
        for path, names in CITATION.findall(text_of(document)):
            if not clauses(path, re.findall(r"`(\w+)`", names)):
                yield f"{shown(document)}: tools/claim.py doesn't find {path} {{{names}}}"


# Error 17


def own_memory_errors():
    for path in files("src", ".rt", ["tz_search", "tz_file", "tz_info"]):
        for found in re.finditer(OWN_ERROR, without_comments(text_of(path), "//")):
            if path.stem not in LIMITS:
                yield f"{shown(path, found.start())}: error 17, and no allocation failed"


# Planted bugs


@lru_cache(maxsize=None)
def function_names(crate):
    return Counter(head[2] for path in files("src", ".rt") if TOP / "crates" / crate in path.parents for head in FUNCTION.finditer(text_of(path)))


@lru_cache(maxsize=None)
def module_names(crate):
    return {path.stem for path in files("src", ".rt") if TOP / "crates" / crate in path.parents}


def unclear_functions(edit):
    for part in edit.parts:
        functions = 0 if "::" in part else function_names(edit.crate)[part]
        if functions > 1 or functions == 1 and part in module_names(edit.crate):
            yield f"{edit}: another function or a module is called {part}, so it needs a line `only: PATH`"


def planted_bugs():
    for block in [block for due in ("", HARMLESS, READS_ON) for block in all_blocks(PLANTED_BUGS, due)]:
        yield from [*block.faults()] or unclear_functions(read_edit(block))


# Lemmas


def definitions(text):
    """The blocks of a page of proofs: each name with its text, from its signature to the next one; a module without a name has "_"."""
    starts = [*re.finditer(rf"(?m)^(?:(?:pub|abbrev|unfoldable|opaque|data|record) )*({NAME}) : ", text)]
    starts += [*re.finditer(rf"(?m)^(?:(?:pub|unfoldable|opaque) )*(?:data|record) ({NAME})", text)]
    starts += [*re.finditer(rf"(?m)^(?:pub )?ruleset ({NAME}) =\s", text)]
    starts += [*re.finditer(r"(?m)^module (_) ", text)]
    starts = sorted({start.start(): start for start in starts}.values(), key=lambda start: start.start())
    for start, after in zip(starts, [*starts[1:], None]):
        yield start[1], start.start(), text[start.start() : after.start() if after else len(text)]


def is_named_in(name, text):
    return re.search(rf"(?<![^\s(){{}}\[\],;:.λ→×≡∙|\"`]){re.escape(name)}(?![^\s(){{}}\[\],;:.λ→×≡∙|\"`])", text)


def unused_lemmas():
    proofs = files("proofs", ".antt")
    readers = [*proofs, *files("specs", ".antt"), *files("src", ".rt")]
    taken, whole = set(), {}
    for path in readers:
        text = without_comments(text_of(path), "//" if path.suffix == ".rt" else "--")
        for page, there in re.findall(r"\bcrate::proofs::([\w:]+)::([\w-]+)", text):
            crate = path.relative_to(TOP / "crates").parts[0]
            taken.add((f"Rattle.{crate}.proofs.{page.replace('::', '.')}", there))
        for here, (page, there) in imports_of(text).items():
            if there:
                taken.add((page, there))
            else:
                whole.setdefault(page, []).append((here, text))
    for path in proofs:
        module = module_of(path)
        if path.stem in ("Answers", "Invariants", "Proof", "Send", "Sync", "Lib", "ForCallers"):
            continue
        text = without_comments(text_of(path), "--")
        blocks = list(definitions(text))
        for name, place, block in blocks:
            if name == "_" or (module, name) in taken or any(is_named_in(name, other) for at, _, other in with_places(blocks) if at != place):
                continue
            if any(is_named_in(f"{here}.{name}", other) for here, other in whole.get(module, [])):
                continue
            yield f"{shown(path, place)}: nothing names the lemma {name}"


def with_places(blocks):
    return [(place, name, block) for name, place, block in blocks]


def unlisted_pages():
    for crate in crates():
        for folder in ("proofs", "specs"):
            lib = TOP / "crates" / crate / folder / "Lib.antt"
            for path in sorted((TOP / "crates" / crate / folder).glob("*.antt")):
                if path != lib and not re.search(rf"(?m)^(?:pub )?mod {path.stem}$", text_of(lib) if lib.exists() else ""):
                    yield f"{shown(path)}: {folder}/Lib.antt doesn't name it"


# Modules, and the calls for C


def modules_without_a_comment():
    for path in files("src", ".rt"):
        if not head_of(path):
            yield f"{shown(path)}: no comment at its head says what it is"


def required_of_c():
    for path in files("src", ".rt"):
        text = without_comments(text_of(path), "//")
        for call in re.finditer(r'pub extern "C" fn (\w+)', text):
            head = text[call.start() : text.find("\n{", call.start())]
            if "requires" in head:
                yield f"{shown(path, call.start())}: {call[1]} is called from C, and requires something"


# The words of numbers


def number_faults():
    """Numbers 1 to 17 whose words differ from those of the comments of `Error`."""
    words = {number: said for number, (_, said) in numbers_of_errors().items()}
    names = {name: number for number, (name, _) in numbers_of_errors().items()}
    constants = {"ZONED_" + re.sub(r"(?<=[a-z])(?=[A-Z])", "_", name).upper(): number for name, number in names.items()}
    defines = re.findall(r"(?m)^ {4}(ZONED_\w+) = (\d+),? */\* (.*) \*/$", text_of(HEADER))
    places = {
        TEXTS: {int(number): said for number, said in re.findall(r'IsSaidOf (\d+) \(codes "(.*)"\)', text_of(TEXTS))},
        HEADER: {int(number): said for name, number, said in defines if constants.get(name) == int(number)},
        # Python asks the library for the others.
        PYTHON: {2: said for said in re.findall(r'(?m)^ {4}NO_OFFSET: "(.*)",$', text_of(PYTHON))},
    }
    returned = {number for number in places[TEXTS] if 0 < number < 18}
    due = {TEXTS: returned, HEADER: returned, PYTHON: {2}}
    if sorted(words) != list(range(1, 18)) or len(returned) < 12:
        yield f"{shown(ERROR)}: its comments aren't read, or the table of {shown(TEXTS)}"
    for path, said in places.items():
        for number in sorted(due[path] | {number for number in said if number in words}):
            if said.get(number) != words.get(number):
                yield f"{shown(path)}: {number} is {said.get(number)!r}, and {words.get(number)!r} in {shown(ERROR)}"


# Names

# Names of other projects and of the kit, and parts of names.
OTHERS = set(
    """ANTT AsRef CMAKE_PREFIX_PATH CONTRACTS In LANGUAGE NonExistentTimeError SECONDLY SystemTime Unix ZoneBounds _counted _opt as_seconds_f32 as_seconds_f64
    checked_ deprecated dev_0 from_epoch_days from_ymd getStandardOffset hour12 losAngeles max_value min_value must_use num_days_in_month
    overflow_ parse_from_rfc3339 parse_from_str plant primer repartition set_axis start_io time_zone_format_test to_epoch_days track_caller try_
    unusable year_ce zonedump_0""".split()
)
FOLDERS = ("crates", "tools", "docs", "python", "examples", "bench")
IN_CRATES = ("src", "specs", "proofs", "tests", "include", "install")
# A path that isn't there: of any crate, of the reader's own one, or one that commands make.
MADE = r"NAME|my_app|/out\b|\*|^python/build\b|\.so$"


MADE_BY_TOOLS = {"out", "build", "__pycache__"}


@lru_cache(maxsize=None)
def paths_of_code():
    """The files below FOLDERS, without what tools made."""
    found = [path for folder in FOLDERS for path in (TOP / folder).rglob("*") if path.is_file()]
    return [path for path in found if not MADE_BY_TOOLS & set(path.parts) and path.suffix not in (".md", ".svg", ".so")]


@lru_cache(maxsize=None)
def words_of_code():
    """The words of all files but the documents, and of their paths."""
    found = set(re.findall(WORD, " ".join(str(path.relative_to(TOP)) for path in paths_of_code())))
    for path in [*paths_of_code(), TOP / "crates.txt", GATE]:
        if path.suffix != ".whl":
            found |= set(re.findall(WORD, path.read_text(errors="replace")))
    return found


def is_there(path):
    """Whether the repository, or one of its crates, has that path; the ending may be left out."""
    if path.startswith(IN_CRATES):
        return any(is_there(f"crates/{crate}/{path}") for crate in crates())
    whole = TOP / path
    return whole.exists() or bool(list(whole.parent.glob(f"{whole.name}.*")))


def unknown_names():
    known = words_of_code() | OTHERS
    for path in [*DOCUMENTS, PACKAGE]:
        # The changelog has names that are gone, and the table of peers has files of other projects.
        text = re.sub(r"(?s)<!-- peers -->.*?<!-- end -->", lambda table: re.sub(r"[^\n]", " ", table[0]), without_blocks(text_of(path)))
        for span in re.finditer(r"`([^`\n]+)`", text if path.name != "CHANGELOG.md" else ""):
            for name in re.findall(WORD, span[1]):
                if len(name) > 2 and name not in known:
                    yield f"{shown(path, span.start())}: nothing is called {name}"
            yield from missing_paths(path, span.start(), span[1])
        for place, _, commands_there in blocks(path, "sh"):
            yield from missing_paths(path, place, commands_there)


def missing_paths(path, place, text):
    for there in re.findall(rf"(?<![\w/.])(?:{'|'.join(FOLDERS + IN_CRATES)})/[\w./*-]*\w", text):
        if not re.search(MADE, there) and not is_there(there):
            yield f"{shown(path, place)}: there is no {there}"


def cited_calls():
    """The calls that the README of a crate cites by a path."""
    for path in sorted(TOP.glob("crates/*/README.md")):
        crate = path.parent.name
        code = "".join(text_of(each) for each in files("src", ".rt", [crate]))
        for span in re.finditer(r"`((?:\w+::)+)(\w+)`", text_of(path)):
            first, name = span[1].split("::")[0], span[2]
            if first not in [*crates(), "i64"] and not re.search(rf"\b(?:fn|mod|struct|enum|const) {name}\b|^ *{name}\b.*,$", code, re.M):
                yield f"{shown(path, span.start())}: {crate} has no {span[1]}{name}"


def modules_of_map():
    modules = {path.relative_to(TOP / "crates").with_suffix("") for path in files("src", ".rt")}
    named = {str(Path(module.parts[0], *module.parts[2:])) for module in modules} | {str(Path(*module.parts[2:])) for module in modules}
    for span in re.finditer(r"`([a-z_]+(?:/[a-z_]+)+)`", without_blocks(text_of(MAP))):
        if span[1] not in named and not any(name.startswith(span[1] + "/") for name in named) and not (TOP / span[1]).exists():
            yield f"{shown(MAP, span.start())}: there is no module {span[1]}"


def names_of_man_page():
    known = set(re.findall(WORD, "".join(text_of(header) for header in HEADER.parent.iterdir())))
    for found in re.finditer(r"\b(?:zoned_[a-z_]+|ZONED_[A-Z_]+)\b", text_of(MAN_PAGE)):
        if found[0] not in known:
            yield f"{shown(MAN_PAGE, found.start())}: no header has {found[0]}"


def scripts_by_hand():
    for path in [*sorted((TOP / "tools").glob("*.py")), *sorted((TOP / "tools").glob("*.sh"))]:
        is_run = "\nusage: " in text_of(path).replace("\n# ", "\n")
        if is_run and f"tools/{path.name}" not in text_of(GATE) and f"`{path.name}" not in text_of(MAP):
            yield f"{shown(MAP)}: it doesn't name tools/{path.name}, which .ci/run doesn't run"


def options_of_zonedump():
    known = set(re.findall(r'name: "([a-z]+)"', text_of(TOP / "crates/zonedump/src/arguments.rt"))) | {"help", "version"}
    for name in sorted(known ^ set(re.findall(r"(?<![\w-])--([a-z]+)", text_of(PROGRAMS)))):
        yield f"{shown(PROGRAMS)}: the option --{name} is here or in crates/zonedump/src/arguments.rt, but not in both"


# What documents say of the kit and of the code


def in_words(number):
    return NUMBERS_IN_WORDS[number] if number < len(NUMBERS_IN_WORDS) else f"{number:,}"


def constant(path, name):
    """The number of a constant of the code, which has no sign."""
    return int(re.search(rf"(?m)\b{name}(?:: \w+)? = ([\d_]+)[;,\n]", text_of(TOP / path))[1].replace("_", ""))


def counted():
    """Sentences with a number of the code, each with the document that has it."""
    made, changed = byte_changes()
    grammar = text_of(TOP / "crates/tz_base/specs/Grammar.antt").partition("pub data Grammar ")[2].partition("\n\n")[0]
    kinds = len(re.findall(r"(?m)^  [A-Z]\w* : ", grammar))
    large = "crates/tests_large_zone/src/main.rt"
    many, few = (constant("crates/zonedump/src/output.rt", name) for name in ("MANY", "FEW"))
    threads = in_words(constant("tools/try_handles.c", "THREADS"))
    stack, of_one = (constant("tools/try_handles.c", name) for name in ("STACK_KB", "OF_ONE_KB"))
    places = constant(PICTURE / "scale.rt", "RIGHT") - constant(PICTURE / "scale.rt", "LEFT") + 1
    zone = set(re.findall(r"(?m)^ *fn (\w+)", text_of(TOP / "crates/demo_examples/src/own_zone.rt")))
    by_hand = {path.name for path in (TOP / "crates/demo_examples/proofs/own_zone/NepalTimeZone").iterdir()}
    return [
        (MAP, f"{in_words(kinds).capitalize()} kinds are the constructors of `Grammar`"),
        (TESTING, f"{made:,} files, of which {made - changed:,} are unchanged"),
        (TESTING, f"the answers to {len(WRONG_USES)} wrong uses"),
        (TESTING, f"counts instructions for {sum(1 for _ in shapes())} shapes of input"),
        (TESTING, f"at most {in_words(MOST_TIMES)} times as many as in New York"),
        (TESTING, f"at most {MOST_GROWTH} times the kept count"),
        (TESTING, f"makes a zone of {constant(large, 'MORE_CHANGES'):,} clock changes"),
        (TESTING, f"a zone of {constant(large, 'CHANGES'):,} clock changes"),
        (TESTING, f"asks one zone from {threads} threads"),
        (MAN_PAGE, f"has {threads} threads ask one handle"),
        *((page, f"{stack} KB of stack") for page in (MAN_PAGE, TESTING)),
        (MAN_PAGE, f"A question about one time takes less than {of_one} KB"),
        (TESTING, f"no question about one time more than {of_one} KB"),
        (PROGRAMS, f"A file is read up to {constant('crates/zoned_files/src/files.rt', 'LIMIT') >> 20} MiB."),
        (PROGRAMS, f"blocks of {constant('crates/zoneq_lib/src/runs.rt', 'BLOCK') >> 10} KiB"),
        (PROGRAMS, f"a buffer of {constant('crates/zoneq/src/main.rt', 'OUTPUT') >> 10} KiB"),
        (PROGRAMS, f"more than {many} changes (more than {in_words(few)}, if no year is asked for)"),
        (PROGRAMS, f"at most the last {many}, or {in_words(few)}"),
        (PROGRAMS, f"at most {in_words(constant(PICTURE / 'thinned.rt', 'CROWD') - 1)} changes at each of its {places:,} places"),
        (DECISIONS, f"A column of {constant('crates/zoned_ffi/src/column/short.rt', 'LONG'):,} rows or more"),
        (DECISIONS, f"over {constant('crates/tz_saving/src/sides.rt', 'REACH')} clock changes at most"),
        (TOP / "docs/ANSWERS.md", f"in every year up to {constant('crates/tz_info/src/rule/changes.rt', 'LAST_RULE_YEAR')}"),
        (OWN_ZONE, f"proves {in_words(len(zone - by_hand))} of the {in_words(len(zone))} functions of the zone by itself"),
    ]


def untested_idioms():
    tests = "".join(text_of(path) for path in files("tests", ".txt"))
    for path in files("src", ".rt", ["tests_idioms"]):
        for function in re.finditer(r"(?m)^ *pub fn (\w+)", text_of(path)):
            if not re.search(rf"\b{function[1]}\b", tests):
                yield f"{shown(path, function.start())}: no test calls {function[1]}, and docs/FROM_CHRONO.md says that each is tested"


def facts_of_documents():
    version = subprocess.run(["rt", "version"], capture_output=True, text=True).stdout.strip() if shutil.which("rt") else ""
    # Kits of one number differ in a letter, and prove the same if their logic is the same.
    number, logic = re.sub(r"^(rattle-kit-\d+)\w* (logic \w+)$", r"\1 \2", version).partition(" ")[::2]
    due = [(README, f"`{number}`, `{logic}`")] if version else []
    for document, words in [*due, *counted(), *versions()]:
        if words not in text_of(document):
            yield f"{shown(document)}: it doesn't say: {words}"


def versions():
    """What names the version of the header."""
    version = re.search(r'(?m)^#define ZONED_VERSION "(.*)"$', text_of(HEADER))[1]
    abi = version.rpartition(".")[0]
    return [
        (TOP / "python/src/sahvumbi/_version.py", f'__version__ = "{version}"'),
        (TOP / "crates/zonedump/src/arguments.rt", f'const VERSION: &str = "{version} ('),
        (README, f" {version} "),
        (CONTRIBUTING, f"`libzoned-{version}-linux-x86_64.tar.xz`"),
        (CONTRIBUTING, f"`libzoned{abi}_{version}_amd64.deb`, `libzoned-dev_{version}_amd64.deb` and `zonedump_{version}_amd64.deb`"),
        (CONTRIBUTING, f"`sahvumbi-{version}-*.whl`"),
        (TOP / "CHANGELOG.md", f"\n## {version} "),
    ]


# The first screen of README

# What its commands do, how each begins or ends, and the line of .ci/run that runs it.
FIRST_COMMANDS = {
    "answers a question": (r"\| \(cd crates/\w+ && rt try\)$", r"tools/try_documents\.py programs"),
    "runs all tests": (rf"^{re.escape(TESTS)}(?: \||$)", re.escape(TESTS)),
}


def first_screen():
    end = text_of(README).find("\n## ")
    shown_first = [each for place, _, text in blocks(README, "console") if place < end for each in commands(text)]
    for does, (pattern, step) in FIRST_COMMANDS.items():
        if not any(re.search(pattern, command) and prints for command, prints in shown_first):
            yield f"{shown(README)}: before its first heading is no command, with its output, that {does}"
        if not re.search(rf"(?m)^ *{step}$", text_of(GATE)):
            yield f"{shown(GATE)}: it doesn't run the command of README that {does}"


# Figures


def figure_faults():
    results = latest_results()
    for document in (README, SPEED):
        if with_figures(document, results) != text_of(document):
            yield f"{shown(document)}: it doesn't have the figures of {shown(results)} (bench/write_speed.py puts them there)"


# What a client that names `zoned` alone can cite


def passed_by(crate):
    """The pages of other crates that the pages of a crate pass on."""
    return set(re.findall(r"(?m)^pub use ([\w.]+)", text_of(TOP / "crates" / crate / "specs/Lib.antt")))


def not_passed_on():
    root = without_comments(text_of(FACADE / "src/lib.rt"), "//")
    libraries = set(re.findall(r"(?m)^pub use (\w+)", root))
    whole = set(re.findall(r"(?m)^pub use (\w+);", root))
    names = set(re.findall(WORD, " ".join(re.findall(r"pub use \w+::([^;]*);", root))))
    pages = passed_by("zoned")
    for crate in libraries:
        pages |= {page for page in passed_by(crate) if f"Rattle.{crate}.specs.{page.rsplit('.', 1)[-1]}" in pages}
    told = set()
    for clause in public_clauses():
        if clause.path.relative_to(TOP / "crates").parts[0] not in libraries or is_invariant(clause):
            continue
        for page in sorted({clause.imports[name][0] for name in set(re.findall(NAME, clause.text)) & set(clause.imports)} - told):
            _, crate, *inside = page.split(".")
            if crate not in crates() or inside[0] != "specs" or ".contracts." in page:
                continue
            if inside[1:2] == ["declared"]:
                is_named = crate in whole or bool(names & set(inside))
            else:
                is_named = page in pages or ".Steps" in page
            if not is_named:
                told.add(page)
                yield f"{shown(clause.path, clause.place)}: zoned passes on no {page}"


CHECKS = [
    links, merge_lines, stale_parts, contract_words, types_with_steps, claims, own_memory_errors, planted_bugs,
    wrong_definitions, unused_lemmas, unlisted_pages, modules_without_a_comment, not_passed_on, required_of_c, number_faults,
    unknown_names, cited_calls, modules_of_map, names_of_man_page, scripts_by_hand, options_of_zonedump,
    untested_idioms, facts_of_documents, first_screen, figure_faults, rattle_blocks,
]


def main():
    if sys.argv[1:]:
        sys.exit(__doc__)
    faults = [fault for check in CHECKS for fault in check()]
    print("\n".join(faults) or f"{len(DOCUMENTS)} documents, {len(words_in_contracts())} words of contracts: nothing is wrong")
    sys.exit(bool(faults))


if __name__ == "__main__":
    main()
