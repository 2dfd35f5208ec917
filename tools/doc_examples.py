"""The examples of doc comments as tests: tools/try_tests.py runs them with the tests of their crate.

Each block of a doc comment that isn't marked `text` becomes a test of the module doc_comments, below the text of
crates/NAME/tests/doc_comments.txt. That text has the `use` lines, and a line `// let NAME = ..;` for each name that blocks use and don't
make; `alloc` is the global allocator. In both `?` fails the test.

A comment behind a statement that begins with a small letter is a note, unless it is `true` or `false`. Any other one begins with what
the statement's value prints, by `{}` or `{:?}`: up to its end, or to a comma, a colon or a semicolon. `2021-03-14 12:00:00` is also
what prints as `2021-03-14T12:00:00`, and the reverse, and `90 minutes` what prints as `PT5400S`. A text in quotes is the value's bytes.
"""

import re

from sources import TOP, files, shown, text_of

GIVEN = "tests/doc_comments.txt"
BY_DEBUG = re.compile(r"(Some|Ok|Err|Single|Ambiguous)\(|None|\w+::|\d+-W")
SECONDS = {"nanoseconds": 1e-9, "seconds": 1, "minutes": 60, "hours": 3600, "days": 86_400}


def blocks(crate):
    """The blocks of the crate's doc comments that aren't marked: each with its place, and the lines."""
    for path in files("src", ".rt", [crate]):
        fence, lines, start = None, [], 0
        for line in re.finditer(r"(?m)^.*$", text_of(path)):
            comment = re.match(r"\s*//[/!] ?(.*)", line[0])
            if not comment:
                fence = None
            elif comment[1].startswith("```"):
                if fence == "```":
                    yield shown(path, start), lines
                fence, lines, start = (comment[1], [], line.start()) if fence is None else (None, [], 0)
            else:
                lines.append(comment[1])


def printed(value):
    """What a value may print that a comment calls so."""
    length = re.fullmatch(r"(-?[\d_,]+) (\w+)", value)
    if length and length[2] in SECONDS:
        seconds = f"{int(re.sub('[_,]', '', length[1])) * SECONDS[length[2]]:.9f}".rstrip("0").rstrip(".")
        return {f"-PT{seconds[1:]}S" if seconds[0] == "-" else f"PT{seconds}S"}
    value = re.sub(r"(\d-\d\d-\d\d)T(?=\d)", r"\1 ", re.sub(r"(?<=\d)_(?=\d)|\b\w+::", "", value))
    by_debug = re.sub(r"(\d-\d\d-\d\d) (?=\d)", r"\1T", value)
    return {value, by_debug, re.sub(r" ([+-]\d)", r"\1", by_debug).replace(" UTC", "Z")}


def parts(text):
    """The parts of a text between the commas that are in no bracket."""
    found, depth = [""], 0
    for character in text:
        depth += (character in "([") - (character in ")]")
        if character == "," and not depth:
            found.append("")
        else:
            found[-1] += character
    return [part.strip() for part in found]


def expected(name, value, place):
    """The lines that compare the value of that name with a comment, as far as it goes."""
    if value.startswith('"'):
        return [f'assert!(rt; {name}.as_slice() == b{value}.as_slice(), "{place}");']
    if value.startswith("("):
        inner = parts(value[1 : value.rindex(")")])
        names = [f"told_{number}" for number in range(len(inner))]
        return [f"let ({', '.join(names)}) = {name};", *(line for each in zip(names, inner) for line in expected(*each, place))]
    due = {each for end in re.finditer(r"(?=[,:;] |$)", value) for each in printed(value[: end.start()])}
    words = " || ".join('told.as_str() == "{}"'.format(each.replace('"', '\\"')) for each in sorted(due))
    how = ":?" if BY_DEBUG.match(value) else ""
    return [f'let told = format!(in rt.alloc(); "{{{name}{how}}}").expect(&rt, "memory");', f'assert!(rt; {words}, "{place}: {{told}}");']


def without_question_marks(code):
    return re.sub(r"(?<!:)\?(?=\W|$)", '.expect(&rt, "the example")', code)


def statements(place, lines):
    """The block as lines of a test's body, and the items that it defines."""
    body, items = re.split(r"(?m)(?=^#\[derive|^pub struct)|\Z", "\n".join(lines) + "\n", maxsplit=1)
    for line in body.splitlines():
        code, _, comment = (part.strip() for part in re.sub(r"(^|\s)//\s", "\0", line, count=1).partition("\0"))
        code = without_question_marks(code)
        is_value = re.match(r"[^a-z]|(true|false)\b", comment) and code
        made = re.match(r"let (?:mut )?(\w+)\b.* = ", code)
        if is_value and not made:
            code = f"let told = {code.rstrip(';')};"
        elif code and code[-1] not in "{};,[(|":
            code = f"let told = {code};"
        yield code
        if is_value:
            yield from expected(made[1] if made else "told", comment, place)
            yield "reached += 1;" * line.startswith(" ")
    yield items


def is_given(name, text):
    """Whether the text uses the name before it makes it."""
    first = re.search(rf"(?<![\w.:\"]){name}\b(?![(:])", text)
    return first and not text[: first.start()].endswith(("let ", "let mut ", "for "))


def tests(crate):
    """The text of the module doc_comments, or an empty one."""
    found = list(blocks(crate))
    if not found:
        return ""
    path = TOP / "crates" / crate / GIVEN
    given = text_of(path) if path.is_file() else "//! The examples of doc comments.\n"
    names = re.findall(r"(?m)^// (let (?:mut )?(\w+)\b.*)$", given)
    made = [given]
    for number, (place, lines) in enumerate(found):
        *body, items = statements(place, lines)
        text = "\n".join(body)
        if "reached += 1;" in body:
            text = f'let mut reached = 0;\n{text}\nassert!(rt; reached >= {body.count("reached += 1;")}, "{place}: not reached");'
        for code, name in [*reversed(names), ("let alloc = rt.alloc();", "alloc")]:
            text = f"{without_question_marks(code)}\n{text}" if is_given(name, text) else text
        made.append(f"\n{items}\n#[test]\nfn example_{number}(rt: HostRuntime) {{\n{text}\n}}\n")
    return "".join(made)
