"""Reads the TZ string in the footer of each TZif file of a tz database, and compares what `to_tz_string` writes of its rule.

zic writes the shortest string, with minutes in two digits, so the bytes must be the same. `extended` must be true if and only if
a time of day in the string is negative or above 24 hours.

Each string is a test of its own, in a crate as `tools/try_tests.py` makes it, run and not proved: some 20 seconds for a hundred
strings. Prints how many are the same, and the report if one differs.
"""

import re
import sys
import tempfile
from pathlib import Path

import try_tests
from comparing.database import FOLDER, TzFile, tzif_files
from kit import tried

MODULE = "of_tz_write"
TIME = re.compile(r"/([+-]?)(\d+)")

HEAD = """use std::alloc::Global;
use std::process::Abort;
use tz_info::TransitionRule;
use tz_write::ToTzString;

fn written(rt: &impl Abort, alloc: Global, text: &str, extended: bool) {
    let Ok(rule) = TransitionRule::from_tz_string(text.as_bytes(), true) else {
        panic!(rt; "{text} has no rule");
    };
    match rule.to_tz_string(alloc) {
        Ok(Some(answer)) => {
            assert_eq!(rt; answer.text.as_str(), text);
            assert_eq!(rt; answer.extended, extended, "{text}");
        }
        _ => panic!(rt; "nothing is written of {text}"),
    }
}
"""

TEST = """
#[test]
fn text_{number}(rt: HostRuntime) {{
    written(&rt, rt.alloc(), "{text}", {extended});
}}
"""


def is_extended(text):
    return any(sign == "-" or int(hours) > 24 for sign, hours in TIME.findall(text))


def tests(texts):
    rows = enumerate(texts)
    return HEAD + "".join(TEST.format(number=n, text=text, extended=str(is_extended(text)).lower()) for n, text in rows)


def main(folder=FOLDER):
    texts = sorted({TzFile(content).footer for _, content in tzif_files(folder)} - {""})
    if not texts:
        sys.exit(f"no TZif file with a text: {folder}")
    with tempfile.TemporaryDirectory() as top:
        [(crate, (_, used))] = try_tests.repository(Path(top), ["tz_write"]).items()
        for old in (crate / "src" / MODULE).iterdir():
            old.unlink()
        (crate / "src" / f"{MODULE}.rt").write_text("mod footers;\n")
        (crate / "src" / MODULE / "footers.rt").write_text(tests(texts))
        status, report = tried(crate, used, try_tests.SECONDS)
    same = len(re.findall(r"(?m)^test \S+::text_\d+ \.\.\. ok$", report))
    if same != len(texts):
        print(report)
    print(f"{same} of {len(texts)} texts are written as they are in the footers, status {status}")
    return 0 if status == 0 and same == len(texts) else 1
