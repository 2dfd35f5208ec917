#!/usr/bin/env python3
"""Tries the extensions of examples/ for SQLite and for PostgreSQL, over an installed library.

usage: tools/try_databases.py

It needs crates/zoned_ffi/out/libzoned_ffi.a, which `rt lib` builds in crates/zoned_ffi, and gcc. The extension for SQLite is tried
if Debian's sqlite3 and libsqlite3-dev are installed, and that for PostgreSQL if postgresql and postgresql-server-dev-15 are: on a
server of its own, which is started in a temporary folder and speaks to a socket there. Each answer is compared with Python's
zoneinfo: instants and local times around gaps and folds of six zones, and through 200 years; and each error with its words.

It takes a few seconds. Ends with status 1 if anything differs.
"""

import os
import shutil
import subprocess
import sys
import tempfile
from datetime import datetime, timedelta, timezone
from pathlib import Path
from zoneinfo import ZoneInfo

from sources import TOP, needs

ARCHIVE = TOP / "crates/zoned_ffi/out/libzoned_ffi.a"
ZONES = ["America/New_York", "Europe/London", "Asia/Kolkata", "America/Sao_Paulo", "Pacific/Apia", "Australia/Lord_Howe"]
# Transitions of New York, London, Apia and Lord Howe; half hours near them, and every 97 days over two centuries.
TRANSITIONS = [1_615_705_200, 1_636_264_800, 1_616_893_200, 1_325_239_200, 1_617_462_000]
SECONDS = [second + 1800 * half_hours for second in TRANSITIONS for half_hours in range(-30, 31)]
SECONDS += [97 * 86_400 * step + 7 * step for step in range(-390, 390)]
FORM = "%Y-%m-%d %H:%M:%S"
REFUSED = {
    "to_utc('2021-03-14 02:30:00', 'America/New_York', 'refuse')": "the local time lies in a gap",
    "to_utc('2021-11-07 01:30:00', 'America/New_York', 'end', 'refuse')": "the local time lies in a fold",
    "to_utc('2021-11-07 01:30:00', 'America/New_York', 'forward')": "no such choice for gaps and folds",
    "to_utc('2021-11-07 01:30:00', '../../etc/passwd')": "no time zone of that name",
}
GAP_ENDS = {f"to_utc('2021-03-14 02:30:00', 'America/New_York', '{gap}')": instant for gap, instant in
            [("end", "1615705200"), ("shift_backward", "1615703400")]}


def run(*words, **more):
    ended = subprocess.run([str(word) for word in words], capture_output=True, text=True, **more)
    if ended.returncode:
        raise SystemExit(f"{' '.join(map(str, words))} ends with {ended.returncode}: {ended.stdout}{ended.stderr}")
    return ended.stdout


def built(name, root, room, *flags):
    """The extension of that name, built over the installed library."""
    library = room / f"{name}.so"
    run("gcc", "-O2", "-Wall", "-Wextra", "-shared", "-fPIC", *flags, "-I", root / "include", "-o", library, TOP / f"examples/{name}.c",
        root / "lib/libzoned.a")
    return library


def local_at(name, second):
    return datetime.fromtimestamp(second, ZoneInfo(name)).strftime(FORM)


def instant_of(name, local, fold):
    """PEP 495: in a gap the offset before it is taken for the first pass, as a shift forward does."""
    return int(local.replace(tzinfo=ZoneInfo(name), fold=fold).timestamp())


def questions():
    """Each question as a call, and its answer: a text, or a Unix second."""
    for name in ZONES:
        for second in SECONDS:
            yield f"to_local({second}, '{name}')", local_at(name, second)
            local = datetime(1970, 1, 1) + timedelta(seconds=second)
            for fold, word in enumerate(["earliest", "latest"]):
                if fold == 0 or instant_of(name, local, 1) > instant_of(name, local, 0):
                    yield f"to_utc('{local.strftime(FORM)}', '{name}', 'shift_forward', '{word}')", str(instant_of(name, local, fold))
    yield from GAP_ENDS.items()
    yield "tz_abbrev(1615705200, 'America/New_York')", "EDT"


def differences(answers, due):
    """The questions whose answers are others, of those that are due."""
    if len(answers) != len(due):
        return [f"{len(answers)} answers to {len(due)} questions"]
    return [f"{question} is {answer}, not {wanted}" for answer, (question, wanted) in zip(answers, due) if answer != wanted]


def with_sqlite(root, room):
    library, due = built("zoned_sqlite", root, room), list(questions())
    script = f".load {library.with_suffix('')}\n" + "".join(f"select {question};\n" for question, _ in due)
    yield from differences(run("sqlite3", "-batch", ":memory:", input=script).splitlines(), due)
    for question, words in REFUSED.items():
        said = subprocess.run(["sqlite3", ":memory:", f".load {library.with_suffix('')}", f"select {question}"], capture_output=True, text=True)
        if words not in said.stderr:
            yield f"{question} says {said.stdout}{said.stderr}"


# PostgreSQL


def in_postgresql(question):
    """A question in the words of the extension for PostgreSQL, whose instants are a type of their own."""
    if question.startswith("to_local("):
        return "zoned_to_local(to_timestamp(" + question.removeprefix("to_local(").replace(",", "),", 1)
    return f"extract(epoch from zoned_{question})::bigint"


FUNCTIONS = """
create function zoned_to_local(timestamptz, text) returns timestamp as '{0}' language c strict stable parallel safe;
create function zoned_to_utc(local timestamp, zone text, gap text default 'shift_forward', fold text default 'earliest')
  returns timestamptz as '{0}' language c strict stable parallel safe;
"""


def with_postgresql(root, room, programs):
    library = built("zoned_postgresql", root, room, "-I", run(programs / "pg_config", "--includedir-server").strip())
    # The server doesn't run as root.
    user = ["runuser", "-u", "postgres", "--"] if os.geteuid() == 0 else []
    folder = room / "server"
    folder.mkdir()
    if user:
        shutil.chown(folder, "postgres")
        room.chmod(0o755)
    control = [*user, programs / "pg_ctl", "-D", folder / "data", "-w"]
    psql = [*user, "psql", "-h", folder, "-d", "postgres", "-qAtX"]
    run(*user, programs / "initdb", "-D", folder / "data", "-A", "trust", cwd=folder)
    run(*control, "-l", folder / "log", "-o", f"-c listen_addresses='' -c unix_socket_directories={folder}", "start", cwd=folder)
    try:
        due = [(in_postgresql(question), answer) for question, answer in questions() if not question.startswith("tz_abbrev")]
        script = FUNCTIONS.format(library) + "".join(f"select {question};\n" for question, _ in due)
        yield from differences(run(*psql, "-v", "ON_ERROR_STOP=1", input=script, cwd=folder).splitlines(), due)
        for question, words in REFUSED.items():
            said = subprocess.run([str(word) for word in [*psql, "-c", f"select zoned_{question}"]], capture_output=True, text=True, cwd=folder)
            if words not in said.stderr:
                yield f"{question} says {said.stdout}{said.stderr}"
        ends = "select zoned_to_local('infinity', 'UTC'), zoned_to_utc('-infinity', 'UTC')"
        if (said := run(*psql, "-c", ends, cwd=folder)) != "infinity|-infinity\n":
            yield f"{ends} says {said}"
    finally:
        run(*control, "-m", "immediate", "stop", cwd=folder)


def main():
    needs("gcc", ARCHIVE)
    tried, faults = [], []
    with tempfile.TemporaryDirectory() as room:
        room = Path(room)
        run("sh", TOP / "tools/install.sh", env={**os.environ, "DESTDIR": str(room / "root")})
        if shutil.which("sqlite3") and Path("/usr/include/sqlite3ext.h").exists():
            tried.append("SQLite")
            faults += with_sqlite(room / "root/usr/local", room)
        servers = sorted(Path("/usr/lib/postgresql").glob("*/bin"))
        if servers and Path("/usr/include/postgresql", servers[-1].parent.name, "server/postgres.h").exists():
            tried.append("PostgreSQL")
            faults += with_postgresql(room / "root/usr/local", room, servers[-1])
    count = len(list(questions()))
    print("\n".join(faults) or f"{' and '.join(tried) or 'no database is installed: nothing'} tried, {count:,} questions each: as zoneinfo")
    return 1 if faults else 0


if __name__ == "__main__":
    sys.exit(main())
