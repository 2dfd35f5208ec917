"""Gives every TZif file of a tz database to zoneq, and compares its answers with Python's zoneinfo.

Each file is one `data` line. A hundred instants from 1900 to 2100 follow, half of them near changes: `at` and `show`, and `wall`
for the local time then or up to an hour from it. zoneinfo's two folds show whether no, one or two instants show a local time.
`show` is compared with the local time that Python prints.

A file with leap seconds has its transitions in leap time, which zoneinfo would take for Unix time. Its answers are compared with
zoneinfo's for the same zone's file without them (`right/Asia/Tokyo` with `Asia/Tokyo`): at Unix seconds both zones have the same
offsets. Such files may end without a rule, and are then asked up to the first change that they don't list. A file without such a
twin is only read.

Prints each difference with the known reason, and the counts.
"""

import random
import subprocess
from collections import Counter, namedtuple
from datetime import datetime, timedelta, timezone
from io import BytesIO
from pathlib import Path
from zoneinfo import ZoneInfo

from comparing.database import FOLDER, TzFile, tzif_files
from sources import TOP, needs

EPOCH = datetime(1970, 1, 1, tzinfo=timezone.utc)
FIRST = int((datetime(1900, 1, 1, tzinfo=timezone.utc) - EPOCH).total_seconds())
LAST = int((datetime(2100, 1, 1, tzinfo=timezone.utc) - EPOCH).total_seconds())
HOUR = 3_600
DAY = 24 * HOUR
WEEK = 7 * DAY
INSTANTS = 100
# Nanoseconds past the second, and the digits of a second that Python must print.
FRACTIONS = [(0, "seconds"), (250_000_000, "milliseconds"), (1_000, "microseconds"), (999_999_000, "microseconds")]

# A line for zoneq, the answer by zoneinfo, and the instant that it is about (None for a `data` line).
Question = namedtuple("Question", "source kind line want instant")


class Source:
    """A file of the database, and the zone that zoneinfo makes of it or of its twin without leap seconds."""

    def __init__(self, path, content, folder):
        self.path = path
        self.file = TzFile(content)
        self.has_leap_seconds = self.file.leap_seconds > 0
        twin = folder / Path(*path.relative_to(folder).parts[1:]) if self.has_leap_seconds else path
        self.zone = None
        if twin.is_file() and (content := twin.read_bytes()).startswith(b"TZif") and TzFile(content).leap_seconds == 0:
            self.zone = ZoneInfo.from_file(BytesIO(content))
            self.transitions = TzFile(content).transitions

    def local(self, second, nanos=0):
        return (EPOCH + timedelta(seconds=second, microseconds=nanos // 1_000)).astimezone(self.zone)

    def halve(self, low, high):
        """The second at which the offset of `low` ends, where `high` has another."""
        before = self.local(low).utcoffset()
        while high - low > 1:
            middle = (low + high) // 2
            if self.local(middle).utcoffset() == before:
                low = middle
            else:
                high = middle
        return high

    def changes(self):
        """The transitions, and past the last one the changes of the offset found from week to week."""
        found = [second for second in self.transitions if FIRST <= second < LAST]
        for second in range(max([FIRST, *found]), LAST - WEEK, WEEK):
            if self.local(second).utcoffset() != self.local(second + WEEK).utcoffset():
                found.append(self.halve(second, second + WEEK))
        return found

    def instants(self, chance):
        changes, last = self.changes(), LAST
        if not self.file.footer:
            listed = max(self.file.transitions, default=FIRST)
            last = min([change - DAY for change in changes if change > listed] + [LAST])
            changes = [change for change in changes if change < last]
        seconds = [chance.randrange(FIRST, last) for _ in range(INSTANTS // 2)]
        while len(seconds) < INSTANTS:
            if changes:
                seconds.append(chance.choice(changes) + chance.choice([-HOUR - 1, -1, 0, 1, HOUR // 2, HOUR - 1]))
            else:
                seconds.append(chance.randrange(FIRST, last))
        return seconds

    def questions(self, chance):
        yield Question(self, "data", f"data {self.file.content.hex()}", "ok", None)
        if self.zone is None:
            return
        for second in self.instants(chance):
            local = self.local(second)
            yield Question(self, "at", f"at {second}", type_of(local), second)
            nanos, digits = chance.choice(FRACTIONS)
            yield Question(self, "show", f"show {second} {nanos}", printed(self.local(second, nanos), digits), second)
            reading = local.replace(tzinfo=None, fold=0) + timedelta(seconds=chance.choice([-HOUR, -1, 0, 0, 1, HOUR]))
            fields = f"{reading.year} {reading.month} {reading.day} {reading.hour} {reading.minute} {reading.second}"
            yield Question(self, "wall", f"wall {fields}", wall_of(self.zone, reading), second)


def type_of(local):
    """The type in force, as zoneq writes it. zoneinfo keeps no DST mark, but a DST offset, which is 0 for standard time."""
    mark = "dst" if local.dst() else "std"
    return f"{int(local.utcoffset().total_seconds())} {mark} {local.tzname()}"


def printed(local, digits):
    """Python's own text of a local time, with a space before the offset."""
    text = local.isoformat(" ", digits)
    sign = max(text.rfind("+"), text.rfind("-"))
    return f"{text[:sign]} {text[sign:]}"


def wall_of(zone, reading):
    """What zoneinfo says of a wall clock: the types at the instants of the folds that come back to it."""
    showing = {}
    for fold in (0, 1):
        instant = reading.replace(tzinfo=zone, fold=fold).astimezone(timezone.utc)
        local = instant.astimezone(zone)
        if local.replace(tzinfo=None, fold=0) == reading:
            showing[instant] = type_of(local)
    types = ", ".join(showing[instant] for instant in sorted(showing))
    return f"{['none', 'single', 'ambiguous'][len(showing)]} {types}".strip()


def reason(question, answer):
    """What is known to make zoneinfo answer otherwise."""
    source, instant = question.source, question.instant
    if answer == "bad line" or instant is None:
        return "not answered"
    if answer.replace(" dst ", " std ") == question.want.replace(" dst ", " std "):
        return "zoneinfo keeps no DST mark, and the DST offset here is 0"
    if source.transitions and instant < source.transitions[0] + HOUR:
        return "before the first transition zoneinfo takes the first type that isn't DST"
    near = [second for second in source.transitions if abs(second - instant) <= DAY]
    if len(near) > 1:
        return "zoneinfo finds offsets by wall clock and fold, and changes are so close that three instants show one clock"
    if source.file.footer and len({(EPOCH + timedelta(seconds=instant + shift)).year for shift in (-DAY, DAY)}) > 1:
        return "zoneinfo takes a rule's year from the wall clock, and the order of the rule's changes turns at the new year"
    return "not explained"


def ask(program, questions):
    lines = "".join(f"{question.line}\n" for question in questions)
    run = subprocess.run([program], input=lines.encode(), capture_output=True, check=True)
    answers = run.stdout.decode().splitlines()
    assert len(answers) == len(questions), f"{len(questions)} lines, {len(answers)} answers"
    return answers


def agrees(question, answer):
    return answer.startswith("ok ") if question.kind == "data" else answer == question.want


def report(title, sources, results):
    """Counts of the files of one sort; `results` are (question, whether the answers agree)."""
    asked = Counter(question.kind for question, _ in results)
    same = Counter(question.kind for question, same in results if same)
    versions = Counter(source.file.version for source in sources)
    listed = ", ".join(f"{versions[version]} of version {version}" for version in sorted(versions))
    print(f"files {title}: {asked['data']} ({listed or 'none'}), read: {same['data']}")
    print(f"    not compared: {sum(source.zone is None for source in sources)}")
    for kind, name in (("at", "instants"), ("show", "local times shown"), ("wall", "wall clocks")):
        print(f"    {name}: {asked[kind]} asked, {same[kind]} the same")
    walls = Counter(question.want.split()[0] for question, _ in results if question.kind == "wall")
    print("        of them " + ", ".join(f"{walls[word]} {word}" for word in ("none", "single", "ambiguous")))


def main(program=TOP / "crates/zoneq/out/zoneq", folder=FOLDER):
    needs(Path(program))
    chance = random.Random(2026)
    sources = [Source(path, content, Path(folder)) for path, content in tzif_files(folder)]
    questions = [question for source in sources for question in source.questions(chance)]
    results, reasons = [], Counter()
    for question, answer in zip(questions, ask(program, questions)):
        same = agrees(question, answer)
        results.append((question, same))
        if not same:
            why = reason(question, answer)
            reasons[why] += 1
            line = question.line if question.kind != "data" else "data"
            print(f"{question.source.path}: {line}: zoneq {answer}, zoneinfo {question.want}: {why}")
    for leap_seconds, title in ((False, "without leap seconds"), (True, "with leap seconds")):
        report(
            title,
            [source for source in sources if source.has_leap_seconds == leap_seconds],
            [(question, same) for question, same in results if question.source.has_leap_seconds == leap_seconds],
        )
    for why, count in reasons.most_common():
        print(f"{count} differences: {why}")
    return 1 if reasons["not explained"] + reasons["not answered"] or not sources else 0
