"""CPython's datetime and zoneinfo at the questions of crates/bench_instants.

usage: work_cpython.py INPUTS OUTPUTS

What it prints and writes is said in work.h. A question's answer is an instant's Unix time where it is an instant.
"""

import io
import sys
from array import array
from calendar import monthrange
from datetime import datetime, timedelta
from pathlib import Path
from time import thread_time_ns
from zoneinfo import ZoneInfo

COUNT = 20_000
CHECKED = 100_000
MANY = 1_000_000
SLICE, PASSES = 1000, 10
DAYS = 28
EPOCH = datetime(1970, 1, 1)


def digits(when):
    return int(f"{when.year:04}{when.month:02}{when.day:02}{when.hour:02}{when.minute:02}{when.second:02}")


def fields(when):
    return when.year, when.month, when.day, when.hour, when.minute, when.second


def second(when):
    return int(when.timestamp())


def month_later(when):
    year, month = divmod(12 * when.year + when.month, 12)
    day = min(when.day, monthrange(year, month + 1)[1])
    return when.replace(year=year, month=month + 1, day=day, fold=0)


def resolved(reading, zone):
    return reading.replace(tzinfo=zone)


class Work:
    def __init__(self, zone, other, instants, locals_, skipped):
        self.zone, self.other, self.seconds = zone, other, instants
        self.instants = [datetime.fromtimestamp(each, zone) for each in instants]
        self.others = [datetime.fromtimestamp(each, zone) for each in locals_]
        self.pairs = list(zip(self.instants, self.others))
        self.readings = [EPOCH + timedelta(seconds=each) for each in locals_]
        self.typed = [fields(each) for each in self.readings]
        self.skipped = [EPOCH + timedelta(seconds=each) for each in skipped]

    def day(self, first, number):
        return datetime(first.year, first.month, first.day, 2, 30, tzinfo=self.zone) + timedelta(days=number)

    def questions(self):
        """The name of each question, what is asked about, what is timed, and the answer that is told."""
        zone, other = self.zone, self.other

        return {
            "fields_at": (
                self.seconds,
                lambda each: fields(datetime.fromtimestamp(each, zone)),
                lambda each: digits(datetime.fromtimestamp(each, zone)),
            ),
            "fields": (self.instants, fields, digits),
            "from_fields": (self.typed, *by_second(lambda each: datetime(*each, tzinfo=zone))),
            "month_later": (self.instants, *by_second(month_later)),
            "day_later": (self.instants, *by_second(lambda when: (when + timedelta(days=1)).replace(fold=0))),
            "at_nine": (self.instants, *by_second(lambda when: when.replace(hour=9, fold=0))),
            "five_minutes": (
                self.instants,
                *by_second(lambda when: when.replace(minute=when.minute - when.minute % 5, second=0)),
            ),
            "whole_day": (
                self.instants,
                *[lambda when: second(when) - (3600 * when.hour + 60 * when.minute + when.second)] * 2,
            ),
            "difference": (self.pairs, *[lambda pair: int(pair[0].timestamp() - pair[1].timestamp())] * 2),
            "order": (
                self.pairs,
                lambda pair: pair[0] < pair[1],
                lambda pair: int(pair[0].timestamp() < pair[1].timestamp()),
            ),
            "print": (self.instants, str, lambda when: len(str(when)) + 1),
            "elsewhere": (
                self.instants,
                lambda when: when.astimezone(other),
                lambda when: int((when.astimezone(other).replace(tzinfo=None) - EPOCH).total_seconds()),
            ),
            "resolve": (self.readings, *by_second(lambda reading: resolved(reading, zone))),
            "in_gap": (self.skipped, *by_second(lambda reading: resolved(reading, zone))),
            "daily": (
                self.readings,
                *[lambda first: sum(second(self.day(first, number)) for number in range(DAYS))] * 2,
            ),
        }


def by_second(question):
    """What is timed and told of a question whose answer is an instant: its Unix time."""

    def answer(item):
        return second(question(item))

    return answer, answer


def least_time(call, items):
    """The processor's time of all calls, without that of the loop: of each slice the least of some passes."""
    total = 0
    for start in range(0, len(items), SLICE):
        part, least, empty = items[start : start + SLICE], float("inf"), float("inf")
        for _ in range(PASSES):
            began = thread_time_ns()
            for item in part:
                pass
            empty = min(empty, thread_time_ns() - began)
            began = thread_time_ns()
            for item in part:
                call(item)
            least = min(least, thread_time_ns() - began)
        total += max(least - empty, 0)
    return total


def read(path, count):
    return array("q", path.read_bytes())[:count].tolist()


def spaced(when):
    text = str(when)
    return f"{text[:-6]} {text[-6:]}"


def tell(work, output):
    for name, (items, _, answer) in work.questions().items():
        output.writelines(f"{name}\t{answer(item)}\n" for item in items)
    output.writelines(f"text\t{spaced(when)}\n" for when in work.instants)
    in_order = sorted(work.instants, key=datetime.timestamp)
    output.writelines(f"sort\t{second(when)}\n" for when in in_order)


def made(inputs, zone, other, count):
    return Work(zone, other, *[read(inputs / f"{name}_near.i64", count) for name in ("at", "wall", "gap")])


def main():
    inputs, outputs = Path(sys.argv[1]), Path(sys.argv[2])
    zone, other = [
        ZoneInfo.from_file(io.BytesIO((inputs / f"zones/{name}").read_bytes()), key=name) for name in ("New_York", "London")
    ]
    work = made(inputs, zone, other, CHECKED)
    for name, (items, timed, _) in work.questions().items():
        count = 1000 if name == "daily" else COUNT
        took = least_time(timed, items[:count])
        print("cpython", "New_York", name, "near", f"{took / count:.2f}", count, sep="\t", flush=True)
    many = [datetime.fromtimestamp(each, zone) for each in read(inputs / "at_near.i64", MANY)]
    least = float("inf")
    for _ in range(3):
        began = thread_time_ns()
        sorted(many)
        least = min(least, thread_time_ns() - began)
    print("cpython", "New_York", "sort", "near", f"{least / MANY:.2f}", MANY, sep="\t", flush=True)
    with (outputs / "cpython.answers").open("w") as output:
        tell(work, output)


if __name__ == "__main__":
    main()
