"""What is wrong with a zone or with a row of a column: the number of the error, and its words.

>>> import sahvumbi
>>> try:
...     sahvumbi.Zone.from_text("EST5EDT")
... except sahvumbi.ZoneRefusedError as refused:
...     print(refused.number, refused.words)
15 a TZ string names daylight saving time but has no rule for it
"""

from __future__ import annotations

from typing import Any, Optional
from zoneinfo import ZoneInfoNotFoundError

from ._library import IN_FOLD, IN_GAP, INSTANT_OUT_OF_RANGE, words_of

NO_OFFSET = 2
TIME_ZONE = 12
GAP, FOLD, OUT_OF_RANGE = IN_GAP, IN_FOLD, INSTANT_OUT_OF_RANGE

#: The words of each number that an error of a zone or of a row has: the library's, but for `NO_OFFSET`, which
#: C reports as an answer.
WORDS = {
    NO_OFFSET: "the zone has no local time type at that instant",
    **{number: words_of(number) for number in (3, *range(5, 9), 10, *range(12, 18), *range(41, 45))},
    **{number: words_of(number) for number in (GAP, FOLD, OUT_OF_RANGE)},
}


# Characters of a value that a message shows.
WIDTH = 80


def printable(value: Any) -> str:
    """Returns the text of a value, escaped if it can't be printed, and without its middle if it is
    longer than `WIDTH` characters."""
    if isinstance(value, int) and value.bit_length() > 3 * WIDTH:
        return f"an integer of {value.bit_length()} bits"
    text = str(value)
    if len(text) > WIDTH:
        text = f"{text[: WIDTH // 2 - 2]}...{text[1 - WIDTH // 2 :]}"
    return text if text.isprintable() else repr(text)[1:-1]


class ZoneNotFoundError(ZoneInfoNotFoundError):
    """No file has the zone of that name. It is a KeyError, as zoneinfo's error is."""

    def __str__(self) -> str:
        return str(self.args[0]) if self.args else ""


class ZoneError(ValueError):
    """An error of a zone or of a row: its `number`, and in `words` what that means."""

    number: int
    words: str


class ZoneRefusedError(ZoneError):
    """The bytes make no zone.

    `position` is the number of bytes in front of the fault. In a TZ string that is where the first
    byte is with which no string goes on, or the number, the time or the name that is out of its
    limits, or the end if bytes are missing; in a file its end if it is too short, or else the first
    byte of the field whose value is rejected. None if memory ran out.
    """

    def __init__(self, number: int, what: str = "the zone", position: Optional[int] = None):
        self.number = TIME_ZONE if 41 <= number <= 44 else number
        self.words = WORDS.get(number, "a fault of another kind")
        self.what = printable(what)
        self.position = position
        super().__init__(number, self.what, position)

    def __str__(self) -> str:
        place = "" if self.position is None else f" at offset {self.position}"
        return f"{self.what}: {self.words} (error {self.number}){place}"


class RowError(ZoneError):
    """A row that has no answer. No row is answered then.

    `row` is its place from 0 on, in the order of the rows (of an array of several dimensions in C
    order), `value` is what the column has there, and `label` is its label in the index of a Series,
    else None. Of one value and of an end of a stretch `row` is None; `label` is the end's name.
    `call` is the call that raises the error, such as "zone.localize", or None.
    """

    call: Optional[str] = None
    #: The argument that says what to return for such a row.
    argument: Optional[str] = None
    #: What to pass instead, if the words are others than those of the number.
    advice: Optional[str] = None

    def __init__(
        self,
        row: Optional[int],
        value: Any,
        number: int,
        words: Optional[str] = None,
        label: Any = None,
    ):
        self.row, self.value, self.number, self.label = row, value, number, label
        self.words = words or WORDS[number]
        super().__init__(row, value, number, self.words, label)

    def __str__(self) -> str:
        text = f"{printable(self.value)}: {self.words} (error {self.number})"
        if self.advice is not None:
            text += f"; {self.advice}"
        elif self.argument is not None and self.words == WORDS[self.number]:
            text += f"; {self.argument}= says what to return"
        if self.row is not None:
            label = "" if self.label is None else f" (label {printable(repr(self.label))})"
            text = f"row {self.row}{label}: {text}"
        elif self.label is not None:
            text = f"{printable(self.label)}: {text}"
        return text if self.call is None else f"{self.call}: {text}"


class GapError(RowError):
    """The zone's clocks skipped that local time (21)."""

    argument = "gap"


class FoldError(RowError):
    """The zone's clocks showed that local time more than once (22)."""

    argument = "fold"


class OutOfRangeError(RowError):
    """The answer is out of range, or doesn't fit the type of the column (23)."""


class NoOffsetError(RowError):
    """The zone has no offset at that instant (2)."""
