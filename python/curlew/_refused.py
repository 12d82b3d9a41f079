"""The numbers that come back, and the exception of a refusal."""
from __future__ import annotations

from enum import IntEnum


class Number(IntEnum):
    """Why a call was refused. Those below 100 are the library's; curlew.h has a table of them.

    >>> Number.NOT_SET
    <Number.NOT_SET: 6>
    """

    OK = 0
    BAD_SIZE = 1
    BAD_TYPE = 2
    BAD_COUNT = 3
    BAD_MOVE = 4
    BAD_SLOTS = 5
    NOT_SET = 6
    BAD_SLOT = 7
    WRONG_KIND = 8
    BAD_LIST = 9
    BAD_DIGIT = 10
    NO_ROOM = 11
    BAD_SHEET = 12
    BAD_VERSION = 13
    BAD_MARK = 14
    BAD_TEMPLATE = 15
    BAD_REAL = 16
    OTHER_FIELDS = 17
    NOT_PLAIN = 18
    WOULD_LOSE = 100


class Refused(ValueError):
    """A call that was refused: its number, the place of the fault, a text, and a caret.

    The place is a byte of the layout, of the template or of the sheet, or the number of a value, as the number has it.
    The caret is two lines: the layout or the template, and below it a caret under the fault, or under the field that
    the value was meant for. It is empty where there is nothing to point at.

    >>> from curlew import Layout
    >>> try:
    ...     Layout("a6 c50000")
    ... except Refused as refusal:
    ...     print(refusal.number.name, refusal.place, refusal.text)
    ...     print(refusal.caret)
    BAD_COUNT 4 a count in the layout is too large
    a6 c50000
        ^
    """

    number: Number
    place: int
    text: str
    caret: str

    def __init__(self, number: int, place: int, text: str, caret: str = "") -> None:
        super().__init__(number, place, text, caret)
        self.number = Number(number)
        self.place = place
        self.text = text
        self.caret = caret

    def __str__(self) -> str:
        said = f"{self.text} (number {int(self.number)}, place {self.place})"
        return f"{said}\n{self.caret}" if self.caret else said
