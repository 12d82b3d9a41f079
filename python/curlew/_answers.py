"""What the calls answer."""
from __future__ import annotations

from dataclasses import dataclass
from enum import IntEnum
from typing import List, Optional, Sequence, SupportsFloat, SupportsIndex, Union

from ._refused import Number

# A value out of a record or a sheet, and what is taken for one. None is "not marked".
Value = Union[bytes, str, int, float, List[int], List[float], None]
Given = Union[bytes, bytearray, memoryview, str, SupportsIndex, SupportsFloat, Sequence[SupportsIndex],
              Sequence[SupportsFloat], None]


class Kind(IntEnum):
    """The kind of a slot, the first of its four numbers.

    >>> Kind(4)
    <Kind.REAL: 4>
    """

    UNSET = 0
    STRING = 1
    SIGNED = 2
    UNSIGNED = 3
    REAL = 4


class Verdict(IntEnum):
    """What comparing says of a field: the same in both copies, in one of them only, in neither, or different."""

    SAME = 0
    ONLY_FIRST = 1
    ONLY_SECOND = 2
    NEITHER = 3
    DIFFERENT = 4


@dataclass(frozen=True)
class Field:
    """A field of a layout.

    The count is None where there is none, and "*" for a star. The slot is the number of the value that the field takes,
    None for `x X @`. The position is the byte of the record at which packing begins the field, None where starred
    values decide that; `bytes` are those that it fills, None where it is starred. Place and length are those of its
    text.
    """

    text: str
    name: Optional[str]
    type: str
    unsigned: bool
    count: Union[int, str, None]
    slot: Optional[int]
    position: Optional[int]
    bytes: Optional[int]
    place: int
    length: int


@dataclass(frozen=True)
class Finding:
    """What comparing says of a field: the verdict, and the value in each copy, None where the copy is too short for it.

    For Verdict.DIFFERENT, `place` is the first byte at which the values part, as they lie in the area (an integer is
    eight bytes there), and `bits` how many bits differ; else both are 0.
    """

    name: Optional[str]
    verdict: Verdict
    place: int
    bits: int
    first: Value
    second: Value


@dataclass(frozen=True)
class Promises:
    """Where a layout breaks each promise: the byte of its text, or None where the promise is kept.

    `grows`: it may grow at its end. `keeps`: reading loses nothing. `joins`: it may be joined with other such layouts.
    """

    grows: Optional[int]
    keeps: Optional[int]
    joins: Optional[int]


@dataclass(frozen=True)
class Extension:
    """Whether a layout is another one with fields added at its end: true or false where it is asked so.

    Where it is one, `fields` and `added` count the fields of the old layout and those added. Else number, place, text
    and caret say why not, as in Refused; the place is a byte of the new layout.
    """

    number: Number
    fields: int
    added: int
    place: Optional[int]
    text: str
    caret: str

    def __bool__(self) -> bool:
        return self.number is Number.OK


@dataclass(frozen=True)
class Reading:
    """How many slots a reading set, the place in the area after the last value, and the fields that it went through."""

    set: int
    end: int
    steps: int


@dataclass(frozen=True)
class Rescued:
    """What is left of a damaged sheet: the values, None for lost legs; entries kept, legs cleared, bytes dropped."""

    values: List[Value]
    kept: int
    cleared: int
    dropped: int


@dataclass(frozen=True)
class Mean:
    """The mean of the marked legs, None where no leg is marked, and how many legs are not."""

    mean: Optional[float]
    not_set: int
