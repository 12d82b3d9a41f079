"""What needs no layout: sheets, the mean of marks, templates of Perl."""
from __future__ import annotations

from typing import List, Optional, Sequence, SupportsIndex, Union

from . import _core
from ._answers import Given, Mean, Rescued, Value
from ._runs import Bytes, checked_coding, checked_int


def sheet_dump(values: Sequence[Given], *, encoding: Optional[str] = None, errors: Optional[str] = None) -> bytes:
    """The sheet of a list or a tuple of values. A sheet has a place for what is not marked, anywhere.

    A value is bytes (str, where an encoding is given), an int or a list of int, a float or a list of numbers with a
    float among them, or None. An int from 2 ** 63 on makes its list an unsigned one.

    >>> sheet_dump([None, b"OK", -2]).hex(" ", -1)
    '01 00 13 00 01 00 00 03 01 4f 4b 00 09 02 ff ff ff ff ff ff ff fe'
    """
    checked_coding(encoding, errors)
    return _core.sheet_dump(values, encoding, errors)


def sheet_load(sheet: Bytes, *, encoding: Optional[str] = None, errors: Optional[str] = None) -> List[Value]:
    """The values of a sheet: bytes (str, where an encoding is given), lists of int, lists of float; None: not marked.

    >>> sheet_load(sheet_dump(["Ada", None, 73], encoding="ascii"), encoding="ascii")
    ['Ada', None, [73]]
    """
    checked_coding(encoding, errors)
    return _core.sheet_load(sheet, encoding, errors)


def sheet_rescue(sheet: Bytes, legs: SupportsIndex, *, encoding: Optional[str] = None,
                 errors: Optional[str] = None) -> Rescued:
    """What is whole at the front of a damaged sheet of `legs` legs; None for the legs that are lost.

    >>> sheet_rescue(sheet_dump([61, 88])[:-1], 2)
    Rescued(values=[[61], None], kept=1, cleared=1, dropped=10)
    """
    checked_coding(encoding, errors)
    return Rescued(*_core.sheet_rescue(sheet, checked_int(legs, "legs"), encoding, errors))


def mean(legs: Sequence[Union[SupportsIndex, Sequence[SupportsIndex], None]]) -> Mean:
    """The mean of the legs that are marked. Each is an int from 0 to 1,000,000, perhaps in a list of its own, or None.

    A leg of 0 counts, a leg that is not marked does not.

    >>> mean([61, None, 0])
    Mean(mean=30.5, not_set=1)
    >>> mean([None, None])
    Mean(mean=None, not_set=2)
    """
    return Mean(*_core.mean(legs))


def from_perl(template: str) -> str:
    """The text of the layout that a pack template of Perl stands for.

    >>> from_perl("(n2a3)2 C")
    'Su2a3Su2a3cu'
    """
    return _core.from_perl(template)
