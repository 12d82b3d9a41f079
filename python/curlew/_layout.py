"""Records by a layout."""
from __future__ import annotations

import os
from collections import namedtuple
from itertools import chain, repeat
from typing import (Any, BinaryIO, Generic, Iterator, List, Mapping, Optional, Sequence, SupportsIndex, Tuple, Type,
                    TypeVar, Union, overload)

from . import _core
from ._answers import Extension, Field, Finding, Given, Promises, Reading, Verdict
from ._refused import Number
from ._runs import Bytes, Lent, Writable, as_bytes, blocks_of, checked_coding, checked_int

Row = TypeVar("Row", bound=Tuple[Any, ...])
Values = Union[Sequence[Given], Mapping[str, Given]]

# How many bytes of a file or a long buffer are looked at in one go.
BLOCK = 65536


def _row_class(names: Union[str, Sequence[str], Type[Any], None]) -> Optional[Type[Any]]:
    """The class of the rows: a named tuple of these names, or the one that is given."""
    if names is None:
        return None
    if isinstance(names, type):
        if not issubclass(names, tuple) or not isinstance(getattr(names, "_fields", None), tuple):
            raise TypeError(f"names: a class of named tuples, not {names!r}")
        return names
    if not isinstance(names, (str, list, tuple)):
        raise TypeError(f"names: a str, a list or tuple of str, or a class of named tuples, not {type(names).__name__}")
    if not isinstance(names, str) and not all(isinstance(name, str) for name in names):
        raise TypeError("names: every one of them is a str")
    return namedtuple("Record", names)


class Layout(Generic[Row]):
    """A layout, looked at once and used for any number of records, from any number of threads.

    >>> legs = Layout("a6 A12 Su Su Su", names="code name written oral steno", encoding="ascii")
    >>> record = legs.pack(["C00417", "Ada Lind", 61, 0, 88])
    >>> legs.read(record)
    Record(code='C00417', name='Ada Lind', written=61, oral=0, steno=88)

    A record that lost its end, or is from last year, has no value for the fields after its end. Such a field is not
    marked: None, and never a 0.

    >>> legs.read(record[:22])
    Record(code='C00417', name='Ada Lind', written=61, oral=0, steno=None)

    Text is bytes, or str where an encoding is given; `errors` is what bytes.decode knows. Digits (`b B h H`) are str. A
    field of numbers without a count has one number, with a count or a star it has a list:

    >>> Layout("a3 b4 S S2 q*").read(b"Ada\\x0d\\x00\\x3d\\x00\\x07\\x00\\x00")
    (b'Ada', '1011', 61, [7, 0], [])

    `names` are names for the values, in a string or a list, or a class of named tuples:

    >>> from typing import NamedTuple, Optional
    >>> class Leg(NamedTuple):
    ...     code: bytes
    ...     mark: Optional[int]
    >>> Layout("a6 Su", names=Leg).read(b"C00417")
    Leg(code=b'C00417', mark=None)

    A layout that reading would refuse is refused at once:

    >>> Layout("a6 y")
    Traceback (most recent call last):
    ...
    curlew.Refused: the layout has an unknown type (number 2, place 3)
    a6 y
       ^
    """

    __slots__ = ("_core", "_text", "_given", "_encoding", "_errors", "_fields", "_names", "_length")

    @overload
    def __init__(self: Layout[Tuple[Any, ...]], text: str, names: None = None, *, encoding: Optional[str] = None,
                 errors: Optional[str] = None) -> None: ...

    @overload
    def __init__(self: Layout[Row], text: str, names: Type[Row], *, encoding: Optional[str] = None,
                 errors: Optional[str] = None) -> None: ...

    @overload
    def __init__(self: Layout[Any], text: str, names: Union[str, Sequence[str]], *, encoding: Optional[str] = None,
                 errors: Optional[str] = None) -> None: ...

    def __init__(self, text: str, names: Union[str, Sequence[str], Type[Any], None] = None, *,
                 encoding: Optional[str] = None, errors: Optional[str] = None) -> None:
        if not isinstance(text, str):
            raise TypeError(f"text: a str, not {type(text).__name__}")
        checked_coding(encoding, errors)
        row = _row_class(names)
        self._core, fields = _core.layout(text, row, encoding, errors)
        self._text, self._encoding, self._errors = text, encoding, errors
        self._names: Optional[Tuple[str, ...]] = None if row is None else row._fields
        self._given = names if isinstance(names, type) else self._names
        slots = sum(field[5] is not None for field in fields)
        if self._names is not None and len(self._names) != slots:
            raise ValueError(f"names: {slots} values want {slots} names, not {len(self._names)}")
        self._fields = tuple(self._field(*field) for field in fields)
        self._length = self._own_length()

    def _field(self, place: int, length: int, letter: str, flag: bool, count: Any, slot: Optional[int],
               position: Optional[int], size: Optional[int]) -> Field:
        name = self._names[slot] if self._names is not None and slot is not None else None
        return Field(self._text[place:place + length], name, letter, flag, count, slot, position, size, place, length)

    def _own_length(self) -> Optional[int]:
        """The length of every record that is packed by the layout; None where there is no such length."""
        if any(field.count == "*" and field.type not in "X@" for field in self._fields):
            return None
        return self._core.describe()[1]

    @property
    def text(self) -> str:
        """The text of the layout."""
        return self._text

    @property
    def names(self) -> Optional[Tuple[str, ...]]:
        """The names of the values, or None."""
        return self._names

    @property
    def encoding(self) -> Optional[str]:
        """The encoding of text, None where text is bytes."""
        return self._encoding

    @property
    def length(self) -> Optional[int]:
        """How many bytes a record has that is packed by the layout; None where starred values decide that.

        >>> Layout("a6 A12 Su Su Su").length
        24
        >>> Layout("a6 c*").length is None
        True
        """
        return self._length

    @property
    def fields(self) -> Tuple[Field, ...]:
        """The fields, in their order, those without a value too.

        >>> for field in Layout("A8 x2 Su2").fields:
        ...     print(field.text, field.type, field.unsigned, field.count, field.slot, field.position, field.bytes)
        A8 A False 8 0 0 8
        x2 x False 2 None 8 2
        Su2 S True 2 1 10 4
        """
        return self._fields

    @property
    def promises(self) -> Promises:
        """Where the layout breaks each of three promises: to grow at its end, to lose nothing, to be joined.

        >>> Layout("a6 A12 Su").promises
        Promises(grows=None, keeps=3, joins=None)
        """
        return Promises(*self._core.promises())

    def pack(self, values: Values, *, wrap: bool = False, cut: bool = False) -> bytes:
        """The record of these values: a list or a tuple, or a dict (any mapping) by names.

        The field says what a value has to be: an int or a list of int for `c s S i I w W`, a float (or an int) or a
        list of them for `r R q Q`, bytes (str, where there is an encoding) for `a A`, str or bytes for digits.

        >>> Layout("S q2", names=["mark", "speed"]).pack({"speed": [180, 0.5], "mark": 61}).hex()
        '003d0000000000806640000000000000e03f'

        What is not marked cannot be packed: in a record every byte is a value, and a leg that nobody marked would be a
        0. Keep such a table as a sheet.

        >>> Layout("A8 S").pack([b"Ada", None])
        Traceback (most recent call last):
        ...
        curlew.Refused: the slot is not set (number 6, place 1)
        A8 S
           ^

        A value that would not come back is refused. With wrap=True an integer that is too large is stored by its
        low-order bits, and a real that is too large for `r R` as the largest there is; with cut=True text, digits and
        lists lose their end.

        >>> Layout("cu").pack([256])
        Traceback (most recent call last):
        ...
        curlew.Refused: the field has no room for 256: wrap=True stores its low-order bits (number 100, place 0)
        cu
        ^
        >>> Layout("cu a2").pack([256, b"Ada"], wrap=True, cut=True)
        b'\\x00Ad'
        """
        if not isinstance(values, (list, tuple)) and isinstance(values, Mapping):
            return self._core.pack(self._in_order(values), wrap, cut)
        return self._core.pack(values, wrap, cut)

    def _in_order(self, values: Mapping[str, Given]) -> List[Given]:
        if self._names is None:
            raise TypeError("values: a list or a tuple, since the layout has no names")
        wrong = sorted(map(str, values.keys() ^ set(self._names)))
        if wrong:
            raise ValueError(f"values: a dict has every name once and no other; see {', '.join(wrong)}")
        return [values[name] for name in self._names]

    def read(self, record: Bytes) -> Row:
        """The values of a record, a tuple or a named tuple: None for what the record is too short for.

        >>> Layout("S2").read(b"\\x00\\x3d\\x00\\x07")
        ([61, 7],)
        >>> Layout("S2").read(b"\\x00\\x3d\\x00")
        (None,)

        A record is bytes, a bytearray, a memoryview or an mmap.

        >>> Layout("S2").read(5)
        Traceback (most recent call last):
        ...
        TypeError: record: bytes, bytearray, memoryview or mmap, not int
        """
        return self._core.read(record)  # type: ignore[no-any-return]

    def read_into(self, record: Bytes, slots: Writable, area: Writable, mark: SupportsIndex = 0) -> Reading:
        """Reads a record into slots and, from byte `mark` on, into an area, as curlew_read does.

        The slots of fields that the record is too short for stay as they were; so do all other bytes. Read several
        records into one area by giving the end of one reading as the mark of the next.

        >>> layout = Layout("a6 Su Su")
        >>> slots, area = bytearray(3 * 16), bytearray(64)
        >>> layout.read_into(b"C00417\\x00\\x3d", slots, area)
        Reading(set=2, end=14, steps=3)
        >>> layout.values(slots, area)
        (b'C00417', 61, None)
        """
        whole, start = as_bytes(record, "record"), checked_int(mark, "mark")
        with Lent(slots, "slots") as own_slots, Lent(area, "area") as own_area:
            if own_slots.exporter is own_area.exporter:
                raise ValueError("slots and area lie in one object: give each its own")
            answer = Reading(*self._core.read_into(whole, own_slots.array, own_area.array, start))
            own_slots.give_back()
            own_area.give_back()
        return answer

    def values(self, slots: Bytes, area: Bytes) -> Row:
        """The values of a table, as `read` gives those of a record: slots and area, as `read_into` leaves them."""
        own_slots, own_area = bytearray(as_bytes(slots, "slots")), bytearray(as_bytes(area, "area"))
        return self._core.values(own_slots, own_area)  # type: ignore[no-any-return]

    def records(self, source: Union[str, os.PathLike[str], BinaryIO, Bytes],
                length: Optional[SupportsIndex] = None) -> Iterator[Row]:
        """An iterator over the records of a file or of a run of bytes. The last one may be cut: it is read as it is.

        The source is a path (str or os.PathLike), a file that is open for reading bytes, or bytes, a bytearray, a
        memoryview or an mmap. Records are as long as the layout packs them, or as `length` says: last year's are
        shorter. A layout may serve any number of threads; an iterator, like a file, serves one.

        >>> legs = Layout("a2 Su")
        >>> list(legs.records(b"Ad\\x00\\x3dEf\\x00\\x00Io"))
        [(b'Ad', 61), (b'Ef', 0), (b'Io', None)]
        >>> list(Layout("a2 Su Su").records(b"Ad\\x00\\x3dEf\\x00\\x00", length=4))
        [(b'Ad', 61, None), (b'Ef', 0, None)]
        """
        size = self._length if length is None else checked_int(length, "length")
        if size is None:
            raise ValueError("length: starred values decide how long a record is, so say it")
        if not 1 <= size <= _core.MAX_RECORD:
            raise ValueError(f"length: a record has 1 to {_core.MAX_RECORD} bytes, not {size}")
        if isinstance(source, bytes):
            return self._core.rows(source, size)
        blocks = blocks_of(source, max(BLOCK // size, 1) * size)
        return chain.from_iterable(map(self._core.rows, blocks, repeat(size)))

    def compare(self, first: Bytes, second: Bytes) -> List[Finding]:
        """What differs between two copies of a record: a finding for each value.

        >>> legs = Layout("a2 Su Su", names="code written oral")
        >>> for finding in legs.compare(b"Ad\\x00\\x3d", b"Ad\\x00\\x34\\x00\\x07"):
        ...     print(finding.name, finding.verdict.name, finding.first, finding.second)
        code SAME b'Ad' b'Ad'
        written DIFFERENT 61 52
        oral ONLY_SECOND None 7
        """
        findings, one, other = self._core.compare(first, second)
        names: Sequence[Optional[str]] = self._names or [None] * len(findings)
        return [Finding(name, Verdict(verdict), place, bits, left, right)
                for name, (verdict, place, bits), left, right in zip(names, findings, one, other)]

    def extends(self, old: Layout[Any]) -> Extension:
        """Whether this layout is the old one with fields added at its end. Then each reads the records of both.

        >>> this_year = Layout("a6 Su Su")
        >>> bool(this_year.extends(Layout("a6 Su")))
        True
        >>> answer = this_year.extends(Layout("a6 S"))
        >>> bool(answer), answer.number, answer.place
        (False, <Number.OTHER_FIELDS: 17>, 3)
        """
        if not isinstance(old, Layout):
            raise TypeError(f"old: a Layout, not {type(old).__name__}")
        number, first, second, text, caret = self._core.extends(old._core)
        if number == Number.OK:
            return Extension(Number.OK, first, second, None, text, caret)
        return Extension(Number(number), 0, 0, first, text, caret)

    def _key(self) -> Tuple[Any, ...]:
        return self._text, self._names, self._encoding, self._errors

    def __eq__(self, other: object) -> bool:
        if not isinstance(other, Layout):
            return NotImplemented
        return self._key() == other._key()

    def __hash__(self) -> int:
        return hash(self._key())

    def __repr__(self) -> str:
        more = [f"{name}={value!r}" for name, value in
                (("names", self._names), ("encoding", self._encoding), ("errors", self._errors)) if value is not None]
        return f"Layout({', '.join([repr(self._text)] + more)})"

    def __reduce__(self) -> Tuple[Any, ...]:
        return _again, (self._text, self._given, self._encoding, self._errors)


def _again(text: str, names: Any, encoding: Optional[str], errors: Optional[str]) -> Layout[Any]:
    """A layout that was pickled."""
    return Layout(text, names, encoding=encoding, errors=errors)
