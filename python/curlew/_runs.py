"""Runs of bytes: what may be lent to a call as a record, a sheet, slots or an area."""
from __future__ import annotations

import codecs
import mmap
import os
from operator import index
from typing import Any, BinaryIO, Iterator, Optional, SupportsIndex, Union

Bytes = Union[bytes, bytearray, memoryview, mmap.mmap]
Writable = Union[bytearray, memoryview, mmap.mmap]

# No run that a call takes is longer; of a longer one, one byte more is enough for it to be refused.
LONGEST = 1048576


def as_bytes(run: object, what: str) -> bytes:
    """The bytes of a run, of a very long one its beginning; TypeError for what is none.

    >>> as_bytes(memoryview(b"Ada"), "record")
    b'Ada'
    >>> as_bytes(5, "record")
    Traceback (most recent call last):
    ...
    TypeError: record: bytes, bytearray, memoryview or mmap, not int
    """
    if isinstance(run, memoryview):
        return _of_bytes(run, what)[:LONGEST + 1].tobytes()
    if isinstance(run, (bytes, bytearray, mmap.mmap)):
        return bytes(run[:LONGEST + 1])
    raise TypeError(f"{what}: bytes, bytearray, memoryview or mmap, not {type(run).__name__}")


def _of_bytes(view: memoryview, what: str) -> memoryview:
    """The view, which has to be one of single bytes: those of larger items would depend on the machine."""
    if view.itemsize != 1 or view.ndim != 1:
        raise TypeError(f"{what}: a memoryview of single bytes, not of format {view.format!r} (cast it to 'B')")
    return view


class Lent:
    """A run that a call writes: a bytearray as it is; of a memoryview or an mmap a copy, which is given back."""

    def __init__(self, run: Writable, what: str) -> None:
        self._view: Optional[memoryview] = None
        self.exporter: object = run
        if isinstance(run, bytearray):
            self.array = run
            return
        if not isinstance(run, (memoryview, mmap.mmap)):
            raise TypeError(f"{what}: bytearray, or a memoryview or mmap that may be written, not {type(run).__name__}")
        view = memoryview(run)
        if view.readonly:
            raise TypeError(f"{what}: a {type(run).__name__} that may be written")
        self._view = _of_bytes(view, what).cast("B")
        self.exporter = view.obj
        self.array = bytearray(self._view[:LONGEST + 1])

    def __enter__(self) -> Lent:
        return self

    def __exit__(self, *_: object) -> None:
        if self._view is not None:
            self._view.release()

    def give_back(self) -> None:
        """Writes what the call left. No call takes a run of more than LONGEST bytes, so the copy is whole here."""
        if self._view is not None:
            self._view[:] = self.array


def checked_int(number: SupportsIndex, what: str) -> int:
    """The int that it is or stands for; TypeError for what is none, True and False too."""
    if isinstance(number, bool) or not hasattr(number, "__index__"):
        raise TypeError(f"{what}: an int, not {type(number).__name__}")
    return index(number)


def checked_coding(encoding: Optional[str], errors: Optional[str]) -> None:
    """Raises what is wrong with the name of an encoding, or of a way to deal with what it has no place for."""
    for name, value in (("encoding", encoding), ("errors", errors)):
        if value is not None and not isinstance(value, str):
            raise TypeError(f"{name}: a str or None, not {type(value).__name__}")
    if encoding is not None:
        codecs.lookup(encoding)
    if errors is not None:
        codecs.lookup_error(errors)


def blocks_of(source: Union[str, os.PathLike[str], BinaryIO, Writable], size: int) -> Iterator[bytes]:
    """The bytes of a path, a file or a run, `size` of them at a time."""
    if isinstance(source, (bytearray, memoryview, mmap.mmap)):
        blocks = _of_run(source, size)
    elif isinstance(source, (str, os.PathLike)):
        blocks = _of_path(source, size)
    elif hasattr(source, "read"):
        return _of_file(source, size)
    else:
        raise TypeError("source: a path, a file open for bytes, bytes, bytearray, memoryview or mmap, "
                        f"not {type(source).__name__}")
    next(blocks)
    return blocks


def _of_run(run: Writable, size: int) -> Iterator[bytes]:
    """First no bytes, once the run is looked at; then its blocks."""
    with memoryview(run) as view:
        _of_bytes(view, "source")
        yield b""
        for at in range(0, len(view), size):
            yield view[at:at + size].tobytes()


def _of_path(path: Union[str, os.PathLike[str]], size: int) -> Iterator[bytes]:
    """First no bytes, once the file is open; then its blocks."""
    with open(path, "rb") as file:
        yield b""
        yield from _of_file(file, size)


def _of_file(file: Any, size: int) -> Iterator[bytes]:
    """A raw file may give less than it is asked for before its end."""
    block = b""
    while True:
        more = file.read(size - len(block))
        if not isinstance(more, bytes):
            raise TypeError(f"source: a file that gives bytes, not {type(more).__name__}")
        if len(more) > size - len(block):
            raise ValueError("source: the file gave more bytes than it was asked for")
        block += more
        if block and (not more or len(block) == size):
            yield block
            block = b""
        if not more:
            return
