"""Packed mark records: a layout says what stands where, and what is not marked is None and never a number.

    >>> import curlew
    >>> legs = curlew.Layout("a6 A12 Su Su Su", names="code name written oral steno", encoding="utf-8")
    >>> record = legs.pack(["C00417", "Ada Lind", 61, 0, 88])
    >>> legs.read(record[:22])
    Record(code='C00417', name='Ada Lind', written=61, oral=0, steno=None)
    >>> curlew.mean([61, 0, None])
    Mean(mean=30.5, not_set=1)

Records, sheets and slots are bytes, a bytearray, a memoryview of bytes or an mmap, and nothing else. A call that is
refused raises Refused, with its number, the place of the fault, a text and a caret; a value of a wrong type is a
TypeError, an integer outside 64 bits an OverflowError.

The calls are those of the library libcurlew, which is linked in and proved; curlew.h is the manual of layouts and
refusals. What turns Python's values into its tables and back is plain C and tested.
"""
from ._answers import Extension, Field, Finding, Given, Kind, Mean, Promises, Reading, Rescued, Value, Verdict
from ._core import (MAX_AREA, MAX_COUNT, MAX_LAYOUT, MAX_MARK, MAX_RECORD, MAX_SHEET, MAX_SLOTS, MAX_TEMPLATE,
                    SLOT_SIZE, VERSION as __version__)
from ._layout import Layout
from ._refused import Number, Refused
from ._runs import Bytes
from ._sheets import from_perl, mean, sheet_dump, sheet_load, sheet_rescue

__all__ = [
    "Bytes", "Extension", "Field", "Finding", "Given", "Kind", "Layout", "MAX_AREA", "MAX_COUNT", "MAX_LAYOUT",
    "MAX_MARK", "MAX_RECORD", "MAX_SHEET", "MAX_SLOTS", "MAX_TEMPLATE", "Mean", "Number", "Promises", "Reading",
    "Refused", "Rescued", "SLOT_SIZE", "Value", "Verdict", "__version__", "from_perl", "mean", "sheet_dump",
    "sheet_load", "sheet_rescue",
]

# Where they are found is here, in messages and in pickles too.
for _public in (Extension, Field, Finding, Kind, Layout, Mean, Number, Promises, Reading, Refused, Rescued, Verdict,
                from_perl, mean, sheet_dump, sheet_load, sheet_rescue):
    _public.__module__ = __name__
del _public
