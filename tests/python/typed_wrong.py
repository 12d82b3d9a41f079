"""A program that mypy refuses: a line for each mistake, and the mistakes alone."""
from typing import NamedTuple, Optional

import curlew


class Leg(NamedTuple):
    code: bytes
    mark: Optional[int]


layout = curlew.Layout("a6 Su", names=Leg)
layout.read(5)  # wrong
layout.read("record")  # wrong
layout.read([0, 61])  # wrong
layout.pack(b"values")
curlew.Layout(b"a6 Su")  # wrong
leg = layout.read(b"C00417")
total = leg.mark + 1  # wrong
leg.grade  # wrong
curlew.sheet_load("sheet")  # wrong
curlew.mean([61.5])  # wrong
curlew.mean([61]).mean + 1  # wrong
layout.extends("a6")  # wrong
layout.read_into(b"", bytes(32), bytearray(8))  # wrong
curlew.from_perl(b"n2")  # wrong
