"""A program that mypy takes: what the answers are."""
from typing import Any, List, NamedTuple, Optional, Tuple

import curlew


class Leg(NamedTuple):
    code: bytes
    mark: Optional[int]


def legs(path: str) -> List[int]:
    layout = curlew.Layout("a6 Su", names=Leg)
    return [leg.mark for leg in layout.records(path) if leg.mark is not None]


def differing(layout: curlew.Layout[Any], first: bytes, second: bytearray) -> List[curlew.Finding]:
    return [found for found in layout.compare(first, second) if found.verdict is curlew.Verdict.DIFFERENT]


def plain(record: memoryview) -> Tuple[Any, ...]:
    return curlew.Layout("a6 Su").read(record)


def named(record: bytes) -> Optional[int]:
    mark: Optional[int] = curlew.Layout("a6 Su", "code mark").read(record).mark
    return mark


def number(text: str) -> Optional[curlew.Number]:
    try:
        curlew.Layout(text).pack([1, 2.5, None, b"Ada", [1, 2], [0.5]], wrap=True)
    except curlew.Refused as refusal:
        return refusal.number
    return None


def record(marks: List[int], name: bytearray) -> bytes:
    return curlew.Layout("c2 a3", "marks name").pack({"marks": (1, 2), "name": name}) + curlew.sheet_dump([marks, None])


def mean(sheet: bytes) -> float:
    answer = curlew.mean([61, None])
    rescued: List[curlew.Value] = curlew.sheet_rescue(sheet, 2).values
    return answer.mean if answer.mean is not None else float(len(rescued))


def grows(new: str, old: str) -> bool:
    return bool(curlew.Layout(new).extends(curlew.Layout(old)))
