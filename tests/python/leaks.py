"""Memory stays flat over a million calls, refusals included. The last line is 'N passed, M failed'.

leaks.py [--once]: with --once every call is made a few times and nothing is measured, for a sanitizer to watch.
"""
import gc
import itertools
import sys
import tracemalloc

import curlew
from curlew import Layout


CALLS = 1000000
FLAT = 262144


def resident():
    """Bytes of memory that the process has in use now."""
    with open("/proc/self/statm", encoding="ascii") as file:
        return int(file.read().split()[1]) * 4096


def refused(call, *given):
    try:
        call(*given)
    except (ValueError, TypeError, OverflowError):
        return
    raise SystemExit(f"not refused: {given}")


def used(work, rounds):
    """Bytes of memory in use after `rounds` rounds more."""
    for _ in range(rounds):
        work()
    gc.collect()
    return resident()


def growth(work, rounds):
    """How much more is in use after `rounds` rounds more, the least of three times: the allocator may grow for its own
    reasons once, but what the calls lose they lose each time."""
    least = None
    before = used(work, rounds)
    for _ in range(3):
        now = used(work, rounds)
        least = now - before if least is None else min(least, now - before)
        if least <= FLAT:
            break
        before = now
    return least


def traced(work, rounds):
    """Those of them that Python has given out, since it was asked to keep an account of them."""
    used(work, rounds)
    return tracemalloc.get_traced_memory()[0]


def works():
    """A name and something that makes ten calls or more, for each part of the extension."""
    layout = Layout("a6 A12 Su S2 q b12 H*", names="code name mark marks speed strip rest", encoding="utf-8")
    values = ["C00417", "Zoë", 61, [1, 2], 0.5, "110110101100", "0badcafe"]
    record = layout.pack(values)
    bytes_record, array, view = record, bytearray(record), memoryview(record)
    slots, area = bytearray(7 * 16), bytearray(512)
    large, numbers, fresh, many = Layout("a*"), Layout("I*"), itertools.count(1000000), [1] * 64
    long = bytes(20000)
    sheet = curlew.sheet_dump([b"Ada", None, [61, 2 ** 63], 0.5])

    def reading():
        for run in (bytes_record, array, view, bytes_record[:20], b"") * 2:
            layout.read(run)

    def packing():
        for _ in range(7):
            layout.pack(values)
        numbers.read(numbers.pack([[next(fresh), next(fresh)]]))
        large.pack([long])
        large.read(long)

    def tables():
        for _ in range(5):
            layout.read_into(view, slots, area)
            layout.values(slots, area)

    def iterating():
        for _ in layout.records(record * 10, len(record)):
            pass
        rows = layout.records(array, 30)
        next(rows)

    def refusing():
        refused(layout.read, 5)
        refused(layout.read, bytes(40000))
        refused(layout.pack, values[:-1])
        refused(layout.pack, [None] * 7)
        refused(layout.pack, [*values[:2], 2 ** 16, *values[3:]])
        refused(layout.pack, [*values[:2], 2 ** 64, *values[3:]])
        refused(layout.pack, [*values[:2], "61", *values[3:]])
        refused(layout.pack, [*values[:6], "xyz"])
        refused(Layout, "a6 y")
        refused(Layout, "a6 c", "one two three")
        refused(large.pack, [bytes(600000)])
        refused(layout.values, b"\xff" * 112, b"")

    def layouts():
        for _ in range(3):
            Layout("a6 A12 Su").extends(Layout("a6 A12"))
            layout.compare(record, record[:-3])
            _ = layout.promises

    def sheets():
        for _ in range(2):
            curlew.sheet_load(curlew.sheet_dump([b"Ada", None, [61, 2 ** 63], 0.5]))
            curlew.sheet_rescue(sheet[:-3], 6)
            curlew.mean(many)
            curlew.from_perl("(n2a3)2 C")
        refused(curlew.sheet_load, sheet[:-3])
        refused(curlew.sheet_dump, ["Ada"])
        refused(curlew.mean, [-1])
        refused(curlew.from_perl, "(a")

    return [reading, packing, tables, iterating, refusing, layouts, sheets]


def main():
    parts = works()
    rounds = CALLS // (20 * len(parts)) + 1
    failed = 0
    for work in parts:
        if "--once" in sys.argv:
            for _ in range(20):
                work()
            continue
        grown = growth(work, rounds)
        tracemalloc.start()
        more = -traced(work, 200) + min(traced(work, 200) for _ in range(3))
        tracemalloc.stop()
        # One block in each round, of 16 bytes at least, would be 3,200 bytes of Python's own memory.
        if grown > FLAT or more > 2048:
            print(f"{work.__name__}: {grown} bytes more in use after {10 * rounds} calls and again as many, "
                  f"{more} of Python's own after 200 rounds or more")
            failed += 1
    print(f"{len(parts) - failed} passed, {failed} failed")
    sys.exit(failed > 0)


main()
