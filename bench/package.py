"""The Python package beside struct and the usual conversions: package.py [records]; $BENCH_ROUNDS sets the rounds.

Both read the mark record of w1, and a shorter one that has text and integers alone; what they give is compared first. A
goal is met where the median of the rounds' ratios keeps to it; after the median stand the least and the greatest.
"""
import os
import platform
import struct
import sys
from itertools import repeat
from statistics import median
from time import perf_counter_ns

import curlew
from workloads import MARK_RECORD, main_workloads, pack_mark_record

CALLS = 20000
READ_GOAL = 3.0
ITERATE_GOAL = 2.0
SHORT = struct.Struct(">6s12sHHHb")


def digits(data, count):
    return format(int.from_bytes(data, "little"), f"0{8 * len(data)}b")[::-1][:count]


def mark_row(v):
    """The values of w1 out of what struct gives."""
    return v[0], v[1].rstrip(b" \0"), v[2], v[3], v[4:10], digits(v[10], 12), v[11].hex()


def short_row(v):
    return v[0].decode("ascii"), v[1].rstrip(b" \0").decode("ascii"), v[2], v[3], v[4], v[5]


def plain(row):
    return tuple(tuple(value) if isinstance(value, list) else value for value in row)


def time_calls(call, number):
    start = perf_counter_ns()
    for _ in repeat(None, number):
        call()
    return (perf_counter_ns() - start) / number


def compare(name, ours, theirs, number, rounds, goal=None, unit=1.0):
    """A line: both times for one item, and ours over theirs."""
    times = [(time_calls(ours, number), time_calls(theirs, number)) for _ in range(rounds + 1)][1:]
    ratios = sorted(own / other for own, other in times)
    verdict = "-" if goal is None else f"<={goal:.2f} {'met' if median(ratios) <= goal else 'MISSED'}"
    own, other = (median(pair[i] for pair in times) / unit for i in (0, 1))
    spread = f"{ratios[0]:.3f} to {ratios[-1]:.3f}"
    print(f"{name:<40} {own:>8.0f} {other:>8.0f} {median(ratios):>8.3f} {spread:>18} {verdict:>14}")


def drain(rows):
    for _ in rows:
        pass


def check(layout, form, row, record):
    got, wanted = plain(layout.read(record)), row(form.unpack(record))
    many = list(map(plain, layout.records(record * 3)))
    if got != wanted or many != [wanted] * 3:
        sys.exit(f"not the same values: {got}, {wanted}")


def main():
    records = int(sys.argv[1]) if len(sys.argv) > 1 else 1000000
    rounds = int(os.environ.get("BENCH_ROUNDS") or 15)
    work = main_workloads()[0]
    marks, short = curlew.Layout(work.read), curlew.Layout("a6 A12 Su Su Su c", encoding="ascii")
    named = curlew.Layout(work.read, names="number name mark running legs strip digits")
    values = [value.encode() if i < 2 else value for i, value in enumerate(work.values)]
    little = SHORT.pack(b"C00417", b"Ada Lind".ljust(12), 61, 0, 88, -3)
    check(marks, MARK_RECORD, mark_row, work.record)
    check(short, SHORT, short_row, little)
    if marks.pack(values) != work.record:
        sys.exit("not the same bytes")

    print(f"The Python package, Python {platform.python_version()}, beside struct and the usual conversions to the")
    print(f"same values. Nanoseconds a record; medians of {rounds} rounds, a third of that for many records.")
    print(f"{'':<40} {'package':>8} {'struct':>8} {'ratio':>8} {'least to greatest':>18} {'goal':>14}")
    read_marks, read_named, read_short, record = marks.read, named.read, short.read, work.record
    compare("w1 small mark record, read", lambda: read_marks(record), lambda: mark_row(MARK_RECORD.unpack(record)),
            CALLS, rounds, READ_GOAL)
    compare("w1, read as a named tuple", lambda: read_named(record), lambda: mark_row(MARK_RECORD.unpack(record)),
            CALLS, rounds)
    compare("w1, packed", lambda: marks.pack(values), lambda: pack_mark_record(*work.values), CALLS, rounds)
    compare("25 bytes of text and integers, read", lambda: read_short(little), lambda: short_row(SHORT.unpack(little)),
            CALLS, rounds, READ_GOAL)
    for name, layout, form, row, one in (("w1", marks, MARK_RECORD, mark_row, record),
                                         ("25 bytes", short, SHORT, short_row, little)):
        data = one * records
        compare(f"{name}, {records:,} records iterated", lambda: drain(layout.records(data)),
                lambda: drain(map(row, form.iter_unpack(data))), 1, max(rounds // 3, 1), ITERATE_GOAL, records)
    print(f"Goals: a record read in at most {READ_GOAL:.0f} times the time, records iterated in at most"
          f" {ITERATE_GOAL:.0f} times.")


main()
