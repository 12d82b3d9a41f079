"""Python's struct as a peer; takes the orders `time`, `show` and `crowd` of peers.c."""
import sys
from itertools import repeat
from time import perf_counter_ns, thread_time_ns

from workloads import USUAL, MARK_RECORD, pack_digits, pack_mark_record, workloads


def read_digits(data, count):
    return format(int.from_bytes(data, "little"), f"0{8 * len(data)}b")[::-1][:count]


def mark_record_calls(work):
    def read():
        v = MARK_RECORD.unpack(work.record)
        return v[0], v[1].rstrip(b" \0"), v[2], v[3], v[4:10], read_digits(v[10], 12), v[11].hex()
    values = work.values
    return lambda: pack_mark_record(*values), read


def digit_calls(work):
    strip, record = work.values[0], work.record
    size, count = len(strip) // 8, 8 * len(record)
    return lambda: pack_digits(strip, size), lambda: (read_digits(record, count),)


def plain_calls(work):
    pack, unpack, items, record = work.plain.pack, work.plain.unpack, work.flat(), work.record
    return lambda: pack(*items), lambda: unpack(record)


def calls_of(work):
    calls = plain_calls if work.plain else mark_record_calls if work.name in ("w1", USUAL) else digit_calls
    pack, read = calls(work)
    return {"pack": pack, "read": read}


def time_calls(call, n):
    start = thread_time_ns()
    for _ in repeat(None, n):
        call()
    return thread_time_ns() - start


def shown(value):
    if isinstance(value, tuple):
        return "".join(map(shown, value))
    return (value.decode() if isinstance(value, bytes) else str(value)) + ","


def crowd(records):
    name, legs = b"Ada Lind".ljust(20), (61, 0, 88, 7, 100, 3)
    start = perf_counter_ns()
    packed = [MARK_RECORD.pack(b"%08d" % i, name, i % 1001, i, *legs, pack_digits("110110101100", 2),
                               bytes.fromhex("0badcafe")) for i in range(records)]
    middle = perf_counter_ns()
    total = 0
    for record in packed:
        v = MARK_RECORD.unpack(record)
        values = v[0], v[1].rstrip(b" \0"), v[2], v[3], v[4:10], read_digits(v[10], 12), v[11].hex()
        total += values[2] + values[3]
    return middle - start, perf_counter_ns() - middle, total


def main():
    calls = {work.name: calls_of(work) for work in workloads()}
    for line in sys.stdin:
        order, *rest = line.split()
        if order == "time":
            print(time_calls(calls[rest[1]][rest[2]], int(rest[3])), flush=True)
        elif order == "show":
            value = calls[rest[1]][rest[2]]()
            print(value.hex() if rest[2] == "pack" else shown(value), flush=True)
        elif order == "crowd":
            print(*crowd(int(rest[2])), flush=True)


main()
