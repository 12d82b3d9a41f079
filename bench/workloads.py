"""The workloads: what is packed and read, for ours and Tcl by `pack` and `read`, for Perl by templates of its own;
the tables that are written and read as sheets; and the copies of a record that are compared."""
import random
import struct

FIELD_COUNTS = (1, 2, 4, 8, 16, 32, 64)
BYTE_COUNTS = (16, 64, 256, 1024, 4096, 32768)
DIGIT_COUNTS = tuple(2 ** k for k in range(3, 13))
CALLS = ("pack", "read")
USUAL = "w1-256"
SHEET_CALLS = ("sheet-write", "sheet-read")
PAIR_CALLS = ("compare",)


def value_line(value):
    """A value as an order to a peer: text, integers, reals, or None where it is not set."""
    if value is None:
        return "unset"
    if isinstance(value, str):
        return f"text {value}"
    return ("reals " if isinstance(value[0], float) else "list ") + " ".join(map(str, value))


class Work:
    def __init__(self, name, pack, values, perl, plain=None, read=None, perl_read=None, record=None, room=None):
        self.name, self.pack, self.values, self.perl, self.room = name, pack, values, perl, room
        self.read, self.perl_read = read or pack, perl_read or perl
        self.plain = plain and struct.Struct(plain)
        self.record = record or self.packed()

    def flat(self):
        items = []
        for value in self.values:
            items += [value.encode()] if isinstance(value, str) else value
        return items

    def packed(self):
        return self.plain.pack(*self.flat()) if self.plain else pack_mark_record(*self.values)

    def lines(self):
        """The workload as orders to a peer."""
        yield f"work {self.name}"
        yield f"pack {self.pack}"
        yield f"read {self.read}"
        yield f"perlpack {self.perl}"
        yield f"perlread {self.perl_read}"
        yield from map(value_line, self.values)
        yield f"record {self.record.hex()}"
        if self.room is not None:
            yield f"room {self.room}"
        yield "end"


MARK_RECORD = struct.Struct(">8s20sHI6b2s4s")


def pack_mark_record(number, name, mark, running, legs, strip, digits):
    return MARK_RECORD.pack(number.encode(), name.encode().ljust(20), mark[0], running[0], *legs,
                            pack_digits(strip, 2), bytes.fromhex(digits))


def pack_digits(digits, size):
    return int(digits[::-1], 2).to_bytes(size, "little")


def step_bound(digits):
    """How many steps storing or reading out this many binary digits takes at most."""
    return digits // 8 + 7


def eighths(dice, count):
    """Reals that are no whole numbers, that a single holds, and that every peer writes alike."""
    return [(2 * dice.randint(-400000, 400000) + 1) / 8 for _ in range(count)]


def integers(dice, width, count):
    most = 2 ** (8 * width - 1)
    return [dice.randint(-most, most - 1) for _ in range(count)]


def main_workloads():
    dice = random.Random(417)
    strip = "".join(dice.choice("01") for _ in range(4096))
    letters = "".join(dice.choice("abcdefghijklmnopqrstuvwxyz") for _ in range(4096))
    small = ("a8 A20 Su Iu c6 b12 H8",
             ["00417042", "Ada Lind", [417], [1234567], [61, 0, 88, -7, 100, 3], "110110101100", "0badcafe"],
             "a8 A20 n N c6 b12 H8")
    return [
        Work("w1", *small),
        Work(USUAL, *small, room=256),
        Work("w2", "b4096", [strip], "b4096", read="b*", perl_read="b*", record=dice.randbytes(4096)),
        Work("w3", "s2000", [integers(dice, 2, 2000)], "s<2000", "<2000h"),
        Work("w4", "a4096", [letters], "a4096", "4096s"),
        Work("w5", "c" * 64, [integers(dice, 1, 1) for _ in range(64)], "c" * 64, "b" * 64),
        Work("i1000", "i1000", [integers(dice, 4, 1000)], "l<1000", "<1000i"),
        Work("I1000", "I1000", [integers(dice, 4, 1000)], "l>1000", ">1000i"),
        Work("c1000", "c1000", [integers(dice, 1, 1000)], "c1000", "1000b"),
        Work("q500", "q500", [eighths(dice, 500)], "d<500", "<500d"),
        Work("r1000", "r1000", [eighths(dice, 1000)], "f<1000", "<1000f"),
    ]


def long_workloads():
    """The longest records."""
    dice = random.Random(420)
    letters = "".join(dice.choice("abcdefghijklmnopqrstuvwxyz") for _ in range(32768))
    strip = "".join(dice.choice("01") for _ in range(32768))
    return [
        Work("a32768", "a32768", [letters], "a32768", "32768s"),
        Work("b262144", "b32768", [strip], "b32768", read="b*", perl_read="b*", record=dice.randbytes(32768)),
        Work("s16000", "s16000", [integers(dice, 2, 16000)], "s<16000", "<16000h"),
    ]


def growth_workloads():
    dice = random.Random(418)
    for count in FIELD_COUNTS:
        yield Work(f"f{count}", "c" * count, [integers(dice, 1, 1) for _ in range(count)], "c" * count, "b" * count)
    for size in BYTE_COUNTS:
        items = size // 2
        yield Work(f"s{size}", f"s{items}", [integers(dice, 2, items)], f"s<{items}", f"<{items}h")
    for count in DIGIT_COUNTS:
        strip = "".join(dice.choice("01") for _ in range(count))
        yield Work(f"b{count}", f"b{count}", [strip], f"b{count}", record=pack_digits(strip, count // 8))


def workloads():
    return main_workloads() + long_workloads() + list(growth_workloads())


def sheet_entry(value, length):
    if value is None:
        rest = bytes([0])
    elif isinstance(value, str):
        rest = bytes([1]) + value.encode()
    else:
        rest = bytes([2]) + struct.pack(f">{len(value)}q", *value)
    return struct.pack(length, len(rest)) + rest


def sheet_of(values):
    """Version 1 where its lengths of two bytes are enough, else version 2 with lengths of four."""
    for version, length in ((1, ">H"), (2, ">I")):
        try:
            entries = b"".join(sheet_entry(value, length) for value in values)
            return bytes([version]) + struct.pack(length, len(entries)) + entries
        except struct.error:
            continue
    raise ValueError("no sheet holds these values")


class Table:
    """Values that are kept as a sheet, and what each call on them has to give."""

    def __init__(self, name, values):
        self.name, self.values = name, values
        self.sheet = sheet_of(values)

    def lines(self):
        yield f"work {self.name}"
        yield from map(value_line, self.values)
        yield f"record {self.sheet.hex()}"

    def expected(self, call):
        if call == "sheet-write":
            return self.sheet.hex()
        shown = ("not set" if value is None else value if isinstance(value, str) else ",".join(map(str, value))
                 for value in self.values)
        return "".join(text + "," for text in shown)


def tables():
    dice = random.Random(419)
    letters = "".join(dice.choice("abcdefghijklmnopqrstuvwxyz") for _ in range(500000))
    return [
        Table("t8", ["00417042", "Ada Lind", [417], None, [1234567], [61, 0, 88, -7, 100, 3], "110110101100",
                     "0badcafe"]),
        Table("t60000", [letters[:60000]]),
        Table("t500000", [letters]),
    ]


class Pair:
    """Two copies of a record, and what comparing them has to find for each field: verdict, place and bits."""

    def __init__(self, name, layout, first, second, findings):
        self.name, self.layout, self.first, self.second, self.findings = name, layout, first, second, findings

    def lines(self):
        yield f"work {self.name}"
        yield f"read {self.layout}"
        yield from ["unset"] * len(self.findings)
        yield f"record {self.first.hex()}"
        yield f"second {self.second.hex()}"

    def expected(self, _):
        return "".join(f"{verdict} {place} {bits}," for verdict, place, bits in self.findings)


def pairs():
    works = {work.name: work for work in main_workloads()}
    small, large = works["w1"], works["w4"]
    place = len(large.record) // 2
    changed = bytearray(large.record)
    changed[place] ^= 1
    same = (0, 0, 0)
    return [
        Pair("same-w1", small.read, small.record, small.record, [same] * len(small.values)),
        Pair("other-a4096", large.read, large.record, bytes(changed), [(4, place, 1)]),
        Pair("same-a4096", large.read, large.record, large.record, [same]),
    ]


def crowd_sum(records):
    return sum(i % 1001 + i for i in range(records))
