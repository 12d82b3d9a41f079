"""Every call from Python, by ctypes, over a shared object made from the archive: shared.py libcurlew.so"""
import ctypes
import struct
import sys

BYTES, SIZE = ctypes.c_char_p, ctypes.c_size_t
RUN = [BYTES, SIZE]
OWN = [ctypes.c_void_p, SIZE]
PLAN = [ctypes.POINTER(ctypes.c_uint32), SIZE]
ITEMS = {2: "q", 3: "Q", 4: "d"}
SLOT = struct.Struct(">4I")
THREE, FOUR = struct.Struct(">3I"), struct.Struct(">4I")
NO_POSITION = NOWHERE = 2 ** 32 - 1


def load(path):
    lib = ctypes.CDLL(path)
    lib.curlew_pack.argtypes = RUN + RUN + RUN + OWN + OWN
    lib.curlew_read.argtypes = RUN + RUN + OWN + OWN + [SIZE] + OWN
    lib.curlew_prepare.argtypes = RUN + PLAN + OWN
    lib.curlew_pack_plan.argtypes = PLAN + RUN + RUN + OWN + OWN
    lib.curlew_read_plan.argtypes = PLAN + RUN + OWN + OWN + [SIZE] + OWN
    lib.curlew_sheet_write.argtypes = RUN + RUN + OWN + OWN
    lib.curlew_sheet_read.argtypes = RUN + OWN + OWN + [SIZE] + OWN
    lib.curlew_sheet_rescue.argtypes = RUN + [SIZE] + OWN + OWN + [SIZE] + OWN
    lib.curlew_compare.argtypes = RUN + RUN + RUN + OWN * 6
    lib.curlew_mean.argtypes = RUN + RUN + OWN
    lib.curlew_from_perl.argtypes = RUN + OWN + OWN
    lib.curlew_layout.argtypes = RUN + OWN
    lib.curlew_promises.argtypes = RUN + OWN
    lib.curlew_extends.argtypes = RUN + RUN + OWN
    lib.curlew_fields.argtypes = RUN + OWN + OWN
    for name in ("pack", "read", "sheet_write", "sheet_read", "sheet_rescue", "compare", "mean", "from_perl", "layout",
                 "promises", "extends", "fields", "prepare", "pack_plan", "read_plan"):
        getattr(lib, "curlew_" + name).restype = ctypes.c_uint32
    return lib


def lent(data):
    return data, len(data)


def table(values):
    """Slots and area of a list of values: bytes, lists of integers or of floats, or None where there is none."""
    slots = area = b""
    for value in values:
        if value is None:
            slots += bytes(SLOT.size)
        elif isinstance(value, bytes):
            slots += SLOT.pack(1, len(area), len(value), 7)
            area += value
        else:
            kind = 4 if any(isinstance(item, float) for item in value) else 2
            slots += SLOT.pack(kind, len(area), len(value), 7)
            area += struct.pack(f">{len(value)}{ITEMS[kind]}", *value)
    return slots, area


def pack(lib, layout, values, room=32768):
    slots, area = table(values)
    out, reply = ctypes.create_string_buffer(room), ctypes.create_string_buffer(12)
    number = lib.curlew_pack(*lent(layout), *lent(slots), *lent(area), out, room, reply, 12)
    answer = struct.unpack(">3I", reply.raw)
    assert number == answer[0]
    return answer, out.raw[:answer[1]] if number == 0 else None


def prepare(lib, layout, room=256):
    plan, (reply, reply_run) = (ctypes.c_uint32 * room)(), own(THREE.size)
    number = lib.curlew_prepare(*lent(layout), plan, room, *reply_run)
    answer = THREE.unpack(reply.raw)
    assert number == answer[0]
    return answer, (plan, answer[1] if number == 0 else 0)


def pack_plan(lib, plan, values, room=32768):
    slots, area = table(values)
    (out, out_run), (reply, reply_run) = own(room), own(THREE.size)
    number = lib.curlew_pack_plan(*plan, *lent(slots), *lent(area), *out_run, *reply_run)
    answer = THREE.unpack(reply.raw)
    assert number == answer[0]
    return answer, out.raw[:answer[1]] if number == 0 else None


def read_plan(lib, plan, record, count):
    (slots, slots_run), (area, area_run), (reply, reply_run) = own(SLOT.size * count), own(524288), own(FOUR.size)
    lib.curlew_read_plan(*plan, *lent(record), *slots_run, *area_run, 0, *reply_run)
    return FOUR.unpack(reply.raw), [shown(slot, area.raw) for slot in SLOT.iter_unpack(slots.raw)]


def shown(slot, area):
    kind, start, length, _ = slot
    if kind == 0:
        return None
    if kind == 1:
        return area[start:start + length]
    return list(struct.unpack_from(f">{length}{ITEMS[kind]}", area, start))


def read_slots(lib, layout, record, count, room=524288):
    (slots, slots_run), (area, area_run), (reply, reply_run) = own(SLOT.size * count), own(room), own(FOUR.size)
    number = lib.curlew_read(*lent(layout), *lent(record), *slots_run, *area_run, 0, *reply_run)
    answer = FOUR.unpack(reply.raw)
    assert number == answer[0]
    return answer, list(SLOT.iter_unpack(slots.raw)), area.raw


def read(lib, layout, record, count):
    answer, slots, area = read_slots(lib, layout, record, count)
    return answer, [shown(slot, area) for slot in slots]


def own(size):
    """A run that a call may write, and its size."""
    run = ctypes.create_string_buffer(size)
    return run, (run, size)


def sheet_write(lib, values):
    slots, area = table(values)
    (sheet, sheet_run), (reply, reply_run) = own(1048576), own(12)
    number = lib.curlew_sheet_write(*lent(slots), *lent(area), *sheet_run, *reply_run)
    return number, sheet.raw[:struct.unpack(">3I", reply.raw)[1]]


def sheet_read(lib, sheet, count):
    (slots, slots_run), (area, area_run), (reply, reply_run) = own(SLOT.size * count), own(200), own(THREE.size)
    lib.curlew_sheet_read(*lent(sheet), *slots_run, *area_run, 0, *reply_run)
    return THREE.unpack(reply.raw), [shown(slot, area.raw) for slot in SLOT.iter_unpack(slots.raw)]


def sheet_rescue(lib, sheet, legs):
    (slots, slots_run), (area, area_run), (reply, reply_run) = own(SLOT.size * 4), own(200), own(FOUR.size)
    lib.curlew_sheet_rescue(*lent(sheet), legs, *slots_run, *area_run, 0, *reply_run)
    return FOUR.unpack(reply.raw), list(SLOT.iter_unpack(slots.raw)), area.raw


def compare(lib, layout, first, second, fields):
    (report, report_run), (reply, reply_run) = own(12 * fields), own(12)
    tables = [own(size)[1] for size in (SLOT.size * fields, 200, SLOT.size * fields, 200)]
    lib.curlew_compare(*lent(layout), *lent(first), *lent(second), *(part for run in tables for part in run), *report_run, *reply_run)
    return struct.unpack(">3I", reply.raw), list(struct.iter_unpack(">3I", report.raw))


def mean(lib, values):
    slots, area = table(values)
    reply, reply_run = own(24)
    lib.curlew_mean(*lent(slots), *lent(area), *reply_run)
    return struct.unpack(">4Id", reply.raw)


def from_perl(lib, template):
    (layout, layout_run), (reply, reply_run) = own(100), own(12)
    lib.curlew_from_perl(*lent(template), *layout_run, *reply_run)
    answer = struct.unpack(">3I", reply.raw)
    return answer, layout.raw[:answer[1]] if answer[0] == 0 else None


def look(lib, layout):
    reply, reply_run = own(THREE.size)
    lib.curlew_layout(*lent(layout), *reply_run)
    return THREE.unpack(reply.raw)


def promises(lib, layout):
    reply, reply_run = own(FOUR.size)
    lib.curlew_promises(*lent(layout), *reply_run)
    return FOUR.unpack(reply.raw)


def extends(lib, old, new):
    reply, reply_run = own(FOUR.size)
    lib.curlew_extends(*lent(old), *lent(new), *reply_run)
    return FOUR.unpack(reply.raw)


def fields(lib, layout, room):
    (rows, rows_run), (reply, reply_run) = own(room), own(THREE.size)
    number = lib.curlew_fields(*lent(layout), *rows_run, *reply_run)
    answer = THREE.unpack(reply.raw)
    assert number == answer[0]
    return answer, list(struct.iter_unpack(">8I", rows.raw[:32 * answer[1]])) if number == 0 else rows.raw


def equal(got, expected):
    if got != expected:
        sys.exit(f"failed: got {got}, expected {expected}")


def main():
    lib = load(sys.argv[1])
    values = [b"Ada", [61, 0], b"11011", b"BEEF", [-1]]
    answer, record = pack(lib, b"A5 S2 b8 H4 c", values)
    equal((answer, record), ((0, 13, 0), b"Ada  \x00\x3d\x00\x00\x1b\xbe\xef\xff"))
    equal(read(lib, b"A5 Su2 b8 H4 cu c", record, 7),
          ((0, 5, 3 + 16 + 8 + 4 + 8, 6), [b"Ada", [61, 0], b"11011000", b"beef", [255], None, None]))
    equal(read(lib, b"A5 S2 b8", record[:8], 3), ((0, 1, 3, 2), [b"Ada", None, None]))
    for width, order in ((1, "c"), (2, "sS"), (4, "iI"), (8, "wW")):
        for letter in order:
            expected = (-2 % 256 ** width).to_bytes(width, "little" if letter.islower() else "big")
            equal(pack(lib, letter.encode(), [[-2]]), ((0, width, 0), expected))
            equal(read(lib, letter.encode(), expected, 1), ((0, 1, 8, 1), [[-2]]))
    for letter in "rRqQ":
        expected = struct.pack(("<" if letter.islower() else ">") + ("f" if letter in "rR" else "d"), 2.5)
        equal(pack(lib, letter.encode(), [[2.5]]), ((0, len(expected), 0), expected))
        equal(read(lib, letter.encode(), expected, 1), ((0, 1, 8, 1), [[2.5]]))
    equal(pack(lib, b"R", [[1e300]])[1], bytes.fromhex("7f7fffff"))
    equal(pack(lib, b"R", [[float("nan")]])[0], (16, 0, 0))
    equal(pack(lib, b"W", [[2.5]])[0], (8, 0, 0))
    equal([slot[3] for slot in read_slots(lib, b"x2 c a0 X2 S", b"abcdef", 4)[1]], [2, 3, 1, 0])
    equal(pack(lib, b"c t", [[1]])[0], (2, 2, 0))
    equal(pack(lib, b"b3", [b"012"])[0], (10, 0, 0))
    equal(pack(lib, b"a9", [b""], 8)[0], (11, 0, 0))
    equal(read(lib, b"c32769", b"", 1)[0], (3, 1, 0, 0))
    equal(pack(lib, b"a32768", [b""]), ((0, 32768, 0), bytes(32768)))
    equal(pack(lib, b"", []), ((0, 0, 0), b""))
    sheet = bytes.fromhex("010013 000100 0003014f4b 000902fffffffffffffffe")
    equal(sheet_write(lib, [None, b"OK", [-2]]), (0, sheet))
    equal(sheet_read(lib, sheet, 4), ((0, 3, 10), [None, b"OK", [-2], None]))
    written = sheet_write(lib, [bytes(65533)])
    equal((written[0], written[1][:10], len(written[1])), (0, bytes.fromhex("0200010002 0000fffe01"), 65543))
    equal(sheet_read(lib, sheet[:-1], 4), ((12, 0, 0), [None] * 4))
    answer, slots, area = sheet_rescue(lib, sheet[:-1], 3)
    equal((answer, [shown(slot, area) for slot in slots]), ((0, 2, 1, 10), [None, b"OK", None, None]))
    equal([slot[3] for slot in slots], [NO_POSITION] * 3 + [0])
    equal(sheet_rescue(lib, sheet, 2 ** 32 + 3)[0], (1, 0, 0, 0))
    equal(compare(lib, b"a2 c S", b"ab\5\0\1", b"ab\7", 3), ((0, 3, 0), [(0, 0, 0), (4, 7, 1), (1, 0, 0)]))
    equal(mean(lib, [[0], None, [61]]), (0, 1, 0, 1, 30.5))
    equal(mean(lib, [None, None]), (0, 2, 0, 0, 0.0))
    equal(from_perl(lib, b"(n2a3)2 C"), ((0, 12, 0), b"Su2a3Su2a3cu"))
    equal(from_perl(lib, b"(a) 2"), ((15, 4, 0), None))
    equal(look(lib, b"A8 S2 b* @20"), (0, 3, 20))
    equal(look(lib, b"A8 x*"), (4, 3, 0))
    equal(promises(lib, b"a6 A12 Su"), (0, NOWHERE, 3, NOWHERE))
    equal(promises(lib, b"c" * 65), (0, 64, 64, NOWHERE))
    equal(promises(lib, b"c @"), (4, 2, 0, 0))
    equal(extends(lib, b"A8 S2", b"A8 S2 S"), (0, 2, 1, 0))
    equal(extends(lib, b"A8 S2", b"A8 S3"), (17, 3, 0, 1))
    equal(extends(lib, b"A8 S2", b"A8 S2 c*"), (18, 6, 0, 1))
    equal(extends(lib, b"c", b"c" * 65), (5, 64, 0, 1))
    equal(extends(lib, b"a", b"a a32768"), (11, 2, 0, 1))
    none, star = 2 ** 32 - 1, 2 ** 32 - 2
    equal(fields(lib, b"A8 Su2 c*X @16 c", 200), ((0, 6, 0), [
        (0, 2, ord("A"), 0, 8, 0, 0, 8), (3, 3, ord("S"), 1, 2, 1, 8, 4), (7, 2, ord("c"), 0, star, 2, 12, none),
        (9, 1, ord("X"), 0, none, none, none, 0), (11, 3, ord("@"), 0, 16, none, none, 0), (15, 1, ord("c"), 0, none, 3, 16, 1)]))
    equal(fields(lib, b"A8 x* t", 64), ((2, 6, 0), bytes(64)))
    equal(fields(lib, b"A8 x*", 63), ((11, 0, 0), bytes(63)))
    answer, plan = prepare(lib, b"A5 Su2 x c")
    equal(answer, (0, 4, 3))
    answer, packed = pack_plan(lib, plan, [b"Ada", [7, 600], [-2]])
    equal((answer, packed), pack(lib, b"A5 Su2 x c", [b"Ada", [7, 600], [-2]]))
    equal(read_plan(lib, plan, packed[:9], 3), read(lib, b"A5 Su2 x c", packed[:9], 3))
    equal(prepare(lib, b"A5 x* t")[0], (2, 6, 0))
    equal(prepare(lib, b"A5 x* c", 2)[0], (11, 0, 0))
    equal(pack_plan(lib, prepare(lib, b"A5 x* c")[1], [b"Ada", [-2]])[0], (4, 1, 0))
    equal(lib.curlew_pack(None, 0, None, 0, None, 0, None, 0, None, 0), 1)


main()
