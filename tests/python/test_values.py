"""Values packed and read: known bytes, and random ones beside Python's struct."""
import mmap
import os
import pickle
import random
import struct
import sys
import types
import unittest
from typing import NamedTuple, Optional

import curlew
from curlew import Kind, Layout, Number, Refused, Verdict


class Leg(NamedTuple):
    code: bytes
    mark: Optional[int]


class Values(unittest.TestCase):
    def test_known_bytes(self):
        record = b"\xff\x00\x01\xfe" + b"\xff" * 8
        self.assertEqual(Layout("a2 c2 Wu").pack([b"\xff\x00", (1, -2), 2 ** 64 - 1]), record)
        self.assertEqual(Layout("a2 cu2 Wu s").read(record), (b"\xff\x00", [1, 254], 2 ** 64 - 1, None))
        self.assertEqual(Layout("c* a0 a2 X* H4").read(b"\x01\x02"), ([1, 2], b"", None, None))
        self.assertEqual(Layout("x2").read(b"\x01\x02"), ())
        self.assertEqual(Layout(" ".join("c" * 64)).read(bytes(range(40))), tuple(range(40)) + (None,) * 24)
        self.assertEqual(Layout("R Q2").pack([1.5, [-2.0, 0.1]]).hex(" ", -8),
                         "3fc00000c0000000 000000003fb99999 9999999a")
        self.assertEqual(Layout("R Q2 r").read(Layout("R Q2").pack([1.5, [-2, 0.1]])), (1.5, [-2.0, 0.1], None))
        self.assertEqual(Layout("").pack([]), b"")
        self.assertEqual(Layout("b5b*").pack(["11100", "111000011010"]).hex(), "078705")
        self.assertEqual(Layout("b5b*").read(bytes.fromhex("078705")), ("11100", "1110000110100000"))
        self.assertEqual(Layout("a5@2a1@*a3@10a1").pack([b"abcde", b"f", b"ghi", b"j"]), b"abfdeghi\0\0j")
        self.assertEqual(Layout("w*").pack([[]]), b"")

    def test_encodings(self):
        name = Layout("A6", encoding="utf-8")
        self.assertEqual(name.pack(["Zoë"]), b"Zo\xc3\xab  ")
        self.assertEqual(name.read(b"Zo\xc3\xab  "), ("Zoë",))
        self.assertEqual(Layout("A6", encoding="latin-1").pack(["Zoë"]), b"Zo\xeb   ")
        self.assertEqual(Layout("H2 a2", encoding="utf-16-le").read(b"\xabA\0"), ("ab", "A"))
        self.assertRaises(UnicodeDecodeError, Layout("a1", encoding="utf-16-le").read, b"A")

    def test_runs(self):
        layout, record = Layout("a2 S"), b"Ad\0\5"
        view = memoryview(bytearray(b"-A-d-\0-\5"))[1::2]
        self.assertEqual(layout.read(view), (b"Ad", 5))
        for run in (bytearray(record), memoryview(record), memoryview(bytearray(record))):
            self.assertEqual(layout.read(run), (b"Ad", 5))
        with mmap.mmap(-1, 4) as shared:
            shared[:] = record
            self.assertEqual(layout.read(shared), (b"Ad", 5))
        self.assertRaises(ValueError, layout.read, shared)
        self.assertEqual(Layout("a2").pack([bytearray(b"Ad")]), Layout("a2").pack([memoryview(b"Ad")]))

    def test_names(self):
        layout = Layout("a2 S", names=["code", "mark"])
        row = layout.read(b"Ad")
        self.assertEqual((row.code, row.mark, row._asdict()), (b"Ad", None, {"code": b"Ad", "mark": None}))
        self.assertEqual(layout.pack(row._replace(mark=5)), b"Ad\0\5")
        self.assertEqual(layout.pack({"mark": 5, "code": b"Ad"}), b"Ad\0\5")
        self.assertEqual(layout.pack(types.MappingProxyType({"mark": 5, "code": b"Ad"})), b"Ad\0\5")
        for wrong in ({"mark": 5}, {"mark": 5, "code": b"Ad", "more": 1}, {}):
            self.assertRaises(ValueError, layout.pack, wrong)
        self.assertRaises(TypeError, Layout("a2 S").pack, {"mark": 5, "code": b"Ad"})
        leg = Layout("a2 S", names=Leg).read(b"Ad")
        self.assertEqual((type(leg), leg), (Leg, Leg(b"Ad", None)))
        self.assertEqual(layout.names, ("code", "mark"))
        self.assertEqual([field.name for field in Layout("x a2 X S", names="code mark").fields],
                         [None, "code", None, "mark"])

    def test_layouts_are_values(self):
        layout = Layout("a2 S", names="code mark", encoding="ascii")
        again = pickle.loads(pickle.dumps(layout))
        self.assertEqual((again, hash(again), repr(again)), (layout, hash(layout), repr(layout)))
        self.assertEqual(again.read(b"Ad"), ("Ad", None))
        self.assertEqual(eval(repr(layout)), layout)
        self.assertNotEqual(layout, Layout("a2 S"))
        self.assertNotEqual(layout, "a2 S")
        self.assertEqual(pickle.loads(pickle.dumps(Layout("a2 S", names=Leg).read(b"Ad"))), Leg(b"Ad", None))
        self.assertEqual((layout.text, layout.encoding, layout.length), ("a2 S", "ascii", 4))
        self.assertRaises(AttributeError, setattr, layout, "text", "c")

    def test_lengths(self):
        self.assertEqual([Layout(text).length for text in ("", "a5X2a1", "@10", "a2 x3", "a2X*c")], [0, 5, 10, 5, 2])
        self.assertEqual([Layout(text).length for text in ("c*", "x*", "a*c", "b*")], [None] * 4)
        self.assertEqual(Layout("a2@*c").length, 3)

    def test_every_field_takes_what_it_gives(self):
        for letter, width in zip("csSiIwW", (1, 2, 2, 4, 4, 8, 8)):
            half = 2 ** (8 * width - 1)
            for field, low, high in ((letter, -half, half - 1), (letter + "u", 0, 2 * half - 1)):
                layout = Layout(field)
                for value in (low, high, 0):
                    self.assertEqual(layout.read(layout.pack([value])), (value,))
                for value in (low - 1, high + 1):
                    if -2 ** 63 <= value < 2 ** 64:
                        with self.assertRaises(Refused) as caught:
                            layout.pack([value])
                        self.assertEqual((caught.exception.number, caught.exception.place), (Number.WOULD_LOSE, 0))
                        self.assertIn("wrap=True", str(caught.exception))
                        self.assertEqual((layout.read(layout.pack([value], wrap=True))[0] - value) % (2 * half), 0)

    def test_what_would_be_cut(self):
        for text, value, kept in (("a2", b"Ada", b"Ad"), ("A", b"Ada", b"A"), ("b3", "1101", "110"), ("h", "ab", "a"),
                                  ("c2", [1, 2, 3], [1, 2]), ("q1", [1, 2.5], [1.0]), ("c0", [1], [])):
            layout = Layout(f"x {text}")
            with self.assertRaises(Refused) as caught:
                layout.pack([value])
            self.assertEqual((caught.exception.number, caught.exception.caret), (Number.WOULD_LOSE, f"x {text}\n  ^"))
            self.assertIn("cut=True", str(caught.exception))
            self.assertEqual(layout.read(layout.pack([value], cut=True)), (kept,))
        self.assertEqual(Layout("c2").pack([[1, 2, 300]], cut=True), b"\1\2")
        self.assertRaises(Refused, Layout("c2").pack, [[1, 300, 2]], cut=True)
        self.assertEqual(Layout("a* c*").pack([b"Ada", [1, 2, 3]]), b"Ada\1\2\3")

    def test_singles(self):
        largest = (2 - 2 ** -23) * 2.0 ** 127
        end = (2 - 2 ** -24) * 2.0 ** 127
        layout = Layout("r")
        for value in (largest, -largest, 3.4028235e38, 0.0, 1e-46):
            self.assertEqual(layout.pack([value]), struct.pack("<f", value))
        for value in (end, -end, float("inf"), float("-inf"), 1e300):
            self.assertRaises(Refused, layout.pack, [value])
            self.assertEqual(layout.read(layout.pack([value], wrap=True)), (largest if value > 0 else -largest,))
        self.assertEqual(Layout("q2").read(Layout("q2").pack([[float("inf"), 1e300]])), ([float("inf"), 1e300],))

    def test_none_alone_is_not_marked(self):
        self.assertEqual(Layout("Su Su a0 c*").read(b"\0\0"), (0, None, None, None))
        self.assertEqual(Layout("a* c* Su").read(b""), (b"", [], None))
        for nothing in (0, 0.0, "", b"", [], (), False):
            self.assertIsNotNone(nothing)
        self.assertEqual(curlew.sheet_load(curlew.sheet_dump([0, b"", [], None])), [[0], b"", [], None])

    def test_compare(self):
        findings = Layout("a2 c S c").compare(b"ab\5\0\1", b"ab\7")
        self.assertEqual([(found.verdict, found.place, found.bits) for found in findings],
                         [(Verdict.SAME, 0, 0), (Verdict.DIFFERENT, 7, 1), (Verdict.ONLY_FIRST, 0, 0),
                          (Verdict.NEITHER, 0, 0)])
        self.assertEqual([(found.first, found.second) for found in findings],
                         [(b"ab", b"ab"), (5, 7), (1, None), (None, None)])
        self.assertEqual(Layout("").compare(b"", b"x"), [])
        self.assertRaises(AttributeError, setattr, findings[0], "bits", 1)

    def test_extends_and_promises(self):
        self.assertEqual(Layout("A8 S2 S").extends(Layout("A8 S2")).added, 1)
        answer = Layout("A8 S3").extends(Layout("A8 S2"))
        self.assertEqual((bool(answer), answer.number, answer.place, answer.caret),
                         (False, Number.OTHER_FIELDS, 3, "A8 S3\n   ^"))
        self.assertEqual(Layout("S2 a32768").extends(Layout("S2")).number, Number.NO_ROOM)
        self.assertEqual(Layout("A8 S2 c*").extends(Layout("A8 S2")).number, Number.NOT_PLAIN)
        with self.assertRaises(Refused) as caught:
            Layout("c").extends(Layout("c x*"))
        self.assertEqual((caught.exception.number, caught.exception.caret), (Number.BAD_MOVE, "c x*\n  ^"))
        self.assertEqual(Layout("a6 X").promises, curlew.Promises(grows=3, keeps=3, joins=3))

    def test_fields(self):
        rows = [(f.place, f.length, f.type, f.unsigned, f.count, f.slot, f.position, f.bytes)
                for f in Layout("A8 Su2 c*X @16 c").fields]
        self.assertEqual(rows, [
            (0, 2, "A", False, 8, 0, 0, 8), (3, 3, "S", True, 2, 1, 8, 4), (7, 2, "c", False, "*", 2, 12, None),
            (9, 1, "X", False, None, None, None, 0), (11, 3, "@", False, 16, None, None, 0),
            (15, 1, "c", False, None, 3, 16, 1)])
        self.assertEqual(Kind.REAL, 4)

    def test_no_references_are_kept(self):
        value, record = [b"Ada Lind" * 3], bytearray(b"x" * 24)
        layout = Layout("a24")
        counts = sys.getrefcount(value[0]), sys.getrefcount(record), sys.getrefcount(layout)
        for _ in range(50):
            layout.pack(value)
            layout.read(record)
            list(layout.records(record))
        self.assertEqual((sys.getrefcount(value[0]), sys.getrefcount(record), sys.getrefcount(layout)), counts)
        record.extend(b"may grow again")


class BesideStruct(unittest.TestCase):
    """Random layouts of fields that struct knows, over random values and cuts. $CURLEW_SEED sets the fresh seed."""

    CODES = {"c": ("<", "b", 1), "s": ("<", "h", 2), "S": (">", "h", 2), "i": ("<", "i", 4), "I": (">", "i", 4),
             "w": ("<", "q", 8), "W": (">", "q", 8), "r": ("<", "f", 4), "R": (">", "f", 4), "q": ("<", "d", 8),
             "Q": (">", "d", 8), "a": ("<", "s", 1)}

    def field(self, dice):
        """The text of a field, its value, and its bytes."""
        letter = dice.choice("csSiIwWrRqQa")
        order, code, width = self.CODES[letter]
        count = dice.choice((None, None, 1, 2, dice.randint(0, 40)))
        items = 1 if count is None else count
        if letter == "a":
            value = bytes(dice.randrange(256) for _ in range(items))
            return letter + ("" if count is None else str(count)), value, value
        flag = letter in "csSiIwW" and dice.random() < 0.5
        bits = 8 * width
        if code in "fd":
            values = [dice.randint(-400000, 400000) / 8 for _ in range(items)]
        elif flag:
            values = [dice.getrandbits(bits) for _ in range(items)]
        else:
            values = [dice.getrandbits(bits) - 2 ** (bits - 1) for _ in range(items)]
        data = struct.pack(f"{order}{items}{code.upper() if flag else code}", *values)
        return letter + "u" * flag + ("" if count is None else str(count)), values[0] if count is None else values, data

    def rounds(self, seed):
        dice = random.Random(seed)
        for _ in range(300):
            fields = [self.field(dice) for _ in range(dice.randint(0, 12))]
            layout = Layout(" ".join(text for text, _, _ in fields))
            record = b"".join(data for _, _, data in fields)
            values = [value for _, value, _ in fields]
            self.assertEqual(layout.pack(values), record, f"seed {seed}")
            self.assertEqual(layout.length, len(record), f"seed {seed}")
            cut = dice.randint(0, len(record))
            end, kept = 0, []
            for _, value, data in fields:
                end += len(data)
                kept.append(value if end <= cut and None not in kept else None)
            self.assertEqual(layout.read(record[:cut]), tuple(kept), f"seed {seed}")
            self.assertEqual(layout.read(bytearray(record)), tuple(values), f"seed {seed}")

    def test_fixed_seed(self):
        self.rounds(417)

    def test_fresh_seed(self):
        seed = int(os.environ.get("CURLEW_SEED") or random.SystemRandom().randrange(2 ** 32))
        print(f"CURLEW_SEED={seed}")
        self.rounds(seed)
