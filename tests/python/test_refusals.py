"""Refusals: their numbers, places, texts and carets, and that all of it is as the header has it."""
import os
import pickle
import re
import unittest

import curlew
from curlew import Kind, Layout, Number, Refused, Verdict, _runs


class AsInHeader(unittest.TestCase):
    @classmethod
    def setUpClass(cls):
        with open(os.environ["CURLEW_HEADER"], encoding="utf-8") as file:
            cls.text = file.read()
        found = re.findall(r"^#define CURLEW_(\w+) (\d+)u?$", cls.text, re.M)
        cls.numbers = {name: int(number) for name, number in found}

    def test_limits(self):
        limits = [name for name in curlew.__all__ if name.isupper()]
        self.assertEqual(len(limits), 9)
        for name in limits:
            self.assertEqual((name, getattr(curlew, name)), (name, self.numbers[name]))
        self.assertEqual(_runs.LONGEST, curlew.MAX_SHEET)

    def test_enumerations(self):
        for enumeration in (Kind, Number, Verdict):
            for member in enumeration:
                if member is not Number.WOULD_LOSE:
                    self.assertEqual((member.name, int(member)), (member.name, self.numbers[member.name]))
        refusals = re.findall(r"^ +case CURLEW_(\w+):", self.text, re.M)
        self.assertEqual([member.name for member in Number if member is not Number.WOULD_LOSE], refusals)

    def test_version(self):
        self.assertIn(f'#define CURLEW_VERSION "{curlew.__version__}"', self.text)

    def test_texts(self):
        found = re.findall(r'case CURLEW_(\w+):\s+return "(.*)";', self.text)
        texts = {self.numbers[name]: words for name, words in found}
        seen = set()
        for number, call in REFUSED:
            with self.assertRaises(Refused) as caught:
                call()
            refusal = caught.exception
            self.assertEqual((refusal.number, refusal.text), (number, texts[number]))
            seen.add(number)
        # A value of a wrong kind (8) is a TypeError before any call; 17 and 18 are answers of `extends`, not refusals.
        self.assertEqual(seen, set(Number) - {0, 8, 17, 18, 100})


REFUSED = [
    (1, lambda: Layout("c" * 257)),
    (1, lambda: Layout("c").read(bytes(curlew.MAX_RECORD + 1))),
    (1, lambda: Layout("c" * 65).pack([1] * 65)),
    (1, lambda: Layout("a*").pack([bytes(curlew.MAX_AREA + 1)])),
    (1, lambda: Layout("w*").pack([[1] * (curlew.MAX_AREA // 8 + 1)])),
    (1, lambda: Layout("c").pack([1] * 65)),
    (1, lambda: curlew.sheet_dump([1] * 65)),
    (1, lambda: curlew.mean([1] * 65)),
    (1, lambda: curlew.sheet_load(bytes(curlew.MAX_SHEET + 1))),
    (1, lambda: curlew.sheet_load(memoryview(bytes(2 * curlew.MAX_SHEET)))),
    (1, lambda: curlew.sheet_rescue(b"\1\0\0", 65)),
    (1, lambda: curlew.sheet_rescue(b"\1\0\0", -1)),
    (1, lambda: curlew.from_perl("a" * 257)),
    (1, lambda: Layout("c").read_into(b"", bytearray(15), bytearray())),
    (1, lambda: Layout("c").read_into(b"", bytearray(16), bytearray(), -1)),
    (1, lambda: Layout("c").read_into(b"", bytearray(16), bytearray(8), 9)),
    (1, lambda: Layout("c").values(bytes(15), b"")),
    (2, lambda: Layout("c y")),
    (2, lambda: Layout("c ë")),
    (3, lambda: Layout("c32769")),
    (4, lambda: Layout("@")),
    (4, lambda: Layout("cx*").pack([1])),
    (4, lambda: Layout("cx*").pack([])),
    (5, lambda: Layout("c").pack([])),
    (5, lambda: Layout("c" * 65).read(b"")),
    (5, lambda: Layout("c" * 65).compare(b"", b"")),
    (5, lambda: Layout("c").values(b"", b"")),
    (5, lambda: Layout("c").read_into(b"", bytearray(), bytearray())),
    (6, lambda: Layout("cc").pack([1, None])),
    (7, lambda: Layout("c").values(b"\0\0\0\5" + bytes(12), b"")),
    (7, lambda: Layout("c").values(b"\0\0\0\1\0\0\0\0\0\0\0\1\0\0\0\0", b"")),
    (9, lambda: Layout("c").pack([[1, 2]])),
    (9, lambda: Layout("q").pack([[]])),
    (9, lambda: Layout("q3").pack([[1, 2]])),
    (9, lambda: curlew.mean([[]])),
    (10, lambda: Layout("b3").pack(["012"])),
    (10, lambda: Layout("h3").pack(["aë"])),
    (11, lambda: Layout("a*a*").pack([bytes(30000), bytes(30000)])),
    (11, lambda: Layout("c").read_into(b"\5", bytearray(16), bytearray(7))),
    (12, lambda: curlew.sheet_load(b"\1\0")),
    (13, lambda: curlew.sheet_load(b"\7\0\0")),
    (13, lambda: curlew.sheet_rescue(b"\7", 1)),
    (14, lambda: curlew.mean([0, -1])),
    (14, lambda: curlew.mean([1000001])),
    (15, lambda: curlew.from_perl("(a) 2")),
    (15, lambda: curlew.from_perl("(a")),
    (16, lambda: Layout("r").pack([float("nan")])),
]


class Refusals(unittest.TestCase):
    def refused(self, number, place, caret, call):
        with self.assertRaises(Refused) as caught:
            call()
        refusal = caught.exception
        self.assertEqual((refusal.number, refusal.place, refusal.caret), (number, place, caret))
        self.assertIsInstance(refusal, ValueError)
        self.assertIsInstance(refusal.number, Number)
        head, *rest = str(refusal).split("\n", 1)
        self.assertEqual((head, rest), (f"{refusal.text} (number {number}, place {place})", [caret] if caret else []))

    def test_places_and_carets(self):
        self.refused(2, 2, "c y\n  ^", lambda: Layout("c y"))
        self.refused(3, 4, "a6 c50000\n    ^", lambda: Layout("a6 c50000"))
        self.refused(4, 1, "cx*\n ^", lambda: Layout("cx*").pack([1]))
        self.refused(5, 0, "", lambda: Layout("c c").pack([1]))
        self.refused(6, 1, "x a2 S\n     ^", lambda: Layout("x a2 S").pack([b"Ad", None]))
        self.refused(9, 1, "a2 X c2\n     ^", lambda: Layout("a2 X c2").pack([b"Ad", [1]]))
        self.refused(10, 0, "b3\n^", lambda: Layout("b3").pack(["012"]))
        self.refused(14, 1, "", lambda: curlew.mean([0, -1]))
        self.refused(15, 4, "(a) 2\n    ^", lambda: curlew.from_perl("(a) 2"))
        self.refused(12, 3, "", lambda: curlew.sheet_load(b"\1\0\2\0\5"))
        self.refused(16, 0, "R\n^", lambda: Layout("R").pack([float("nan")]))

    def test_pickled(self):
        with self.assertRaises(Refused) as caught:
            Layout("c y")
        again = pickle.loads(pickle.dumps(caught.exception))
        self.assertEqual((str(again), again.number, again.caret), (str(caught.exception), 2, "c y\n  ^"))

    def test_types_come_first(self):
        self.assertRaises(TypeError, Layout("c c").pack, [None, "1"])
        self.assertRaises(OverflowError, Layout("c c").pack, [None, 2 ** 64])
        self.assertRaises(TypeError, curlew.mean, [-1, "1"])
