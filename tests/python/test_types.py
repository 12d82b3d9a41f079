"""Every parameter is given every wrong type: TypeError each time, and nothing is taken for something else."""
import array
import ctypes
import decimal
import io
import mmap
import unittest

import curlew
from curlew import Layout

SHEET = curlew.sheet_dump([1])


class Index:
    """Not an int, but may stand for one."""

    def __index__(self):
        return 5


# One of each sort. What a parameter takes is left out where it is tried.
ALL = {
    "None": None,
    "bool": True,
    "int": 5,
    "float": 5.0,
    "complex": 5j,
    "str": "5",
    "bytes": b"\0\5",
    "bytearray": bytearray(b"\0\5"),
    "memoryview": memoryview(b"\0\5"),
    "array": array.array("B", b"\0\5"),
    "ctypes": (ctypes.c_char * 2)(),
    "list": [5],
    "tuple": (5,),
    "range": range(2),
    "set": {5},
    "dict": {"5": 5},
    "generator": (item for item in [5]),
    "object": object(),
    "class": int,
    "function": len,
    "layout": Layout("S"),
    "Index": Index(),
    "Decimal": decimal.Decimal(5),
}
RUNS = {"bytes", "bytearray", "memoryview"}
WIDE = memoryview(array.array("H", [1, 2]))


class WrongTypes(unittest.TestCase):
    def each(self, call, right):
        """The call is refused with TypeError for all but the right ones, which it takes."""
        for name, value in ALL.items():
            with self.subTest(name):
                if name in right:
                    call(value)
                else:
                    self.assertRaises(TypeError, call, value)

    def test_records(self):
        layout = Layout("S")
        self.each(layout.read, RUNS)
        self.each(lambda record: layout.compare(record, b""), RUNS)
        self.each(lambda record: layout.compare(b"", record), RUNS)
        self.each(lambda record: layout.read_into(record, bytearray(16), bytearray(8)), RUNS)

    def test_sheets(self):
        for call in (curlew.sheet_load, lambda sheet: curlew.sheet_rescue(sheet, 1)):
            for name, value in ALL.items():
                with self.subTest(name):
                    expected = curlew.Refused if name in RUNS else TypeError
                    self.assertRaises(expected, call, value)
        self.assertEqual(curlew.sheet_load(memoryview(bytearray(SHEET))), [[1]])

    def test_slots_and_area(self):
        layout = Layout("")
        self.each(lambda area: layout.values(b"", area), RUNS)
        self.each(lambda area: layout.read_into(b"", bytearray(), area), {"bytearray"})
        for name, value in ALL.items():
            with self.subTest(name):
                self.assertRaises(curlew.Refused if name in RUNS else TypeError, layout.values, value, b"")
                self.assertRaises(curlew.Refused if name == "bytearray" else TypeError, layout.read_into, b"", value,
                                  bytearray())

    def test_views_of_larger_items(self):
        layout = Layout("S")
        for call in (layout.read, curlew.sheet_load, lambda run: layout.values(run, b""), layout.records,
                     lambda run: layout.read_into(b"", run, bytearray(8)), lambda run: curlew.sheet_dump([run])):
            self.assertRaises(TypeError, call, WIDE)
        self.assertEqual(layout.read(WIDE.cast("B")), (256,))

    def test_read_only_runs_are_not_written(self):
        layout = Layout("S")
        with mmap.mmap(-1, 16, access=mmap.ACCESS_READ) as closed:
            for run in (memoryview(bytes(16)), bytes(16), closed):
                self.assertRaises(TypeError, layout.read_into, b"", run, bytearray(8))
                self.assertRaises(TypeError, layout.read_into, b"", bytearray(16), run)

    def test_layout(self):
        for name in set(ALL) - {"str"}:
            self.assertRaises(TypeError, Layout, ALL[name])
        for name in set(ALL) - {"None", "str", "list", "tuple"}:
            self.assertRaises(TypeError, Layout, "", names=ALL[name])
        for name in set(ALL) - {"None", "str"}:
            self.assertRaises(TypeError, Layout, "", encoding=ALL[name])
            self.assertRaises(TypeError, Layout, "", errors=ALL[name])
        self.assertRaises(LookupError, Layout, "", encoding="no such")
        self.assertRaises(LookupError, Layout, "", errors="no such")
        self.assertRaises(TypeError, Layout, "c", names=[5])
        self.assertRaises(TypeError, Layout, "c", names=tuple)
        self.assertRaises(ValueError, Layout, "c", names="one two")
        self.assertRaises(ValueError, Layout, "c", names="class")

    def test_others(self):
        layout = Layout("S")
        self.each(layout.extends, {"layout"})
        self.each(lambda mark: layout.read_into(b"\0\5", bytearray(16), bytearray(16), mark), {"int", "Index"})
        self.each(lambda length: layout.records(b"", length), {"None", "int", "Index"})
        self.each(lambda legs: curlew.sheet_rescue(SHEET, legs), {"int", "Index"})
        self.each(lambda wrap: layout.pack([5], wrap=wrap), {"bool"})
        self.each(lambda cut: layout.pack([5], cut=cut), {"bool"})
        for call in (curlew.sheet_dump, curlew.sheet_load, lambda *run, **more: curlew.sheet_rescue(*run, 1, **more)):
            right = [1] if call is curlew.sheet_dump else SHEET
            for name in set(ALL) - {"None", "str"}:
                self.assertRaises(TypeError, call, right, encoding=ALL[name])
                self.assertRaises(TypeError, call, right, errors=ALL[name])

    def test_from_perl(self):
        for name, value in ALL.items():
            with self.subTest(name):
                self.assertRaises(curlew.Refused if name == "str" else TypeError, curlew.from_perl, value)

    def test_sources(self):
        layout = Layout("S")
        for name in set(ALL) - RUNS - {"str"}:
            self.assertRaises(TypeError, lambda: list(layout.records(ALL[name])))
        self.assertRaises(FileNotFoundError, layout.records, "no such file")
        self.assertRaises(TypeError, list, layout.records(io.StringIO("text")))


class WrongValues(unittest.TestCase):
    def each(self, layout, right):
        """Packing by a layout of one field takes the right values alone, as they are and, numbers, in a list."""
        for name, value in ALL.items():
            with self.subTest(f"{layout}, {name}"):
                if name in right:
                    Layout(layout).pack([value], cut=True)
                elif name == "None":
                    self.assertRaises(curlew.Refused, Layout(layout).pack, [value])
                else:
                    self.assertRaises(TypeError, Layout(layout).pack, [value], cut=True)

    def test_by_field(self):
        for letter in "csSiIwW":
            self.each(letter, {"int", "Index", "list", "tuple"})
            self.each(letter + "u1", {"int", "Index", "list", "tuple"})
        for letter in "rRqQ":
            self.each(letter, {"int", "float", "Index", "Decimal", "list", "tuple"})
        for letter in "aA":
            self.each(letter, RUNS)
        for letter in "hH":
            self.assertEqual(Layout(letter).pack(["5"]), Layout(letter).pack([b"5"]))
            for name in set(ALL) - RUNS - {"str", "None"}:
                self.assertRaises(TypeError, Layout(letter).pack, [ALL[name]])

    def test_items(self):
        for name, value in ALL.items():
            if name not in {"int", "Index"}:
                self.assertRaises(TypeError, Layout("S2").pack, [[1, value]])
            if name not in {"int", "Index", "float", "Decimal"}:
                self.assertRaises(TypeError, Layout("q2").pack, [[1.0, value]])
                self.assertRaises(TypeError, curlew.sheet_dump, [[1, value]])

    def test_text_wants_an_encoding(self):
        self.assertRaises(TypeError, Layout("a3").pack, ["Ada"])
        self.assertRaises(TypeError, curlew.sheet_dump, ["Ada"])
        self.assertEqual(Layout("a3", encoding="ascii").pack(["Ada"]), b"Ada")
        self.assertEqual(Layout("a3", encoding="ascii").pack([b"Ada"]), b"Ada")

    def test_tables_of_values(self):
        for name in set(ALL) - {"list", "tuple"}:
            with self.subTest(name):
                self.assertRaises(TypeError, Layout("S").pack, ALL[name])
                self.assertRaises(TypeError, curlew.sheet_dump, ALL[name])
                self.assertRaises(TypeError, curlew.mean, ALL[name])

    def test_sheet_values(self):
        for name in set(ALL) - RUNS - {"None", "int", "float", "list", "tuple", "Index"}:
            with self.subTest(name):
                self.assertRaises(TypeError, curlew.sheet_dump, [ALL[name]])

    def test_legs(self):
        for name in set(ALL) - {"None", "int", "Index", "list", "tuple"}:
            with self.subTest(name):
                self.assertRaises(TypeError, curlew.mean, [ALL[name]])

    def test_outside_64_bits(self):
        for value in (2 ** 64, -2 ** 63 - 1, 10 ** 40):
            for wrap in (False, True):
                self.assertRaises(OverflowError, Layout("w").pack, [value], wrap=wrap)
                self.assertRaises(OverflowError, Layout("cu2").pack, [[1, value]], wrap=wrap)
            self.assertRaises(OverflowError, curlew.sheet_dump, [value])
            self.assertRaises(OverflowError, curlew.mean, [value])
        self.assertRaises(OverflowError, curlew.sheet_dump, [[-1, 2 ** 63]])
        self.assertRaises(OverflowError, curlew.sheet_dump, [[2 ** 63, -1]])
        self.assertRaises(OverflowError, Layout("q").pack, [10 ** 400])

    def test_errors_of_a_value_come_through(self):
        class Broken:
            def __index__(self):
                raise ZeroDivisionError

            __float__ = __index__

        self.assertRaises(ZeroDivisionError, Layout("c").pack, [Broken()])
        self.assertRaises(ZeroDivisionError, Layout("q").pack, [Broken()])
        self.assertRaises(UnicodeEncodeError, Layout("a", encoding="ascii").pack, ["ë"])
        self.assertRaises(UnicodeDecodeError, Layout("a", encoding="ascii").read, b"\xeb")
        self.assertEqual(Layout("a", encoding="ascii", errors="surrogateescape").read(b"\xeb"), ("\udceb",))

    def test_a_list_that_shrinks(self):
        values = [[]]

        class Shrinks:
            def __index__(self):
                values[0].clear()
                return 1

        values[0] = [Shrinks(), 2]
        self.assertRaises(IndexError, Layout("c2").pack, values)

    def test_no_core_without_a_layout(self):
        core = Layout("c")._core
        self.assertRaises(TypeError, type(core))
        self.assertRaises(TypeError, type(core.rows(b"", 1)))
        self.assertRaises(ValueError, core.rows, b"", 0)
        self.assertRaises(TypeError, core.extends, Layout("c"))
        for row in (int, 5, "tuple"):
            self.assertRaises(TypeError, curlew._core.layout, "c", row, None, None)
