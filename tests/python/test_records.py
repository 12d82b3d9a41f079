"""Records, one after the other, out of files and runs of bytes; tables in runs of one's own; sheets and means."""
import io
import mmap
import os
import pathlib
import tempfile
import unittest
import warnings

import curlew
from curlew import Layout, Reading, Refused

LEGS = Layout("a2 Su")
DATA = b"".join(LEGS.pack([b"%02d" % (i % 100), i]) for i in range(40000))
ROWS = [(b"%02d" % (i % 100), i) for i in range(40000)]


class Raw(io.RawIOBase):
    """A file that gives a few bytes at a time."""

    def __init__(self, data, step):
        self.data, self.step = io.BytesIO(data), step

    def readable(self):
        return True

    def readinto(self, room):
        data = self.data.read(min(self.step, len(room)))
        room[:len(data)] = data
        return len(data)


class Records(unittest.TestCase):
    def sources(self, data):
        """The same bytes from everywhere."""
        yield data
        yield bytearray(data)
        yield memoryview(data)
        yield memoryview(bytearray(data)).toreadonly()
        yield io.BytesIO(data)
        yield Raw(data, 3)
        yield Raw(data, 100000)
        path = pathlib.Path(self.folder.name, "records")
        path.write_bytes(data)
        yield path
        yield str(path)
        with open(path, "rb") as file:
            yield file
        if data:
            with open(path, "rb") as file, mmap.mmap(file.fileno(), 0, access=mmap.ACCESS_READ) as shared:
                yield shared

    def setUp(self):
        self.folder = tempfile.TemporaryDirectory()
        self.addCleanup(self.folder.cleanup)

    def test_sources(self):
        for length in (0, 1, 2, 3, 4, 5, 8, 65535, 65536, 65537, 65540, len(DATA) - 1, len(DATA)):
            whole, rest = divmod(length, 4)
            expected = ROWS[:whole]
            if rest:
                expected = expected + [(DATA[4 * whole:4 * whole + 2] if rest >= 2 else None, None)]
            for source in self.sources(DATA[:length]):
                with self.subTest(type(source).__name__, length=length):
                    self.assertEqual(list(LEGS.records(source)), expected)

    def test_other_lengths(self):
        data = b"Ad\0\5Ef\0\0"
        self.assertEqual(list(Layout("a2 Su Su").records(data, length=4)), [(b"Ad", 5, None), (b"Ef", 0, None)])
        self.assertEqual(list(Layout("a2").records(data, 4)), [(b"Ad",), (b"Ef",)])
        self.assertEqual(list(Layout("a*").records(data, 5)), [(b"Ad\0\5E",), (b"f\0\0",)])
        long = Layout("a32768")
        self.assertEqual([len(row[0] or b"") for row in long.records(io.BytesIO(bytes(100000)))], [32768] * 3 + [0])
        for wrong in (0, -1, 32769):
            self.assertRaises(ValueError, LEGS.records, data, wrong)
        self.assertRaises(ValueError, Layout("a*").records, data)
        self.assertRaises(ValueError, Layout("").records, data)

    def test_named_rows(self):
        rows = list(Layout("a2 Su", names="code mark").records(b"Ad\0\5Ef"))
        self.assertEqual([(row.code, row.mark) for row in rows], [(b"Ad", 5), (b"Ef", None)])

    def test_files_are_closed(self):
        path = os.path.join(self.folder.name, "records")
        with open(path, "wb") as file:
            file.write(DATA)
        with warnings.catch_warnings():
            warnings.simplefilter("error")
            rows = LEGS.records(path)
            next(rows)
            del rows
            unused = LEGS.records(path)
            del unused
            self.assertEqual(sum(1 for _ in LEGS.records(path)), 40000)
        self.assertEqual([name for name in os.listdir("/proc/self/fd") if self.leads_to(name, path)], [])

    def leads_to(self, name, path):
        try:
            return os.path.samefile(f"/proc/self/fd/{name}", path)
        except OSError:
            return False

    def test_a_run_is_held_while_it_is_read(self):
        run = bytearray(DATA)
        rows = LEGS.records(run)
        next(rows)
        self.assertRaises(BufferError, run.extend, b"more")
        self.assertEqual(sum(1 for _ in rows), 39999)
        run.extend(b"more")

    def test_files_that_misbehave(self):
        class Greedy:
            def read(self, _):
                return bytes(100000)

        class Waiting:
            def read(self, _):
                return None

        self.assertRaises(ValueError, list, LEGS.records(Greedy()))
        self.assertRaises(TypeError, list, LEGS.records(Waiting()))
        self.assertRaises(IsADirectoryError, LEGS.records, self.folder.name)


class Tables(unittest.TestCase):
    def test_read_into(self):
        layout = Layout("a2 S2 S")
        slots, area = bytearray(b"\xff" * 64), bytearray(b"." * 40)
        self.assertEqual(layout.read_into(b"Ad\0\5\0\7", slots, area, 3), Reading(2, 21, 3))
        self.assertEqual(bytes(area), b"...Ad" + (5).to_bytes(8, "big") + (7).to_bytes(8, "big") + b"." * 19)
        self.assertEqual(slots[32:], b"\xff" * 32)
        self.assertRaises(Refused, layout.values, slots, area)
        slots[32:48] = bytes(16)
        self.assertEqual(layout.values(slots, area), (b"Ad", [5, 7], None))
        self.assertEqual(layout.values(memoryview(bytes(slots)), bytes(area)), (b"Ad", [5, 7], None))

    def test_other_runs(self):
        layout = Layout("a2 S")
        whole, area = bytearray(64), bytearray(16)
        layout.read_into(memoryview(b"Ad\0\5"), memoryview(whole)[16:48], memoryview(area))
        self.assertEqual(layout.values(whole[16:48], area), (b"Ad", 5))
        self.assertEqual((whole[:16], whole[48:]), (bytes(16), bytes(16)))
        with mmap.mmap(-1, 32) as slots, mmap.mmap(-1, 4096) as shared:
            layout.read_into(bytearray(b"Ef\0\7"), slots, shared, 100)
            self.assertEqual((layout.values(slots, shared), shared[:100]), ((b"Ef", 7), bytes(100)))

    def test_one_object_for_both(self):
        layout = Layout("c")
        run = bytearray(64)
        for slots, area in ((run, run), (memoryview(run)[:16], memoryview(run)[16:]), (run, memoryview(run))):
            self.assertRaises(ValueError, layout.read_into, b"\5", slots, area)
        self.assertRaises(ValueError, layout._core.read_into, b"\5", run, run, 0)
        self.assertEqual(run, bytes(64))
        del slots, area
        run.extend(b"not held")
        self.assertEqual(layout.read_into(run, bytearray(16), run, 8), Reading(1, 16, 1))

    def test_a_refusal_writes_nothing(self):
        layout = Layout("c S")
        slots, area = bytearray(b"s" * 32), bytearray(b"a" * 15)
        for given in ((slots, area), (memoryview(slots), memoryview(area))):
            self.assertRaises(Refused, layout.read_into, b"\1\2\3", *given)
        self.assertEqual((slots, area), (b"s" * 32, b"a" * 15))


class Sheets(unittest.TestCase):
    SHEET = bytes.fromhex("010013 000100 0003014f4b 000902fffffffffffffffe")

    def test_sheets(self):
        self.assertEqual(curlew.sheet_dump([None, b"OK", -2]), self.SHEET)
        self.assertEqual(curlew.sheet_dump((None, "OK", [-2]), encoding="ascii"), self.SHEET)
        self.assertEqual(curlew.sheet_load(self.SHEET), [None, b"OK", [-2]])
        self.assertEqual(curlew.sheet_load(bytearray(self.SHEET), encoding="ascii"), [None, "OK", [-2]])
        self.assertEqual(curlew.sheet_dump([]), b"\1\0\0")
        self.assertEqual(curlew.sheet_load(b"\1\0\0"), [])
        values = [[0.1, 5.0], 2 ** 64 - 1, [2 ** 63, 1], [], None, b"", -2 ** 63]
        self.assertEqual(curlew.sheet_load(curlew.sheet_dump(values)),
                         [[0.1, 5.0], [2 ** 64 - 1], [2 ** 63, 1], [], None, b"", [-2 ** 63]])
        self.assertEqual(curlew.sheet_load(curlew.sheet_dump([[1, 0.5]])), [[1.0, 0.5]])

    def test_long_sheets(self):
        full = [[1] * 60000, b"v" * 44288] + [None] * 62
        for long in ([b"v" * 30000] * 3, [b"v" * curlew.MAX_AREA], [[1] * 65536], full):
            sheet = curlew.sheet_dump(long)
            self.assertEqual(sheet[0], 2)
            self.assertEqual(curlew.sheet_load(sheet), long)
            self.assertEqual(curlew.sheet_rescue(sheet, len(long)).values, long)

    def test_rescue(self):
        self.assertEqual(curlew.sheet_rescue(self.SHEET[:-1], 4),
                         curlew.Rescued([None, b"OK", None, None], kept=2, cleared=2, dropped=10))
        self.assertEqual(curlew.sheet_rescue(self.SHEET, 3, encoding="ascii"),
                         curlew.Rescued([None, "OK", [-2]], kept=3, cleared=0, dropped=0))
        self.assertEqual(curlew.sheet_rescue(b"", 2), curlew.Rescued([None, None], 0, 2, 0))

    def test_mean(self):
        self.assertEqual(curlew.mean([0, None, [61]]), curlew.Mean(30.5, 1))
        self.assertEqual(curlew.mean(curlew.sheet_load(curlew.sheet_dump([0, None, 61]))), curlew.Mean(30.5, 1))
        self.assertEqual(curlew.mean([None, None]), curlew.Mean(None, 2))
        self.assertEqual(curlew.mean(()), curlew.Mean(None, 0))

    def test_from_perl(self):
        self.assertEqual(curlew.from_perl("(n2a3)2 C"), "Su2a3Su2a3cu")
        self.assertEqual(curlew.from_perl(""), "")
