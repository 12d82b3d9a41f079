"""One layout, one iterator's source and one bytearray, used by many threads at once."""
import sys
import threading
import unittest

import curlew
from curlew import Layout

THREADS = 8
ROUNDS = 2000


class Threads(unittest.TestCase):
    def setUp(self):
        self.interval = sys.getswitchinterval()
        sys.setswitchinterval(1e-6)
        self.addCleanup(sys.setswitchinterval, self.interval)

    def run_all(self, work):
        failures = []

        def guarded(number):
            try:
                work(number)
            except BaseException as error:  # noqa: B902
                failures.append(error)

        threads = [threading.Thread(target=guarded, args=(number,)) for number in range(THREADS)]
        for thread in threads:
            thread.start()
        for thread in threads:
            thread.join()
        self.assertEqual(failures, [])

    def test_one_layout(self):
        layout = Layout("a4 A8 Su2 q b*", names="code name marks speed strip", encoding="ascii")

        def work(number):
            for i in range(ROUNDS):
                values = (f"{number:04}", f"n{i}", [i, number], i / 8, f"{i:016b}")
                record = layout.pack(values)
                self.assertEqual(layout.read(record), values)
                self.assertEqual(layout.read(bytearray(record[:13])), (*values[:2], None, None, None))
                self.assertEqual({found.verdict for found in layout.compare(record, record)}, {curlew.Verdict.SAME})
                self.assertRaises(curlew.Refused, layout.pack, (*values[:2], None, 1.0, "1"))
                self.assertEqual(curlew.sheet_load(curlew.sheet_dump([i, None])), [[i], None])

        self.run_all(work)

    def test_a_bytearray_that_others_resize(self):
        layout, run = Layout("a* "), bytearray(100)

        def work(number):
            for i in range(ROUNDS):
                if number % 2:
                    run[:] = bytes(i % 30000)
                else:
                    self.assertLessEqual(len(layout.read(run)[0]), 30000)
                    layout.pack([run])
                    layout.compare(run, memoryview(b"x"))

        self.run_all(work)

    def test_one_iterator(self):
        rows = Layout("I").records(b"".join(i.to_bytes(4, "big") for i in range(40000)))
        seen = [[] for _ in range(THREADS)]

        def work(number):
            for row in rows:
                seen[number].append(row[0])

        self.run_all(work)
        self.assertEqual(sorted(sum(seen, [])), list(range(40000)))
