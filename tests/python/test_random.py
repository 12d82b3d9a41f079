"""Random layouts of every type over random records: all ways to read one agree, and what was read is packed again."""
import os
import random
import unittest

import curlew
from curlew import Layout, Number, Refused, Verdict

ROUNDS = 800


def some_layout(dice):
    """A layout that reading takes, of a few fields with small, large or no counts and stars."""
    while True:
        fields = []
        for _ in range(dice.choice((0, 1, 2, 3, 5, 8, 20))):
            letter = dice.choice("aAbBhHcsSiIwWrRqQaAbBhHcsSiIwWrRqQxX@")
            count = dice.choice(("", "", "", "*", str(dice.randint(0, 9)), str(dice.randint(0, 40)), "300"))
            fields.append(letter + dice.choice(("", "u")) + count)
        try:
            return Layout(dice.choice((" ", "")).join(fields))
        except Refused:
            continue


def some_record(dice):
    length = dice.choice((0, 1, 3, 8, 24, 100, 700, 5000, 32768))
    return bytes(dice.choices(range(256), k=dice.randint(0, length)))


def shown(row):
    """Values that compare as they are, NaN too."""
    return repr(row)


class AllWays(unittest.TestCase):
    def by_tables(self, layout, record):
        """The values by way of slots and the largest area there is."""
        slots, area = bytearray(curlew.MAX_SLOTS * curlew.SLOT_SIZE), bytearray(curlew.MAX_AREA)
        reading = layout.read_into(record, slots, area)
        row = layout.values(slots, area)
        self.assertEqual(reading.set, len(row) - row.count(None))
        return row

    def agree(self, layout, record, other):
        try:
            row = layout.read(record)
        except Refused as refusal:
            with self.assertRaises(Refused) as caught:
                self.by_tables(layout, record)
            self.assertEqual(str(caught.exception), str(refusal))
            return
        self.assertEqual(shown(row), shown(self.by_tables(layout, record)))
        if record:
            rows = list(layout.records(record + b"x", len(record))) if len(record) > 1 else [row]
            self.assertEqual(shown(rows[0]), shown(row))
        try:
            findings = layout.compare(record, other)
        except Refused:
            self.assertRaises(Refused, layout.read, other)
            return
        self.assertEqual(shown(tuple(found.first for found in findings)), shown(row))
        self.assertEqual(shown(tuple(found.second for found in findings)), shown(layout.read(other)))
        for found in findings:
            marked = found.first is not None, found.second is not None
            self.assertIn(found.verdict, {
                (True, True): (Verdict.SAME, Verdict.DIFFERENT), (True, False): (Verdict.ONLY_FIRST,),
                (False, True): (Verdict.ONLY_SECOND,), (False, False): (Verdict.NEITHER,)}[marked])

    def packed_again(self, layout, record):
        """What was read is packed where all is marked, and read again; it is the record where reading loses nothing."""
        try:
            row = layout.read(record)
            again = layout.pack(row)
        except Refused as refusal:
            if refusal.number is Number.WOULD_LOSE:
                self.assertIn("inf", shown(row))
            return
        self.assertNotIn(None, row)
        if layout.promises.grows is None:
            self.assertEqual(shown(layout.read(again)), shown(row))
        if layout.promises.keeps is None and layout.length == len(record):
            self.assertEqual(again, record)

    def rounds(self, seed):
        dice = random.Random(seed)
        for number in range(ROUNDS):
            with self.subTest(seed=seed, round=number):
                layout, record = some_layout(dice), some_record(dice)
                if layout.length and dice.random() < 0.5:
                    record = record[:layout.length]
                other = bytearray(record[:dice.randint(0, len(record))])
                if other:
                    other[dice.randrange(len(other))] ^= 1 << dice.randrange(8)
                self.agree(layout, record, bytes(other))
                self.packed_again(layout, record)

    def test_fixed_seed(self):
        self.rounds(418)

    def test_fresh_seed(self):
        seed = int(os.environ.get("CURLEW_SEED") or random.SystemRandom().randrange(2 ** 32))
        print(f"CURLEW_SEED={seed}")
        self.rounds(seed)
