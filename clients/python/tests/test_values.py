"""Values both ways, against rows that are kept in Python; and what lines can say."""

import os
import random
import unittest

from base import Case, orpheus
from orpheus import values, words

LEAST, MOST = -(1 << 63), (1 << 63) - 1
TEXTS = ["", "N", "\\N", "\\\\N", "\\", '"', '""', ",", "a,b", "line\nfeed", "cr\rcr", "crlf\r\n", " blank ", "größe", "日本", "🎻", "\ufeff", "NULL", "\t", "\x1b[0m", "\x00", "'", "true", "7"]
INTS = [0, 1, -1, LEAST, MOST, 10**18]


def drawn(draw, kind):
    if draw.random() < 0.15:
        return None
    if kind == "int":
        return draw.choice(INTS) if draw.random() < 0.5 else draw.randint(LEAST, MOST)
    if kind == "flag":
        return draw.random() < 0.5
    return draw.choice(TEXTS) + (draw.choice(TEXTS) if draw.random() < 0.5 else "")


class Values(Case):
    def test_random_tables(self):
        store = self.store()
        for seed in range(12):
            draw = random.Random(seed)
            kinds = [draw.choice(values.KINDS) for _ in range(draw.randint(0, 5))]
            schema = orpheus.Schema([("k", "int"), *((f"c{at}", kind) for at, kind in enumerate(kinds))], "k")
            name = f"t{seed}"
            rows = {}
            for vid in range(1, 5):
                for _ in range(draw.randint(1, 30)):
                    key = draw.randint(0, 40)
                    rows[key] = {"k": key, **{f"c{at}": drawn(draw, kind) for at, kind in enumerate(kinds)}}
                for key in draw.sample(sorted(rows), len(rows) // 5):
                    del rows[key]
                kept = [rows[key] for key in sorted(rows)]
                given = draw.sample(kept, len(kept))
                made = store.init(name, given, schema) if vid == 1 else store.commit(name, given, vid - 1, f"seed {seed}")
                self.assertEqual((made.vid, made.rows), (vid, len(kept)))
                self.assertEqual(store.checkout(name, vid), kept)
                answer = store.run(f"SELECT * FROM VERSION {vid} OF CVD {name}")
                self.assertEqual(answer.dicts(), kept)

    def test_keys_of_texts_and_flags(self):
        store = self.store()
        rows = [{"t": text, "f": flag} for text in sorted(TEXTS, key=str.encode) for flag in (False, True)]
        store.init("t", rows[::-1], "t:text,f:flag", "t,f")
        self.assertEqual(store.checkout("t", 1), rows)

    def test_one_column(self):
        store = self.store()
        for at, text in enumerate(TEXTS):
            store.init(f"t{at}", [{"t": text}], "t:text", "t")
            self.assertEqual(store.checkout(f"t{at}", 1), [{"t": text}])
        store.init("none", [], "t:text", "t")
        self.assertEqual(store.checkout("none", 1), [])

    def test_values_that_no_column_takes(self):
        store = self.store()
        store.init("t", [(1, "x", True)], "n:int,t:text,f:flag", "n")
        cases = [(1 << 63, "x", True), (True, "x", True), ("1", "x", True), (1, 2, True), (1, "x", 1), (1.5, "x", True), (1, "\ud800", True), (1, "x")]
        for row in cases:
            with self.assertRaises((TypeError, ValueError)):
                store.commit("t", [row], 1)
        with self.assertRaises(ValueError):
            store.commit("t", [{"n": 1, "other": 2}], 1)
        self.assertEqual(len(store.log("t")), 1)

    def test_names_and_messages(self):
        store = self.people()
        for name in ["a b.csv", 'q"uote.csv', "back\\slash.csv", "größe.csv", "-f", "#", "line\nfeed.csv", "tab\t.csv"]:
            self.put(name, "id,name,score\n5,x,6\n")
            store.commit("people", self.at(name), 1, f"of {name}".replace("\n", " "))
            if "\n" not in name:
                self.assertEqual(store.checkout("people", 1, to=self.at(name)).path, self.at(name))
        self.assertEqual(store.log("people")[3].message, 'of q"uote.csv')
        os.makedirs(self.at("x\ny"))
        store.checkout("people", 1, to=self.at("x\ny/out.csv"))
        for call in (lambda: store.commit("people", self.at("a.csv"), 1, "two\nlines"), lambda: store.checkout("people", 1, to=self.at("a\nb")), lambda: store.ls() and store.log("\ud800")):
            with self.assertRaises(orpheus.Unsayable):
                call()
        self.assertEqual(words.word('a\\"'), '"a\\\\\\""')


if __name__ == "__main__":
    unittest.main()
