"""The store's methods: what each gives, and what it leaves to its users."""

import datetime
import decimal
import os
import unittest

from base import PEOPLE, RAISED, SCHEMA, Case, orpheus


class Commands(Case):
    def test_versions(self):
        store = self.store()
        self.assertEqual(store.init("people", self.at("a.csv"), SCHEMA, "id"), ("people", 1, 2, 2))
        self.assertEqual(store.commit("people", self.at("b.csv"), 1, 'the "raise" \\ of größe'), ("people", 2, 3, 2))
        self.assertEqual(store.commit("people", [{"id": 9, "name": None}], [1, 2], ""), ("people", 3, 1, 1))
        self.assertEqual(store.ls(), [("people", 3, 5)])
        self.assertEqual([tuple(it) for it in store.log("people")], [(1, 2, 2, (), "init"), (2, 3, 2, (1,), 'the "raise" \\ of größe'), (3, 1, 1, (1, 2), "")])
        self.assertEqual(store.checkout("people", 3), [{"id": 9, "name": None, "score": None}])
        self.assertEqual([row["score"] for row in store.checkout("people", [1, 2])], [10, 20, 30])
        written = store.checkout("people", 2, to=self.at("out.csv"))
        self.assertEqual((written.rows, written.path, self.read("out.csv")), (3, self.at("out.csv"), RAISED))
        store.drop("people")
        self.assertEqual(store.ls(), [])

    def test_storage(self):
        store = self.store()
        self.assertEqual(store.generate("g", 7, 3, 4), ("g", 4, 9, 16))
        split = store.optimize("g", "1/1")
        self.assertEqual((split.records, split.members, split.chosen), (9, 16, None))
        met = []
        self.assertEqual(store.migrate(1, progress=lambda *at: met.append(at)).taken, 1)
        self.assertEqual(store.layout("g").plan.steps, split.steps - 1)
        self.assertEqual(store.migrate(at_once=2, progress=lambda *at: met.append(at)).left, 0)
        self.assertEqual((met[0], met[-1]), ((1, 1), (split.steps - 1, split.steps - 1)))
        layout = store.layout("g")
        self.assertEqual((layout.plan, layout.stored, layout.cost), (None, split.stored, split.cost))
        self.assertEqual(sorted(vid for part in layout.partitions for vid in part.versions), [1, 2, 3, 4])
        self.assertEqual(store.checkpoint(), 1)

    def test_queries(self):
        store = self.people()
        answer = store.run("SELECT vid, COUNT(*), sum(score), MIN(name)\n  FROM CVD people\n GROUP BY vid")
        self.assertEqual((answer.columns, list(answer)), (["vid", "COUNT(*)", "SUM(score)", "MIN(name)"], [(1, 2, 30, "ann"), (2, 3, 65, "ann")]))
        self.assertEqual(store.run("SELECT * FROM VERSION 1 OF CVD people").dicts()[1], {"id": 2, "name": "bob", "score": 20})
        self.assertEqual(store.run("SELECT name FROM VERSION 1 OF CVD people WHERE id > 9"), [])
        self.assertEqual(store.run("SELECT score FROM VERSION 1 OF CVD people", raw=True), [("10",), ("20",)])
        self.assertEqual(store.run("SELECT score FROM VERSION 1 OF CVD people WHERE name = '(0 rows)'"), [])
        with self.assertRaises(orpheus.Unsayable):
            store.run("SELECT * FROM CVD people WHERE name = 'a\nb'")

    def test_a_batch_is_one_run(self):
        store = self.people()
        met = []
        with store.batch(progress=lambda *at: met.append(at)) as batch:
            made = [batch.commit("people", [(number, "x", None)], 2, f"row {number}") for number in range(5)]
            out = batch.checkout("people", 7, self.at("out.csv"))
            other = batch.init("other", self.at("a.csv"), SCHEMA, "id")
            gone = batch.drop("other")
            kept = batch.checkpoint()
        self.assertEqual([it.result.vid for it in made], [3, 4, 5, 6, 7])
        self.assertEqual((out.result.rows, other.result.rows, gone.result, kept.result), (1, 2, None, 1))
        self.assertEqual(met[-1], (9, 9))
        why = self.refused(12, self.batch_refused, store)
        self.assertIn("the 1 commands before it were done", why.explain())
        self.assertEqual(len(store.log("people")), 8)

    def batch_refused(self, store):
        with store.batch() as batch:
            batch.commit("people", self.at("a.csv"), 1)
            batch.commit("people", self.at("a.csv"), 99)
            batch.commit("people", self.at("a.csv"), 1)

    def test_budgets(self):
        store = self.store()
        store.generate("g", 7, 30, 20)
        now = store.layout("g")
        most = store.advise("g", 10**17, "1/1")
        self.assertEqual((most.cost, most.optimize), (now.cost, most.best < now.cost))
        self.assertEqual(store.advise("g", now.stored, "1/1").best, now.cost)
        self.refused(21, store.advise, "g", now.stored - 1, "1/1")
        self.refused(17, store.advise, "g", now.stored, "1/2")
        split = store.optimize("g", budget=2 * now.stored)
        self.assertEqual([line.p for line in split.lines], list(range(1, 101)))
        within = [line for line in split.lines if line.stored <= 2 * now.stored]
        best = min(within, key=lambda line: (line.cost, line.stored, line.p))
        self.assertEqual((split.chosen, split.stored, split.cost), (f"{best.p}/100", best.stored, best.cost))
        picture = store.choices("g", split)
        self.assertIn(split.chosen, picture.svg)
        self.assertIn("->", picture.dot)
        with self.assertRaises(TypeError):
            store.choices("g", split._replace(lines=()))

    def test_users(self):
        store = self.people()
        self.assertEqual((store.whoami(), store.create_user("ann"), store.tables()), ("admin", "ann", []))
        self.refused(73, store.create_user, "ann")
        self.refused(74, store.unstage, "admin.t")
        self.refused(71, store.unstage, "ann.t")
        ann = orpheus.Store(store.folder, user="ann")
        self.assertEqual((ann.whoami(), ann.tables()), ("ann", []))
        self.refused(71, ann.create_user, "bob")
        self.refused(72, orpheus.Store(store.folder, user="bob").ls)

    def test_staged_tables(self):
        store = self.people()
        store.create_user("ann")
        ann = orpheus.Store(store.folder, user="ann")
        taken = ann.stage("people", [2, 1], "work", self.room)
        self.assertEqual((taken.cvd, taken.rows, taken.path), ("people", 3, self.at("ann.work.staged")))
        self.assertEqual(self.read("ann.work.staged"), self.read("b.csv"))
        self.assertEqual([tuple(it) for it in ann.tables()], [("ann.work", "people", (2, 1))])
        self.refused(75, ann.stage, "people", 1, "work", self.room)
        self.refused(71, store.commit_staged, "ann.work", "theirs", self.room)
        self.put("ann.work.staged", "id,name,score\n1,ann,11\n2,bob,25\n3,cy,30\n")
        self.assertEqual(ann.commit_staged("ann.work", "mine", self.room)[1:], (3, 3, 1))
        self.assertEqual(store.log("people")[-1].parents, (2, 1))
        ann.unstage("ann.work")
        self.refused(74, ann.commit_staged, "ann.work", "again", self.room)
        self.assertEqual(ann.tables(), [])

    def test_columns_are_added(self):
        store = self.people()
        rows = [{**row, "mail": None} for row in store.checkout("people", 2)]
        rows[0]["mail"] = "ann@example.org"
        self.assertEqual(store.commit("people", rows, 2, "adds mail", add={"mail": "text"})[1:], (3, 3, 1))
        self.assertEqual(store.schema("people").said(), f"{SCHEMA},mail:text")
        self.assertEqual([row["mail"] for row in store.checkout("people", [1, 3])], [None, None, None])
        wide = self.put("wide.csv", "id,name,score,mail,ok\n1,ann,10,\\N,t\n2,bob,20,\\N,\n")
        why = self.refused(64, store.commit, "people", wide, 1, add="mail:text,ok:flag")
        self.assertIn("isn't added again", why.explain())
        self.refused(31, store.commit, "people", wide, 1)
        self.assertEqual(store.commit("people", wide, 1, "ok", add="ok:flag")[1:], (4, 2, 1))
        self.assertEqual(store.diff("people", 1, 4).changed[0].new["ok"], True)

    def test_columns_are_added_in_a_batch(self):
        store = self.people()
        wide = self.put("wide.csv", "id,name,score,ok\n1,ann,10,t\n")
        with store.batch() as batch:
            first = batch.commit("people", wide, 2, "ok", add="ok:flag")
            second = batch.commit("people", [{"id": 2, "name": "bob", "score": 25, "ok": False}], 3, "rows")
        self.assertEqual((first.result[1:], second.result[1:]), ((3, 1, 1), (4, 1, 1)))
        with self.assertRaises(orpheus.Refused):
            with store.batch() as batch:
                batch.commit("people", wide, 9, "none", add="more:int")
        self.assertEqual(store.schema("people").said(), f"{SCHEMA},ok:flag")


class Beside(Case):
    def test_schemas(self):
        store = self.store()
        text = "a:int,b:text,c:flag,d:text,order:int"
        store.init("t", [(1, "x", True, "y", 5)], orpheus.Schema(text), "d,b")
        found = orpheus.Store(store.folder).schema("t")
        self.assertEqual((found.said(), found.key), (text, ("b", "d")))
        self.assertEqual(len(store.log("t")), 1)

    def test_guesses(self):
        path = self.put("g.csv", "code,no,ok,n,m,e\n007,b,true,1,-5,\n008,b,false,,12,\n")
        found = orpheus.guess(path)
        self.assertEqual(str(found), "-s code:text,no:text,ok:flag,n:int,m:int,e:text -k code")
        shown = []
        store = self.store()
        store.init("g", path, show=shown.append)
        self.assertEqual((shown, store.schema("g").said()), ([found], found.said()))
        self.assertEqual(store.checkout("g", 1)[0], {"code": "007", "no": "b", "ok": True, "n": 1, "m": -5, "e": ""})
        self.assertEqual(orpheus.guess([{"x": None, "y": 2}, {"x": True, "y": 3.0}]).said(), "x:flag,y:int")
        for rows in ([{"x": 1.5}], [{"x": datetime.date(2026, 1, 1)}], [{"vid": 1}], [{"a b": 1}], []):
            with self.assertRaises((TypeError, ValueError)):
                orpheus.guess(rows)
        with self.assertRaises(ValueError):
            store.init("h", [{"x": 1}, {"x": 1}])

    def test_diff_and_conflicts(self):
        store = self.people()
        diff = store.diff("people", 1, 2)
        self.assertEqual((diff.added, diff.removed, [it.key for it in diff.changed]), ([{"id": 3, "name": "cy", "score": 30}], [], [(2,)]))
        self.assertEqual(str(diff), "+ id 3, name cy, score 30\n~ 2: score 20 -> 25")
        self.assertFalse(store.diff("people", 2, 2))
        self.assertEqual(len(store.diff("people", 2, 1).removed), 1)
        store.commit("people", [(1, "ann", 10), (2, "bob", 21)], 1, "other")
        store.commit("people", [(1, "ann", 10)], 1, "gone")
        self.assertEqual([it.key for it in store.merge_conflicts("people", 1, 2, 3)], [(2,)])
        self.assertEqual(store.merge_conflicts("people", 1, 2, 4)[0].other, None)
        self.assertEqual(store.merge_conflicts("people", 1, 2, 2), [])

    def test_tags(self):
        store = self.people()
        self.assertEqual(store.tags("people"), {})
        store.tag("people", "first draft", 1)
        store.tag("people", "last", 1)
        store.tag("people", "last", 2)
        self.assertEqual(store.tags("people"), {"first draft": 1, "last": 2})
        self.assertEqual(len(store.checkout("people", "last")), 3)
        self.assertEqual(store.commit("people", self.at("a.csv"), ["first draft", 2]).vid, 3)
        store.untag("people", "last")
        self.assertEqual(store.tags("people"), {"first draft": 1})
        with self.assertRaises(KeyError):
            store.checkout("people", "last")
        with self.assertRaises(ValueError):
            store.tag("people", "x", 9)

    def test_mapped_types(self):
        types = {"people": {"born": datetime.date, "at": datetime.datetime, "wage": orpheus.Scaled(2)}}
        store = self.store(types=types)
        row = {"id": 1, "born": datetime.date(1990, 2, 3), "at": datetime.datetime(2026, 1, 2, 3, 4, 5), "wage": decimal.Decimal("-12.30")}
        nulls = {"id": 2, "born": None, "at": None, "wage": None}
        store.init("people", [row, nulls], "id:int,born:text,at:text,wage:int", "id")
        self.assertEqual(store.checkout("people", 1), [row, nulls])
        self.assertEqual(store.checkout("people", 1, types={})[0]["wage"], -1230)
        with self.assertRaisesRegex(ValueError, "row 1, column wage: .* more than 2 places"):
            store.commit("people", [{**row, "wage": decimal.Decimal("1.234")}], 1)

    def test_frames(self):
        try:
            import pandas
        except ImportError:
            self.skipTest("there is no pandas")
        store = self.people()
        frame = store.frame("people", 2)
        self.assertEqual([str(it) for it in frame.dtypes], ["Int64", "string", "Int64"])
        frame.loc[len(frame)] = [4, pandas.NA, pandas.NA]
        store.commit("people", frame, 2, "from a frame")
        self.assertEqual(store.checkout("people", 3)[3], {"id": 4, "name": None, "score": None})
        self.assertEqual(store.run("SELECT name FROM VERSION 1 OF CVD people").frame().name.tolist(), ["ann", "bob"])
        store.init("floats", pandas.DataFrame({"k": [1, 2], "n": [1.0, float("nan")]}), show=lambda it: None)
        self.assertEqual(store.checkout("floats", 1), [{"k": 1, "n": 1}, {"k": 2, "n": None}])

    def test_arrow(self):
        try:
            import pyarrow
        except ImportError:
            self.skipTest("there is no pyarrow")
        store = self.people()
        table = store.arrow("people", 2)
        self.assertEqual(store.commit("people", table, 2).new, 0)
        self.assertEqual(table.schema.field("id").type, pyarrow.int64())
        self.assertTrue(store.export(self.at("out"), "people", parquet=True)[1].endswith("vid=2/part.parquet"))

    def test_exports(self):
        store = self.people()
        self.assertEqual(store.export(self.at("out"), "people"), [self.at(f"out/vid={vid}/part.csv") for vid in (1, 2)])
        self.assertEqual((self.read("out/vid=1/part.csv"), self.read("out/vid=2/part.csv")), (PEOPLE, RAISED))

    def test_a_folder_without_a_store(self):
        os.mkdir(self.at("empty"))
        for name in ("nothing", "empty"):
            with self.assertRaises(orpheus.NoStore):
                orpheus.Store(self.at(name))
        self.assertEqual(os.listdir(self.at("empty")), [])
        with self.assertRaises(orpheus.OrpheusError):
            orpheus.Store.create(self.room)
        with self.assertRaises(orpheus.NoProgram):
            orpheus.Store.create(self.at("store"), program=self.at("a.csv"))


if __name__ == "__main__":
    unittest.main()
