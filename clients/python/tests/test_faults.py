"""Refusals and what they explain, runs that end early, the lock, and copies."""

import multiprocessing
import os
import shutil
import subprocess
import time
import unittest

from base import PEOPLE, SCHEMA, Case, orpheus

HEADER = "id,name,score\n"

# A file that is committed, its refusal, and what is said of it.
FILES = [
    ("name,id,score\nann,1,10\n", 31, "the columns are in another order"),
    ("id;name;score\n1;ann;10\n", 31, "something else than commas"),
    ("id,name\n1,ann\n", 31, "the file lacks score"),
    ("ID, name,score\n1,ann,10\n", 31, "blanks or letters differ"),
    ("", 31, "the schema: id,name,score"),
    (HEADER + '1,"a\nb",2\n\n2,bob\n', 32, "line 5: '2', 'bob'"),
    (HEADER + "1,ann,1.0\n", 33, "score is '1.0'"),
    (HEADER + "1,ann, 1\n", 33, "score is ' 1'"),
    (HEADER + "1,ann,NULL\n", 33, "an empty field is NULL"),
    (HEADER + "9223372036854775808,ann,1\n", 33, "from -2^63 to 2^63 - 1"),
    (HEADER + '1,"two\nlines",1\n,bob,2\n', 37, "line 4: '', 'bob', '2'"),
    (HEADER + '1,"two\nlines",1\n2,x,2\n1,x,2\n', 14, "its key 1 stands in row 1 already, lines 2 to 3"),
    (HEADER + "1," + "x" * 70_000 + ",2\n", 36, "at most 65,536 bytes"),
]

# A query, its refusal, and what is said of it.
QUERIES = [
    ("SELECT * FROM people", 41, "`CVD name`"),
    ("SELECT * FROM VERSION 1 people", 41, "`OF CVD name`"),
    ("SELECT * FROM CVD people WHERE name == 'ann'", 41, "equality is one"),
    ("SELECT id AS x FROM CVD people", 41, "no aliases"),
    ("SELECT * FROM CVD people WHERE name LIKE 'a'", 41, "none of LIKE"),
    ("SELECT * FROM CVD people WHERE id IN (1)", 41, "there is no IN"),
    ("SELECT * FROM CVD people WHERE id = NULL", 41, "`IS NULL`"),
    ("SELECT id, FROM CVD people", 41, "a comma is too many"),
    ("SELECT id+1 FROM CVD people", 40, "\n         ^"),
    ("SELECT größe @ FROM CVD people", 40, "\n         ^"),
    ("SELECT @ FROM CVD people", 40, "\n       ^"),
    ('SELECT * FROM CVD people WHERE name = "ann"', 42, "single quotes: 'ann'"),
    ("SELECT age FROM CVD people", 42, "the columns are id, name, score"),
    ("SELECT * FROM CVD people WHERE name > 3", 43, "texts in single quotes"),
    ("SELECT name, COUNT(*) FROM CVD people", 44, "GROUP BY"),
    ("SELECT SUM(name) FROM CVD people", 45, "name is not int"),
    ("SELECT * FROM CVD peple", 10, "there is people"),
    ("SELECT * FROM VERSION 9 OF CVD people", 12, "the versions 1 to 2"),
]


def commits(folder, path, count, done):
    store = orpheus.Store(folder, wait=60)
    for number in range(count):
        done.put(store.commit("people", path, 1, f"process {os.getpid()} {number}").vid)


class Refusals(Case):
    def test_files(self):
        store = self.people()
        for text, number, says in FILES:
            self.put("c.csv", text)
            why = self.refused(number, store.commit, "people", self.at("c.csv"), 1)
            self.assertIn(says, why.explain(), text[:80])
            why = self.refused(number, store.init, "others", self.at("c.csv"), SCHEMA, "id")
            self.assertIn(says, why.explain(), text[:80])
        with open(self.at("latin.csv"), "wb") as out:
            out.write((HEADER + "1,größe,2\n").encode("latin-1"))
        self.assertIn("iconv", self.refused(34, store.commit, "people", self.at("latin.csv"), 1).explain())
        self.assertIn("its key 1 stands in row 1", self.refused(14, store.commit, "people", [(1, "a", 1), (1, "b", 2)], 1).explain())
        self.assertEqual(len(store.log("people")), 2)

    def test_names(self):
        store = self.people()
        os.mkfifo(self.at("pipe"))
        os.symlink("nowhere", self.at("link"))
        for name, says in [("a.scv", "has a.csv"), ("no/a.csv", "there is no folder"), ("pipe", "no regular file"), ("link", "leads nowhere"), ("", "is a folder")]:
            self.assertIn(says, self.refused(70, store.commit, "people", self.at(name).rstrip("/"), 1).explain())
        calls = [
            (10, "there is people", store.log, "peeple"),
            (11, "another name", store.init, "people", self.at("a.csv"), SCHEMA, "id"),
            (12, "versions 1 to 2", store.checkout, "people", 3),
            (13, "version 1 is repeated", store.checkout, "people", [1, 1]),
            (17, "threshold out of range", store.optimize, "people", "3/2"),
            (51, "no such command", store._tell, "frob"),
            (52, "missing -d", store._tell, "optimize people"),
            (53, "too long", store.commit, "people", self.at("a.csv"), 1, "x" * 2000),
            (54, "bad number", store.generate, "g", 0, 0, 1),
            (55, "line over 65536 bytes", store.run, "SELECT " + "x" * 66_000),
            (56, "column 1 has a bad kind", store.init, "p", self.at("a.csv"), "id:real", "id"),
            (58, "a quote is not closed", store._tell, '"'),
            (61, "no columns", store._tell, 'init p -s "" -k id -f a.csv'),
            (63, "bad name", store.init, "9x", self.at("a.csv"), SCHEMA, "id"),
            (64, "column id is repeated", store.init, "p", self.at("a.csv"), "id:int,id:int", "id"),
            (65, "no key", store.init, "p", self.at("a.csv"), SCHEMA, ""),
            (66, "no key column x", store.init, "p", self.at("a.csv"), SCHEMA, "x"),
            (67, "key column id is repeated", store.init, "p", self.at("a.csv"), SCHEMA, "id,id"),
            (71, "the store's own", store.drop, "orpheus_users"),
        ]
        for number, says, call, *words in calls:
            self.assertIn(says, self.refused(number, call, *words).explain())
        store.optimize("people", "1/1")
        self.assertIn("migrate()", self.refused(18, store.optimize, "people", "1/1").explain())

    def test_queries(self):
        store = self.people()
        for query, number, says in QUERIES:
            self.assertIn(says, self.refused(number, store.run, query).explain(), query)


class Faults(Case):
    def test_exits(self):
        store = self.people()
        self.put("small.csv", PEOPLE)
        with self.assertRaises(orpheus.InputFault) as caught:
            store.checkout("people", 1, to=os.path.join(store.folder, "journal"))
        self.assertIn("the store's own journal", caught.exception.explain())
        with self.assertRaises(orpheus.InputFault):
            store.commit("people", os.path.join(store.folder, "pages"), 1)
        with self.assertRaises(FileNotFoundError):
            store.checkout("people", 1, to=self.at("no/folder"))
        self.assertEqual(len(store.log("people")), 2)
        with open(os.path.join(store.folder, "journal"), "r+b") as file:
            file.truncate(100)
        with self.assertRaises(orpheus.Damaged) as caught:
            store.ls()
        self.assertEqual((caught.exception.area, caught.exception.exit), ("journal", 6))
        with open(os.path.join(store.folder, "journal"), "r+b") as file:
            file.seek(21)
            file.write(b"\x09")
        with self.assertRaises(orpheus.NotAStore):
            store.ls()
        shutil.rmtree(store.folder)
        os.mkdir(store.folder)
        self.put("store/journal", "x" * 50)
        with self.assertRaises(orpheus.NotAStore):
            orpheus.Store(store.folder).ls()

    def test_memory(self):
        store = self.store()
        store.generate("g", 1, 2000, 1)
        small = self.put("small", f'#!/bin/sh\nulimit -v 1000\nexec "{store.program}" "$@"\n')
        os.chmod(small, 0o755)
        with self.assertRaises(orpheus.OrpheusError):
            orpheus.Store(store.folder, program=small).checkout("g", 1)
        for limit in range(2_000, 40_000, 500):
            self.put("small", f'#!/bin/sh\nulimit -v {limit}\nexec "{store.program}" "$@"\n')
            try:
                orpheus.Store(store.folder, program=small).run("SELECT * FROM CVD g")
                break
            except orpheus.OutOfMemory as why:
                self.assertIn("ulimit -v", why.explain())
            except orpheus.OrpheusError:
                pass

    def test_a_killed_commit(self):
        store = self.people()
        self.put("large.csv", HEADER + "".join(f"{at},x,1\n" for at in range(50_000)))
        made = 0
        for pause in (0.002, 0.01, 0.02, 0.04, 0.08):
            # (a shell gives what it runs beside itself an empty input, unless it is said otherwise)
            self.put("short", f'#!/bin/sh\nexec 3<&0\n"{store.program}" "$@" <&3 &\nsleep {pause}\nkill -9 $!\nwait $! 2>&-\nkill -9 $$\n')
            os.chmod(self.at("short"), 0o755)
            with self.assertRaises(orpheus.Killed):
                orpheus.Store(store.folder, program=self.at("short")).commit("people", self.at("large.csv"), 1, "killed")
            again = orpheus.Store(store.folder, wait=10)
            log = again.log("people")
            self.assertIn(len(log) - 2 - made, (0, 1))
            made = len(log) - 2
            self.assertEqual([it.message for it in log], ["init", "raise"] + ["killed"] * made)
            self.assertEqual([len(again.checkout("people", it.vid)) for it in log], [it.rows for it in log])


class Lock(Case):
    def test_who_has_it(self):
        store = self.people()
        with subprocess.Popen([store.program, store.folder], stdin=subprocess.PIPE, stdout=subprocess.PIPE) as other:
            other.stdin.write(b"ls\n")
            other.stdin.flush()
            other.stdout.readline()
            began = time.monotonic()
            with self.assertRaises(orpheus.Busy):
                store.ls()
            with self.assertRaises(orpheus.Busy) as caught:
                orpheus.Store(store.folder, wait=0.3).ls()
            self.assertGreater(time.monotonic() - began, 0.25)
            if os.path.exists("/proc/locks"):
                self.assertIn(str(other.pid), caught.exception.explain())
            with self.assertRaises(orpheus.Busy):
                store.backup(self.at("copy"))
            other.stdin.close()
            other.stdout.read()
        self.assertEqual(len(store.ls()), 1)

    def test_four_that_commit_at_once(self):
        store = self.people()
        context = multiprocessing.get_context("fork")
        done = context.Queue()
        four = [context.Process(target=commits, args=(store.folder, self.at("b.csv"), 8, done)) for _ in range(4)]
        for it in four:
            it.start()
        vids = [done.get(timeout=120) for _ in range(32)]
        for it in four:
            it.join(60)
        self.assertEqual(sorted(vids), list(range(3, 35)))
        self.assertEqual(len({it.message for it in store.log("people")}), 34)


class Copies(Case):
    def test_a_backup_comes_back(self):
        store = self.people()
        store.backup(self.at("copy"))
        self.assertEqual(orpheus.verify(self.at("copy")), (1, 2, 5))
        rows = store.checkout("people", 2)
        shutil.rmtree(store.folder)
        shutil.copytree(self.at("copy"), store.folder)
        self.assertEqual(orpheus.Store(store.folder).checkout("people", 2), rows)
        with self.assertRaises(orpheus.OrpheusError):
            store.backup(self.at("copy"))

    def test_a_copy_that_changed(self):
        store = self.people()
        store.backup(self.at("copy"))
        with open(self.at("copy/pages"), "r+b") as file:
            found = file.read()
            at = found.index(b"bob")
            file.seek(at)
            file.write(b"rob")
        with self.assertRaisesRegex(orpheus.OrpheusError, "another checksum"):
            orpheus.verify(self.at("copy"))
        # Without the sums nothing tells: the program gives wrong rows.
        os.remove(self.at("copy/SHA256SUMS"))
        self.assertEqual(orpheus.verify(self.at("copy")), (1, 2, 5))
        self.assertEqual(orpheus.Store(self.at("copy")).checkout("people", 1)[1]["name"], "rob")


if __name__ == "__main__":
    unittest.main()
