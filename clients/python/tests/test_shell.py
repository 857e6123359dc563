"""The shell: its commands as words of a call and at a prompt, and pictures."""

import contextlib
import io
import json
import os
import pty
import re
import select
import shutil
import subprocess
import sys
import time
import unittest
import xml.etree.ElementTree as xml

from base import PACKAGE, Case, orpheus
from orpheus import shell

BROWSERS = ["chromium", "chromium-browser", "google-chrome", "firefox"]


class Words(Case):
    def call(self, *words):
        """Gives the exit of a call of the shell, and what it prints on both streams."""
        out, err = io.StringIO(), io.StringIO()
        with contextlib.redirect_stdout(out), contextlib.redirect_stderr(err):
            status = shell.main([*words])
        return status, out.getvalue(), err.getvalue()

    def test_a_week(self):
        store, a, b = self.at("s"), self.at("a.csv"), self.at("b.csv")
        self.assertEqual(self.call(store, "ls"), (6, "", self.call(store, "ls")[2]))
        self.assertEqual(self.call(store, "init", "people", a), (0, "cvd people, vid 1, rows 2, new 2\n", "guessed -s id:int,name:text,score:int -k id\n"))
        self.assertEqual(self.call(store, "commit", "people", b, "-v", "1", "-m", "a raise")[:2], (0, "cvd people, vid 2, rows 3, new 2\n"))
        self.assertIn("2     3    2  1        a raise", self.call(store, "log", "people")[1])
        self.assertEqual(json.loads(self.call("--json", store, "log", "people")[1])[1]["parents"], [1])
        self.assertEqual(self.call("--csv", store, "checkout", "people", "2")[1], self.read("b.csv"))
        self.assertEqual(self.call(store, "checkout", "people", "2,1", self.at("out.csv"))[0], 0)
        self.assertEqual(self.call(store, "run", "SELECT", "COUNT(*)", "FROM", "CVD", "people")[1], "COUNT(*)\n--------\n       5\n(1 rows)\n")
        self.assertEqual(self.call(store, "diff", "people", "1", "2")[1], "+ id 3, name cy, score 30\n~ 2: score 20 -> 25\n")
        self.assertEqual(self.call(store, "commit", "people", a, b, a, "-v", "2")[1].count("people"), 3)
        self.assertEqual([it.parents for it in orpheus.Store(store).log("people")][2:], [(2,), (3,), (4,)])
        self.assertEqual(self.call(store, "tag", "people", "last", "5")[1].split()[-3:], ["5", "(1", "rows)"])
        self.assertEqual(self.call("--json", store, "conflicts", "people", "1", "2", "last")[1], "[]\n")
        self.assertRegex(self.call(store, "advise", "people", "-s", "1000")[1], r"cost \d+, best \d+, optimize (true|false)")
        self.assertEqual(self.call(store, "optimize", "people", "-s", "1000")[0], 0)
        self.assertRegex(self.call(store, "migrate")[1], r"taken \d+, left 0")
        self.assertIn("stored", self.call(store, "layout", "people")[1])
        self.assertEqual(self.call(store, "checkpoint")[1], "2 datasets\n")
        self.assertEqual(self.call(store, "backup", self.at("copy"))[0], 0)
        self.assertEqual(self.call(store, "verify", self.at("copy"))[1], "datasets 2, versions 6, rows 13\n")
        self.assertEqual(self.call("--csv", store, "export", "people", self.at("out"), "1,2")[1].count("part.csv"), 2)
        self.assertIn("key", self.call(store, "schema", "people")[1])
        self.assertEqual(self.call(store, "drop", "people")[:2], (0, "people: dropped\n"))

    def test_refusals_and_help(self):
        store = self.people().folder
        status, _, said = self.call(store, "commit", "people", self.put("c.csv", "id,name,score\n1,ann,1.0\n"), "-v", "1")
        self.assertEqual((status, said.split("\n")[0]), (1, "error 33: row 1, column score: not int"))
        self.assertIn("c.csv, line 2", said)
        for words in (["frob"], ["log"], ["diff", "people"], ["commit", "people"], ["history", "people", "png"], ["commit", "people", "-v"]):
            self.assertEqual(self.call(store, *words)[0], 2, words)
        self.assertEqual(self.call(store, "backup", store)[0], 2)
        self.assertIn("diff DATASET A B", self.call(store, "help")[1])
        self.assertIn("SELECT", self.call(store, "help", "run")[1])
        for kind in ("bash", "zsh"):
            self.assertIn("checkout", self.call("--completion", kind)[1])
        self.put("store/journal", "")

    def test_control_characters_are_shown_as_text(self):
        store = self.people()
        store.commit("people", self.at("a.csv"), 1, "red \x1b[31m\r")
        self.assertIn(r"red \x1b[31m\r", self.call(store.folder, "log", "people")[1])

    def test_completion_in_bash(self):
        if not shutil.which("bash"):
            self.skipTest("there is no bash")
        script = f"{shell.BASH % ' '.join(shell.commands())}\nCOMP_WORDS=(orpheus-shell s ch); COMP_CWORD=2; _orpheus_shell; echo ${{COMPREPLY[@]}}"
        done = subprocess.run(["bash", "-c", script], stdout=subprocess.PIPE, stderr=subprocess.PIPE, check=False)
        self.assertEqual((done.stdout, done.stderr), (b"checkout checkpoint\n", b""))

    def test_names_that_complete(self):
        store = self.people()
        made = shell.Completer(shell.Shell(store.folder))
        self.assertIn("checkout", made.names("che", "che"))
        self.assertIn("people", made.names("log pe", "pe"))
        self.assertIn("score", made.names("run SELECT * FROM CVD people WHERE sc", "sc"))


class Prompt(Case):
    def test_through_a_terminal(self):
        self.people()
        environment = {**os.environ, "TERM": "dumb", "PAGER": "cat", "XDG_STATE_HOME": self.at("state"), "COLUMNS": "200", "LINES": "50"}
        if not os.environ.get("ORPHEUS_INSTALLED"):
            environment["PYTHONPATH"] = PACKAGE
        pid, terminal = pty.fork()
        if not pid:
            os.execve(sys.executable, [sys.executable, "-m", "orpheus", self.at("store")], environment)
        try:
            said = self.met(terminal, b"orpheus> ")
            for line, wants in [("log people", "raise"), ("diff people 1 2", "~ 2: score 20 -> 25"), ("log peeple", "there is people"), ("run SELECT name FROM VERSION 2 OF CVD people WHERE id = 3", "cy"), ("drop people", "[y/n]")]:
                os.write(terminal, line.encode() + b"\n")
                said = self.met(terminal, b"[y/n] " if line.startswith("drop") else b"orpheus> ")
                self.assertIn(wants, said)
            os.write(terminal, b"n\n")
            self.assertIn("nothing was dropped", self.met(terminal, b"orpheus> "))
            os.write(terminal, b"lo\tpeo\t\n")
            self.met(terminal, b"orpheus> ")
            os.write(terminal, b"exit\n")
        finally:
            self.addCleanup(os.close, terminal)
            end = time.monotonic() + 20
            while os.waitpid(pid, os.WNOHANG) == (0, 0) and time.monotonic() < end:
                with contextlib.suppress(OSError):
                    select.select([terminal], [], [], 0.1)[0] and os.read(terminal, 65536)
        self.assertEqual(len(orpheus.Store(self.at("store")).log("people")), 2)

    def met(self, terminal, wanted):
        """Reads what the terminal shows up to some text."""
        found, end = b"", time.monotonic() + 30
        while wanted not in found:
            self.assertLess(time.monotonic(), end, found)
            if select.select([terminal], [], [], 1)[0]:
                try:
                    found += os.read(terminal, 65536)
                except OSError:
                    self.fail(found)
        return found.decode(errors="replace")


class Pictures(Case):
    def drawn(self):
        store = self.people()
        store.commit("people", self.at("a.csv"), 1, 'a <b> & "c" \x1b\ud7ff größe')
        store.commit("people", self.at("a.csv"), [2, 3], "both")
        store.optimize("people", "1/1")
        store.migrate()
        return store

    def test_pictures_have_each_version(self):
        store = self.drawn()
        history, storage = store.history("people"), store.storage("people")
        found = xml.fromstring(history.svg)
        told = [it.text for it in found.iter("{http://www.w3.org/2000/svg}title")][1:]
        self.assertEqual([re.match(r"version (\d+), parents (\S.*?), partition", it).groups() for it in told], [("1", "none"), ("2", "1"), ("3", "1"), ("4", "2, 3")])
        self.assertEqual(len(list(found.iter("{http://www.w3.org/2000/svg}path"))), 4)
        self.assertIn("größe", "".join(found.itertext()))
        self.assertEqual(len({it.get("fill") for it in found.iter("{http://www.w3.org/2000/svg}circle")}), len(store.layout("people").partitions))
        self.assertIn("partition", "".join(xml.fromstring(storage.svg).itertext()))
        self.assertIn("4 -> 2;\n  4 -> 3;", history.dot)
        self.assertEqual(history._repr_svg_(), history.svg)
        for name in ("h.svg", "h.dot"):
            history.save(self.at(name))
        self.assertEqual((self.read("h.svg"), self.read("h.dot")), (history.svg, history.dot))

    def test_dot_is_taken(self):
        if not shutil.which("dot"):
            self.skipTest("there is no dot")
        for picture in (self.drawn().history("people"), orpheus.Store(self.at("store")).storage("people")):
            subprocess.run(["dot", "-Tsvg"], input=picture.dot.encode(), stdout=subprocess.DEVNULL, check=True)

    def test_a_browser_shows_something(self):
        browser = next(filter(None, map(shutil.which, BROWSERS)), None)
        if browser is None or "firefox" in browser:
            self.skipTest("there is no headless browser")
        self.drawn().history("people").save(self.at("h.svg"))
        self.put("none.svg", '<svg xmlns="http://www.w3.org/2000/svg" width="400" height="200"/>')
        # A picture of one colour is packed into fewer bytes.
        self.assertGreater(self.taken(browser, "h"), 2 * self.taken(browser, "none"))

    def taken(self, browser, name):
        """Gives the size of a browser's picture of a page."""
        words = ["--headless", "--no-sandbox", "--disable-gpu", f"--user-data-dir={self.at('profile')}", f"--screenshot={self.at(name)}.png", "--window-size=600,300"]
        try:
            subprocess.run([browser, *words, f"file://{self.at(name)}.svg"], stdout=subprocess.DEVNULL, stderr=subprocess.DEVNULL, timeout=60, check=False, env={**os.environ, "HOME": self.room})
        except subprocess.TimeoutExpired:
            self.skipTest("the browser doesn't end")
        if not os.path.exists(self.at(f"{name}.png")):
            self.skipTest("the browser makes no picture here")
        return os.path.getsize(self.at(f"{name}.png"))


if __name__ == "__main__":
    unittest.main()
