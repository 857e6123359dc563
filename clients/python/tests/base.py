"""What the tests share: a folder of its own for each, and a store in it."""

import os
import shutil
import sys
import tempfile
import unittest

HERE = os.path.dirname(os.path.abspath(__file__))
PACKAGE = os.path.dirname(HERE)
TOP = os.path.dirname(os.path.dirname(PACKAGE))
sys.dont_write_bytecode = True
if not os.environ.get("ORPHEUS_INSTALLED"):
    sys.path.insert(0, PACKAGE)

import orpheus  # noqa: E402

PEOPLE = "id,name,score\n1,ann,10\n2,bob,20\n"
RAISED = "id,name,score\n1,ann,10\n2,bob,25\n3,cy,30\n"
SCHEMA = "id:int,name:text,score:int"


class Case(unittest.TestCase):
    def setUp(self):
        self.room = tempfile.mkdtemp(prefix="orpheus-test-")
        self.addCleanup(shutil.rmtree, self.room, True)
        self.put("a.csv", PEOPLE)
        self.put("b.csv", RAISED)

    def at(self, name):
        return os.path.join(self.room, name)

    def put(self, name, text):
        with open(self.at(name), "w", encoding="utf-8", newline="") as out:
            out.write(text)
        return self.at(name)

    def read(self, name):
        with open(self.at(name), encoding="utf-8", newline="") as file:
            return file.read()

    def store(self, **others):
        return orpheus.Store.create(self.at("store"), **others)

    def people(self, **others):
        """Gives a store with two versions of people."""
        store = self.store(**others)
        store.init("people", self.at("a.csv"), SCHEMA, "id")
        store.commit("people", self.at("b.csv"), 1, "raise")
        return store

    def refused(self, number, call, *words, **others):
        """Gives the refusal of a call."""
        with self.assertRaises(orpheus.Refused) as caught:
            call(*words, **others)
        self.assertEqual(caught.exception.number, number, str(caught.exception))
        return caught.exception
