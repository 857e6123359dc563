"""A fresh virtual environment installs the package, offline, and runs the steps of docs/python.md."""

import os
import re
import shutil
import subprocess
import sys
import unittest

from base import PACKAGE, TOP, Case, orpheus

DOCUMENT = f"{TOP}/docs/python.md"
RUNS = """import doctest, os, sys
failed = doctest.testfile(sys.argv[1], module_relative=False, encoding="utf-8", optionflags=doctest.NORMALIZE_WHITESPACE)
sys.exit(min(failed.failed, 100))
"""


def steps():
    """Gives the shell steps of the document: each command with what it prints."""
    found = []
    with open(DOCUMENT, encoding="utf-8") as lines:
        for line in lines:
            if line.startswith("    $ "):
                found.append((line[6:].rstrip("\n"), []))
            elif found and line.startswith("    ") and not line.startswith("    >>>") and found[-1][1] is not None:
                found[-1][1].append(line[4:])
            elif found and not line.startswith("    "):
                break
    return [(command, "".join(said)) for command, said in found]


class Install(Case):
    def setUp(self):
        super().setUp()
        if not os.path.isfile(DOCUMENT):
            self.skipTest("there is no docs/python.md beside the package")
        people = f"{TOP}/examples/people"
        for name, copies in [("a.csv", ["people.csv", "a.csv"]), ("b.csv", ["newer.csv", "b.csv"])]:
            for copy in copies:
                shutil.copy(f"{people}/{name}", self.at(copy))
        shutil.copy(f"{TOP}/VERSION", self.at("VERSION"))
        shutil.copytree(PACKAGE, self.at("clients/python"), ignore=shutil.ignore_patterns("__pycache__", "tests"))
        self.environment = {key: value for key, value in os.environ.items() if key not in ("PYTHONPATH", "PIP_REQUIRE_VIRTUALENV")}
        self.environment.update(HOME=self.at("no home"), PIP_NO_CACHE_DIR="1", PIP_DISABLE_PIP_VERSION_CHECK="1", PIP_CONFIG_FILE=os.devnull)
        # The program that is tested goes into the package, as the ready one would.
        shutil.copy(self.program(), self.at("clients/python/orpheus/orpheus-x86_64-linux"))
        self.environment.pop("ORPHEUS_PROGRAM", None)

    def program(self):
        from orpheus.store import find

        return find(None)

    def test_the_documents_steps(self):
        for command, said in steps():
            done = subprocess.run(["sh", "-c", command], cwd=self.room, env=self.environment, stdout=subprocess.PIPE, stderr=subprocess.STDOUT, timeout=300, check=False)
            if command.startswith("python3 -m venv") and done.returncode:
                self.skipTest("this Python makes no virtual environment")
            self.assertEqual((done.returncode, done.stdout.decode()), (0, said), command)
        self.assertTrue(self.read("people.svg").startswith("<svg"))
        done = subprocess.run([self.at("v/bin/python"), "-c", RUNS, DOCUMENT], cwd=self.room, env=self.environment, stdout=subprocess.PIPE, stderr=subprocess.STDOUT, timeout=300, check=False)
        self.assertEqual(done.returncode, 0, done.stdout.decode())

    def test_the_pictures_are_those_of_the_example(self):
        done = subprocess.run([sys.executable, f"{TOP}/scripts/pictures"], env={**self.environment, "ORPHEUS_PROGRAM": self.program(), "PYTHONDONTWRITEBYTECODE": "1"}, stdout=subprocess.PIPE, stderr=subprocess.STDOUT, check=False)
        self.assertEqual((done.returncode, done.stdout.decode()), (0, ""))

    def test_one_version(self):
        version = self.read("VERSION").strip()
        self.assertEqual(orpheus.__version__, version)
        with open(f"{TOP}/CHANGELOG.md", encoding="utf-8") as file:
            self.assertEqual(re.search(r"^## (.*)$", file.read(), re.M)[1], version)
        with open(f"{TOP}/docs/orpheus.1", encoding="utf-8") as file:
            self.assertIn(f'"orpheus {version}"', file.readline())

    def test_the_manual_page(self):
        if not shutil.which("groff"):
            self.skipTest("there is no groff")
        words = ["groff", "-man", "-ww", "-Tascii", f"{TOP}/docs/orpheus.1"]
        done = subprocess.run(words, stdout=subprocess.PIPE, stderr=subprocess.PIPE, check=False)
        self.assertEqual((done.returncode, done.stderr), (0, b""))
        self.assertIn(b"EXIT STATUS", re.sub(b"\x1b\\[\\d*m|.\b", b"", done.stdout))

    def test_an_archive_of_the_sources(self):
        words = [sys.executable, "-c", "import backend; print(backend.build_sdist('.')); print(backend.build_wheel('.'))"]
        done = subprocess.run(words, cwd=self.at("clients/python"), env={**self.environment, "PYTHONDONTWRITEBYTECODE": "1"}, stdout=subprocess.PIPE, check=True)
        self.assertEqual(len(re.findall(r"orpheus-\d", done.stdout.decode())), 2)


if __name__ == "__main__":
    unittest.main()
