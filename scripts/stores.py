"""What checks of a built program share: runs over the folder `store`, the bytes of its two files, and how cases are run and counted."""

import os
import shutil
import struct
import subprocess
import sys
import tempfile

from asked import program_asked

JOURNAL = "store/journal"
PAGES = "store/pages"
PAGE = 4096
FRONT = 38
MOST = 1 << 28


# ---- runs


def started(program, words, lines):
    """Gives the exit of a script by a program that is started with these words, what it prints, and what it says on standard error."""
    script = "".join(f"{line}\n" for line in lines).encode()
    done = subprocess.run([program, *words], input=script, capture_output=True, check=False)
    return done.returncode, done.stdout.decode().rstrip("\n"), done.stderr.decode().rstrip("\n")


def ran(program, lines, *words):
    """Gives the exit of a script over the folder `store`, what it prints, and what it says on standard error."""
    return started(program, ["store", *words], lines)


def told(program, lines, *words):
    """Gives what a script over the folder `store` prints."""
    return ran(program, lines, *words)[1]


def fresh(program, lines):
    """Makes the store anew, by these lines, none of which may be refused."""
    shutil.rmtree("store", ignore_errors=True)
    done = ran(program, lines)
    same("the lines that make the store", (done[0], done[2]), (0, ""))
    return done[1]


# ---- the two files


def read(path):
    with open(path, "rb") as file:
        return file.read()


def write(path, found):
    with open(path, "wb") as file:
        file.write(found)


def both():
    """Gives the bytes of the journal and of the pages."""
    return read(JOURNAL), read(PAGES)


def put(files):
    """Makes these the bytes of the journal and of the pages."""
    os.makedirs("store", exist_ok=True)
    write(JOURNAL, files[0])
    write(PAGES, files[1])


def changed(found, places):
    """Gives the bytes with others at some places."""
    new = bytearray(found)
    for place, byte in places:
        new[place] = byte
    return bytes(new)


# ---- what stands in a journal


def u32(*numbers):
    return struct.pack(f">{len(numbers)}I", *numbers)


def text(words):
    return u32(len(words)) + words.encode()


def header(epoch, start, number=2):
    """Gives a header whose first slot is live."""
    return b"\xa5orpheus-cvd" + b"\xa5" + u32(epoch, start, number) + bytes(13)


def record(payload):
    """Gives a payload behind an open gate and its length."""
    return b"\xa5" + u32(len(payload)) + payload


def commit(vid, parents, counts, runs, cvd=1, message="more", part=1, added=None):
    """Gives the event of a version that joins a partition, or, where that is 0, gets its own. What is counted are its rows, its new
    records, and those that are added to the partition. One that adds columns has their names and kinds, and may have none."""
    edges = len(parents).to_bytes(2, "big") + b"".join(u32(*edge) for edge in parents)
    place = b"\x01" + u32(part) if part else b"\0"
    behind = edges + u32(*counts[:2]) + place + u32(counts[2], *runs)
    if added is None:
        return b"\x02" + u32(cvd, vid) + text(message) + behind
    columns = bytes([len(added)]) + b"".join(text(name) + bytes([kind]) for name, kind in added)
    return b"\x09" + u32(cvd, vid) + text(message) + columns + behind


def journal_of(payloads):
    """Gives a journal of one half with these records."""
    return header(1, FRONT) + b"".join(map(record, payloads)) + b"\0"


def payloads_in(journal):
    """Gives the payloads of a journal of one half."""
    found = []
    at = FRONT
    while journal[at] == 0xA5:
        length = int.from_bytes(journal[at + 1 : at + 5], "big")
        found.append(journal[at + 5 : at + 5 + length])
        at += 5 + length
    return found


def paged(runs):
    """Gives whole pages, each of which begins with one of these runs."""
    return b"".join(run.ljust(PAGE, b"\0") for run in runs)


# ---- cases


def same(what, got, want):
    """Ends the case where these differ."""
    if got != want:
        raise AssertionError(f"{what}: {got!r}, and not {want!r}")


class Skip(Exception):
    """The machine can't do what a case needs."""


class Cases:
    """The cases of one script, each a function of the program's path."""

    def __init__(self, name):
        self.name = name
        self.all = []
        self.skipped = 0

    def case(self, says):
        return lambda check: self.all.append((says, check))

    def failed(self, program):
        """Runs all cases, and gives how many of them failed."""
        count = 0
        for says, check in self.all:
            try:
                check(program)
            except Skip as why:
                self.skipped += 1
                print(f"{self.name}: skipped: {says}: {why}")
            except (AssertionError, LookupError, OSError) as why:
                count += 1
                print(f"{self.name}: {says}: {why or type(why).__name__}")
        return count

    def run(self, files):
        """Runs all cases in a new folder with these files, says what came of them, and ends."""
        program = program_asked()
        room = tempfile.mkdtemp()
        try:
            os.chdir(room)
            for name, found in files.items():
                write(name, found.encode())
            failed = self.failed(program)
        finally:
            os.chdir("/")
            shutil.rmtree(room, ignore_errors=True)
        print(f"{self.name}: {len(self.all) - failed - self.skipped} passed, {failed} failed")
        sys.exit(1 if failed else 0)
