"""The program: where it is, one run of it, the lock on a store's folder, and what is behind a run that ended early."""

import contextlib
import errno
import fcntl
import os
import re
import shutil
import signal
import subprocess
import tempfile
import time

from . import faults

HERE = os.path.dirname(os.path.abspath(__file__))
READY = "orpheus-x86_64-linux"
FAULTS = {2: faults.UsageFault, 3: faults.StoreFault, 4: faults.InputFault, 5: faults.OutOfMemory, 6: faults.NotAStore, 7: faults.ScriptTooLong}
POLL = 0.02


def version():
    """Gives the version of the package, which the repository has in one place."""
    for path in (f"{HERE}/VERSION", f"{HERE}/../../../VERSION"):
        with contextlib.suppress(OSError), open(path, encoding="ascii") as file:
            return file.read().strip()
    return "unknown"


# ---- where the program is


def candidates():
    """Gives where the program may be: as the environment says, in the repository that has this package, beside it, on the PATH."""
    if os.environ.get("ORPHEUS_PROGRAM"):
        yield os.environ["ORPHEUS_PROGRAM"]
    top = os.path.dirname(os.path.dirname(os.path.dirname(HERE)))
    if os.path.isfile(f"{top}/crates.txt"):
        yield f"{top}/bin/orpheus"
        yield f"{top}/dist/{READY}"
    yield f"{HERE}/{READY}"
    found = shutil.which("orpheus")
    if found:
        yield found


def find(program=None):
    """Gives the path of the program."""
    for path in [program] if program else candidates():
        path = os.path.abspath(path)
        if os.path.isfile(path) and os.access(path, os.X_OK):
            return path
    where = program or "ORPHEUS_PROGRAM, bin/, dist/, the package's folder and the PATH"
    raise faults.NoProgram(f"there is no program at {where}: name it by program=, or put it on the PATH as orpheus")


# ---- a run


class Run:
    """A run that takes one line at a time. Names of files are relative to `cwd`."""

    def __init__(self, program, folder, cwd=None, steps=0):
        self.folder = folder
        self.complained = tempfile.TemporaryFile()
        words = [program, folder] + (["--steps", str(steps)] if steps else [])
        self.process = subprocess.Popen(words, stdin=subprocess.PIPE, stdout=subprocess.PIPE, stderr=self.complained, cwd=cwd)
        self.replies = []

    def say(self, line):
        # (a pipe that nobody reads any more shows at the next reply)
        with contextlib.suppress(BrokenPipeError):
            self.process.stdin.write(line.encode() + b"\n")
            self.process.stdin.flush()

    def ask(self, line):
        """Says a line whose reply is one line, and gives that."""
        self.say(line)
        reply = self.process.stdout.readline().decode()
        if not reply.endswith("\n"):
            self.end()
            raise self.fault("the run ended without a reply")
        self.replies.append(reply[:-1])
        if reply.startswith("error "):
            raise refusal(reply[:-1], line)
        return reply[:-1]

    def last(self, line):
        """Says the last line of a run, and gives its whole reply."""
        self.say(line)
        with contextlib.suppress(BrokenPipeError):
            self.process.stdin.close()
        reply = self.process.stdout.read()
        status = self.end()
        text = reply.decode()
        if status not in (0, 1):
            self.replies.append(text)
            raise self.fault()
        if not text:
            raise self.fault("the run gave no reply")
        if status == 1 and not self.replies_refused():
            raise refusal(text.rstrip("\n").rsplit("\n", 1)[-1], line)
        return text

    def replies_refused(self):
        return any(it.startswith("error ") for it in self.replies)

    def end(self):
        with contextlib.suppress(BrokenPipeError):
            self.process.stdin.close()
        self.process.stdout.read()
        self.process.stdout.close()
        return self.process.wait()

    def fault(self, otherwise="the run ended early"):
        """Gives the exception that the run's exit stands for."""
        status = self.process.wait()
        self.complained.seek(0)
        said = self.complained.read().decode(errors="replace").strip()
        said = said[len("orpheus: ") :] if said.startswith("orpheus: ") else said
        replies = "\n".join(self.replies)
        if status < 0:
            return faults.Killed(f"the program was killed by {signal_name(-status)}", replies)
        made = FAULTS.get(status)
        if made is None:
            return faults.Ended(said or f"{otherwise}, with exit {status}", replies)
        return special(made, said, replies, self.folder)

    def __enter__(self):
        return self

    def __exit__(self, kind, value, trace):
        if self.process.poll() is None:
            self.end()
        for it in (self.process.stdin, self.process.stdout, self.complained):
            with contextlib.suppress(OSError):
                it.close()


def signal_name(number):
    with contextlib.suppress(ValueError):
        return signal.Signals(number).name
    return f"signal {number}"


def special(made, said, replies, folder):
    damaged = re.match(r"damaged store: (journal|pages) (\d+)", said)
    if damaged:
        fault = faults.Damaged(said, replies, ["put a backup back: `verify` tells whether a copy is sound"])
        fault.area, fault.at = damaged[1], int(damaged[2])
        return fault
    if said.startswith("unknown format"):
        return faults.UnknownFormat(said, replies, ["a newer program made the store"])
    if made is faults.StoreFault:
        found = store_found(folder)
        kind = faults.Busy if found and found[0].startswith("another run") else made
        return kind(said, replies, found)
    if made is faults.OutOfMemory:
        return made(said, replies, ["a commit takes its file and its parents' records; `ulimit -v` tells a limit"])
    if made is faults.NotAStore:
        return made(said, replies, not_a_store_found(folder))
    return made(said, replies)


def refusal(reply, line):
    found = re.match(r"error (\d+): (.*)", reply, re.S)
    return faults.Refused(int(found[1]), found[2], line) if found else faults.Ended(reply)


# ---- what is behind a fault


def store_found(folder):
    """Says what is to be seen of a folder in which a run failed."""
    found = []
    holder = holder_of(folder)
    if holder or is_locked(folder):
        found.append("another run has the folder" + (f": {holder}" if holder else ""))
    if not os.path.lexists(folder):
        above = os.path.dirname(os.path.abspath(folder))
        found.append(f"{folder} isn't there" + ("" if os.access(above, os.W_OK) else f", and {above} can't be written"))
    elif not os.path.isdir(folder):
        found.append(f"{folder} is no folder")
    elif not os.access(folder, os.W_OK | os.X_OK):
        found.append(f"{folder} can't be written")
    for name in ("journal", "pages"):
        path = os.path.join(folder, name)
        if os.path.lexists(path) and not os.path.isfile(path):
            found.append(f"{path} is no regular file")
        elif os.path.isfile(path) and not os.access(path, os.R_OK | os.W_OK):
            found.append(f"{path} can't be read and written")
    with contextlib.suppress(OSError):
        if os.path.samefile(os.path.join(folder, "journal"), os.path.join(folder, "pages")):
            found.append("journal and pages are one file")
    with contextlib.suppress(OSError):
        room = os.statvfs(folder)
        if room.f_bavail == 0:
            found.append("the disk is full")
        elif room.f_files and room.f_favail == 0:
            found.append("the disk takes no more files")
        if room.f_flag & os.ST_RDONLY:
            found.append("the file system is read-only")
    return found


def input_found(path, folder, writes):
    """Says what is to be seen of a file that a run couldn't read or write."""
    found = []
    for name in ("journal", "pages"):
        with contextlib.suppress(OSError):
            if os.path.samefile(path, os.path.join(folder, name)):
                found.append(f"{path} is the store's own {name}, which no command reads or writes")
    if not os.path.isdir(folder):
        found.append(f"the store's folder {folder} isn't there any more")
    if os.path.exists(path) and not os.path.isfile(path):
        found.append(f"{path} is no regular file")
    elif os.path.exists(path) and not os.access(path, os.W_OK if writes else os.R_OK):
        found.append(f"{path} can't be {'written' if writes else 'read'}")
    elif writes and not os.path.exists(path) and not os.access(os.path.dirname(path), os.W_OK):
        found.append(f"{os.path.dirname(path)} can't be written")
    with contextlib.suppress(OSError):
        if writes and os.statvfs(os.path.dirname(path)).f_bavail == 0:
            found.append("the disk is full")
    return found


def not_a_store_found(folder):
    journal, pages = os.path.join(folder, "journal"), os.path.join(folder, "pages")
    with contextlib.suppress(OSError):
        if os.path.getsize(pages) and os.path.getsize(journal) < 39:
            return ["pages has bytes, and journal is missing or begun: put both files of a backup back"]
    return ["journal is another program's file"]


# ---- the lock


def holder_of(folder):
    """Says which process has the journal locked, where the system tells."""
    try:
        here = os.stat(os.path.join(folder, "journal"))
        with open("/proc/locks", encoding="ascii") as lines:
            for line in lines:
                parts = line.split()
                if len(parts) < 6 or parts[1] != "FLOCK":
                    continue
                major, minor, inode = parts[5].split(":")
                if int(inode) == here.st_ino and os.makedev(int(major, 16), int(minor, 16)) == here.st_dev:
                    return process_named(parts[4])
    except (OSError, ValueError):
        pass
    return None


def process_named(pid):
    try:
        with open(f"/proc/{pid}/cmdline", "rb") as file:
            words = file.read().rstrip(b"\0").split(b"\0")
        return f"process {pid}, {b' '.join(words).decode(errors='replace')}"
    except OSError:
        return f"process {pid}"


def is_locked(folder):
    """Whether a run has the journal locked, asked by locking it for a moment."""
    try:
        journal = os.open(os.path.join(folder, "journal"), os.O_RDONLY | os.O_NONBLOCK)
    except OSError:
        return False
    try:
        fcntl.flock(journal, fcntl.LOCK_EX | fcntl.LOCK_NB)
        return False
    except OSError as why:
        return why.errno in (errno.EWOULDBLOCK, errno.EACCES)
    finally:
        os.close(journal)


def until(asks, wait, folder):
    """Asks again and again, as long as may be waited, until the answer isn't None."""
    end = time.monotonic() + wait
    while True:
        found = asks()
        if found is not None:
            return found
        if time.monotonic() >= end:
            fault = faults.Busy("another run has the folder", found=[it for it in [holder_of(folder)] if it])
            raise fault
        time.sleep(min(POLL, max(0.0, end - time.monotonic())))


@contextlib.contextmanager
def turn(folder, wait):
    """Waits until no run has the folder. Processes that use this package take turns by a lock on the folder itself, since the journal's
    is the run's own: so none of them finds it taken between the asking and its run."""
    try:
        queue = os.open(folder, os.O_RDONLY | os.O_DIRECTORY)
    except OSError:
        yield
        return

    def ahead():
        try:
            fcntl.flock(queue, fcntl.LOCK_EX | fcntl.LOCK_NB)
        except OSError as why:
            # (a file system without locks has no queue)
            return None if why.errno in (errno.EWOULDBLOCK, errno.EACCES) else True
        return True

    began = time.monotonic()
    try:
        until(ahead, wait, folder)
        until(lambda: None if is_locked(folder) else True, max(0.0, wait - (time.monotonic() - began)), folder)
        yield
    finally:
        os.close(queue)
