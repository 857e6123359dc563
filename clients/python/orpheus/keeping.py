"""What a store's users keep beside it: what a dataset's columns are, tags, copies, and versions as other programs read them."""

import contextlib
import fcntl
import hashlib
import os
import re
import shutil
import tempfile
from collections import namedtuple

from . import faults, program, values
from .words import word

TAGS = "version_tags"
TAGS_SCHEMA = values.Schema("cvd:text,tag:text,version:int", key="cvd,tag")
SUMS = "SHA256SUMS"
Verified = namedtuple("Verified", "datasets versions rows")


# ---- the columns of a dataset


def kind_of(store, cvd, name):
    """Gives the kind of a column, as the program names it where it refuses to compare it with a text and a number. Nothing is read."""
    column = '"' + name + '"'
    try:
        store._tell(f"run SELECT vid FROM VERSION 1 OF CVD {cvd} WHERE {column} = 'x' AND {column} = 1")
    except faults.Refused as why:
        found = re.match(r"comparison \d+ compares (\w+) with (\w+)", why.text)
        if why.number != 43 or not found:
            raise
        return found[1]
    raise AssertionError("a column has two kinds")


def key_of(store, cvd, columns):
    """Gives the key's columns from the left. The program is asked to commit a file whose first row has NULL in all columns that aren't
    known to be of the key, and whose second row has a field too many: so it is refused, by a key column that is NULL or by that."""
    some = {"int": "0", "text": "x", "flag": "true"}
    key = []
    with tempfile.TemporaryDirectory() as folder:
        for _ in range(len(columns) + 1):
            fields = [some[it.kind] if it.name in key else values.field_of(None, it.kind) for it in columns]
            text = values.line_of([it.name for it in columns]) + values.line_of(fields) + values.line_of(["0"] * (len(columns) + 1))
            with open(os.path.join(folder, "key.csv"), "w", encoding="utf-8") as file:
                file.write(text)
            try:
                store._tell(f"commit {word(cvd)} -v 1 -f key.csv -m key", folder)
            except faults.Refused as why:
                found = re.match(r"row 1, column (\w+): the key is NULL\Z", why.text)
                if why.number == 37 and found:
                    key.append(found[1])
                    continue
                if why.number == 32:
                    break
                raise
    return tuple(key)


# ---- tags


def tag_rows(store):
    with contextlib.suppress(faults.Refused):
        last = len(store.log(TAGS))
        return store.checkout(TAGS, last), last
    return None, 0


def tags(store, cvd):
    rows, _ = tag_rows(store)
    return {row["tag"]: row["version"] for row in rows or [] if row["cvd"] == cvd}


def tag(store, cvd, name, vid):
    if vid is not None and not 1 <= vid <= len(store.log(cvd)):
        raise ValueError(f"{cvd} has no version {vid}")
    rows, last = tag_rows(store)
    kept = [row for row in rows or [] if (row["cvd"], row["tag"]) != (cvd, name)]
    if vid is not None:
        kept.append({"cvd": cvd, "tag": name, "version": vid})
    said = f"{cvd} {name} is {vid}" if vid is not None else f"{cvd} {name} is gone"
    if rows is None:
        store.init(TAGS, kept, TAGS_SCHEMA)
    else:
        store.commit(TAGS, kept, last, said.replace("\n", " "))


# ---- copies


def sum_of(path):
    found = hashlib.sha256()
    with open(path, "rb") as file:
        for piece in iter(lambda: file.read(1 << 20), b""):
            found.update(piece)
    return found.hexdigest()


def synced(path):
    file = os.open(path, os.O_RDONLY)
    try:
        os.fsync(file)
    finally:
        os.close(file)


def backup(store, to):
    to = os.path.abspath(os.fspath(to))
    os.makedirs(to, exist_ok=True)
    if os.listdir(to):
        raise faults.OrpheusError(f"{to} has something already")
    sums = {}
    with program.turn(store.folder, store.wait), open(os.path.join(store.folder, "journal"), "rb") as journal:
        try:
            fcntl.flock(journal, fcntl.LOCK_EX | fcntl.LOCK_NB)
        except OSError:
            raise faults.Busy("another run has the folder") from None
        for name in ("pages", "journal"):
            shutil.copyfile(os.path.join(store.folder, name), os.path.join(to, name))
            sums[name] = sum_of(os.path.join(store.folder, name))
    for name in sums:
        synced(os.path.join(to, name))
        if sum_of(os.path.join(to, name)) != sums[name]:
            raise faults.OrpheusError(f"the copy of {name} in {to} isn't what was read")
    with open(os.path.join(to, SUMS), "w", encoding="ascii") as file:
        file.writelines(f"{found}  {name}\n" for name, found in sums.items())
    synced(os.path.join(to, SUMS))
    synced(to)
    synced(os.path.dirname(to))
    return sums


def verify(folder, program=None):
    """Compares a backup with its checksums, checks every version out, and counts the rows. Gives how many there are of each."""
    from .store import Store

    folder = os.path.abspath(os.fspath(folder))
    sums = os.path.join(folder, SUMS)
    if os.path.isfile(sums):
        with open(sums, encoding="ascii") as file:
            for line in file:
                wanted, name = line.split()
                if sum_of(os.path.join(folder, name)) != wanted:
                    raise faults.OrpheusError(f"{name} in {folder} has another checksum than it had")
    # (a copy, since to open a store may begin a journal, and a backup stays as it is)
    with tempfile.TemporaryDirectory() as room:
        copy = os.path.join(room, "store")
        os.mkdir(copy)
        for name in ("pages", "journal"):
            shutil.copyfile(os.path.join(folder, name), os.path.join(copy, name))
        store = Store(copy, program)
        datasets, versions, rows = store.ls(), 0, 0
        for dataset in datasets:
            for version in store.log(dataset.name):
                found = store.checkout(dataset.name, version.vid, to=os.path.join(room, "it.csv"))
                if found.rows != version.rows:
                    raise faults.OrpheusError(f"version {version.vid} of {dataset.name} has {found.rows} rows, and not {version.rows}")
                versions, rows = versions + 1, rows + found.rows
    return Verified(len(datasets), versions, rows)


# ---- for other programs


def export(store, folder, cvd, vids=None, parquet=False):
    folder = os.path.abspath(os.fspath(folder))
    vids = [it.vid for it in store.log(cvd)] if vids is None else store.vids(cvd, vids)
    made = []
    for vid in vids:
        at = os.path.join(folder, f"vid={vid}")
        os.makedirs(at, exist_ok=True)
        path = os.path.join(at, "part.parquet" if parquet else "part.csv")
        if parquet:
            import pyarrow.parquet

            pyarrow.parquet.write_table(store.arrow(cvd, vid), path)
        else:
            store.checkout(cvd, vid, to=path)
        made.append(path)
    return made
