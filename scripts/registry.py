"""What users may do, and what the commands on users and staged tables say, by the bytes of a store's two files: a model that was written
from docs/commands.md, with the reader of docs/formats.md (`reader.py`)."""

import re

from hand import STAGE, USERS
from reader import commit_damaged, is_name, rows_of, scan_damaged

USERS_NAME, STAGE_NAME = "orpheus_users", "orpheus_stage"
FOREIGN = "error 76: the registry is foreign"


# ---- the four rules


def denied(user, names=(), nobody=False, file=None, owner=None, makes_user=False):
    """Gives the refusal by the least rule that denies, or None. A command names datasets, of which nobody may do it to the store's own,
    a file of `-f`, and the owner of a staged table; or it makes a user."""
    rules = [
        # Only admin makes users.
        makes_user and user != "admin",
        # Another user's table is neither committed nor taken off.
        owner is not None and owner != user,
        # The file of a staged table isn't reached by its name.
        file is not None and file.endswith(".staged"),
        # The store's own datasets are for admin to look at, and nobody makes, changes, drops or takes one out.
        any(name.startswith("orpheus_") for name in names) and (user != "admin" or nobody),
    ]
    return next((f"error 71: denied by rule {number}" for number, denies in enumerate(rules, 1) if denies), None)


# ---- what a command comes to


class Outcome:
    """A reply; or the pages one of which is named as damaged. A change of the registry has the dataset's name and the rows of its next
    version, and a table that is taken out has a file and its text."""

    def __init__(self, reply=None, damaged=(), change=None, file=None):
        self.reply, self.damaged, self.change, self.file = reply, set(damaged), change, file
        self.refused = bool(reply) and reply.startswith("error")


class End(Exception):
    """The command ends here, with this outcome."""


def off_where(holds, reply):
    if holds:
        raise End(Outcome(reply))


def end_damaged(pages):
    if pages:
        raise End(Outcome(damaged=pages))


def key_of(row, key):
    return [row[place].encode() if isinstance(row[place], str) else row[place] for place in key]


def ordered(rows, schema):
    return sorted(rows, key=lambda row: key_of(row, schema[1]))


def shown(value):
    return "" if value is None else str(value)


def numbers_in(words):
    """Gives the numbers of a list of versions, or None where it is none."""
    if words is None or not re.fullmatch(r"[0-9]{1,18}(,[0-9]{1,18})*", words):
        return None
    return [int(word) for word in words.split(",")]


class Registry:
    """The registry of a store, and what is asked of it by one user. Files that a command may read are told by their rows, or by what is
    off in them."""

    def __init__(self, store, pages, user="admin", files=None):
        self.store, self.pages, self.user, self.files = store, pages, user, files or {}

    def asked(self, command):
        """Gives what a command comes to, which is its name and its words."""
        try:
            return getattr(self, command[0])(*command[1:])
        except End as end:
            return end.args[0]

    # ---- what is there

    def check_own(self, name, schema):
        """Ends where the dataset is there with another schema."""
        cvd = self.store.named(name)
        off_where(cvd is not None and (cvd["schema"][0], cvd["schema"][1]) != schema, FOREIGN)

    def rows(self, name, schema):
        """Gives the last version's rows in the order of their keys, none where there is no dataset."""
        cvd = self.store.named(name)
        if cvd is None:
            return []
        end_damaged(scan_damaged(self.pages, cvd, [len(cvd["versions"])]))
        rows = ordered(rows_of(self.pages, cvd, len(cvd["versions"])).values(), schema)
        keys = [key_of(row, schema[1]) for row in rows]
        if any(one == other for one, other in zip(keys, keys[1:])):
            end_damaged({cvd["versions"][-1]["list"][0]})
        return rows

    def users(self):
        return [name for (name,) in self.rows(USERS_NAME, USERS)]

    def table(self, owner, name):
        return next((row for row in self.rows(STAGE_NAME, STAGE) if row[:2] == (owner, name)), None)

    def check_versions(self, cvd, vids):
        for at, vid in enumerate(vids):
            off_where(not 1 <= vid <= len(cvd["versions"]), f"error 12: no version {vid}")
            off_where(vid in vids[:at], f"error 13: version {vid} is repeated")

    def merge(self, cvd, vids):
        found = {}
        for vid in vids:
            for row in rows_of(self.pages, cvd, vid).values():
                found.setdefault(tuple(key_of(row, cvd["schema"][1])), row)
        return [found[key] for key in sorted(found)]

    def changed(self, name, schema, rows, reply, file=None):
        """Gives what a change to these rows comes to, but for room."""
        cvd, rows = self.store.named(name), ordered(rows, schema)
        if cvd is None:
            off_where(len(self.store.cvds) >= 1024, "error 20: 1024 datasets already")
            off_where(self.store.next == 4294967295, f"error 22: no numbers left for {name}")
        else:
            off_where(len(cvd["versions"]) == 65_535, f"error 15: {name} has 65535 versions")
        null = next((place for place, row in enumerate(rows, 1) if None in row), None)
        off_where(self.store.format == 1 and null is not None, f"error 23: row {null} has NULL in a format 1 store")
        return Outcome(reply, change=(name, rows), file=file)

    # ---- the commands

    def create_user(self, name):
        off_where(self.user != "admin", denied(self.user, makes_user=True))
        off_where(not is_name(name), f"error 63: bad name {name}")
        self.check_own(USERS_NAME, USERS)
        users = self.users()
        off_where(name == "admin" or name in users, f"error 73: user {name} exists")
        return self.changed(USERS_NAME, USERS, [*((one,) for one in users), (name,)], f"user {name}")

    def config(self, name):
        self.check_own(USERS_NAME, USERS)
        off_where(not is_name(name), f"error 72: no user {name}")
        users = self.users()
        off_where(name != "admin" and name not in users, f"error 72: no user {name}")
        return Outcome(f"user {name}")

    def whoami(self):
        return Outcome(self.user)

    def tables(self):
        self.check_own(STAGE_NAME, STAGE)
        own = [row for row in self.rows(STAGE_NAME, STAGE) if row[0] == self.user]
        lines = [f"{owner}.{name}: {shown(cvd)} {shown(vids)}" for owner, name, cvd, _, vids in own]
        return Outcome("\n".join([*lines, f"({len(own)} tables)"]))

    def unstage(self, owner, name):
        off_where(owner != self.user, denied(self.user, owner=owner))
        self.check_own(STAGE_NAME, STAGE)
        off_where(self.table(owner, name) is None, f"error 74: no table {owner}.{name}")
        left = [row for row in self.rows(STAGE_NAME, STAGE) if row[:2] != (owner, name)]
        return self.changed(STAGE_NAME, STAGE, left, f"{owner}.{name}: unstaged")

    def checkout(self, cvd, vids, name):
        off_where(cvd.startswith("orpheus_"), denied(self.user, [cvd], nobody=True))
        off_where(not is_name(name), f"error 63: bad name {name}")
        self.check_own(STAGE_NAME, STAGE)
        off_where(len(vids) > 1000, "error 77: over 1000 versions")
        found = self.store.named(cvd)
        off_where(found is None, f"error 10: no dataset {cvd}")
        self.check_versions(found, vids)
        off_where(self.table(self.user, name) is not None, f"error 75: table {self.user}.{name} is staged")
        end_damaged(scan_damaged(self.pages, found, vids))
        row = (self.user, name, cvd, found["number"], ",".join(map(str, vids)))
        rows = self.merge(found, vids)
        lines = [",".join(name for name, _ in found["schema"][0]), *(",".join(map(shown, one)) for one in rows)]
        file = f"{self.user}.{name}.staged"
        reply = f"{cvd}: {len(rows)} rows to {file}"
        return self.changed(STAGE_NAME, STAGE, [*self.rows(STAGE_NAME, STAGE), row], reply, (file, "".join(f"{line}\n" for line in lines)))

    def commit(self, owner, name):
        off_where(owner != self.user, denied(self.user, owner=owner))
        self.check_own(STAGE_NAME, STAGE)
        gone = f"error 74: no table {owner}.{name}"
        row = self.table(owner, name)
        off_where(row is None, gone)
        _, _, cvd, made, words = row
        found, vids = self.store.named(cvd), numbers_in(words)
        off_where(cvd is None or cvd.startswith("orpheus_") or found is None or found["number"] != made or vids is None, gone)
        self.check_versions(found, vids)
        off_where(len(found["versions"]) == 65_535, f"error 15: {cvd} has 65535 versions")
        file = f"{owner}.{name}.staged"
        rows = self.files.get(file, f"error 70: no file {file}")
        off_where(isinstance(rows, str), rows)
        end_damaged(commit_damaged(self.pages, found, vids[0], rows) if len(vids) == 1 else scan_damaged(self.pages, found, vids))
        had = {row for vid in vids for row in rows_of(self.pages, found, vid).values()}
        fresh = sum(row not in had for row in rows)
        return Outcome(f"{cvd}: version {len(found['versions']) + 1} ({len(rows)} rows, {fresh} new)")


# ---- lines


def quoted(word):
    """Gives a word as a line has it: in quotes, where it isn't plain."""
    if re.fullmatch(r"[^\s\"\\]+", word):
        return word
    return '"' + word.replace("\\", "\\\\").replace('"', '\\"') + '"'


def line_of(command):
    """Gives the line of a command on users or staged tables."""
    asks, *words = command
    if asks == "checkout":
        cvd, vids, name = words
        return f"checkout {quoted(cvd)} -v {','.join(map(str, vids))} -t {quoted(name)}"
    if asks in ("commit", "unstage"):
        table = quoted(".".join(words))
        return f"commit -t {table} -m more" if asks == "commit" else f"unstage {table}"
    return " ".join([asks, *map(quoted, words)])
