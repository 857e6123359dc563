"""What differs between versions, by the key."""

from collections import namedtuple

Change = namedtuple("Change", "key old new")
Conflict = namedtuple("Conflict", "key base one other")


class Diff:
    """Rows that were added, removed and changed, each in the order of the versions' rows."""

    def __init__(self, columns, key, added, removed, changed):
        self.columns, self.key = columns, key
        self.added, self.removed, self.changed = added, removed, changed

    def __bool__(self):
        return bool(self.added or self.removed or self.changed)

    def __repr__(self):
        return f"Diff({len(self.added)} added, {len(self.removed)} removed, {len(self.changed)} changed)"

    def __str__(self):
        lines = [f"+ {said(row)}" for row in self.added] + [f"- {said(row)}" for row in self.removed]
        for change in self.changed:
            names = [name for name in self.columns if change.old[name] != change.new[name]]
            was = ", ".join(f"{name} {said_value(change.old[name])} -> {said_value(change.new[name])}" for name in names)
            lines.append(f"~ {', '.join(said_value(it) for it in change.key)}: {was}")
        return "\n".join(lines)


def said_value(value):
    return "NULL" if value is None else str(value)


def said(row):
    return ", ".join(f"{name} {said_value(value)}" for name, value in row.items())


def by_key(rows, key):
    return {tuple(row[name] for name in key): row for row in rows}


def diff(store, cvd, one, other, types=None):
    key = store.schema(cvd).key
    rows = store.checkout(cvd, one, types=types)
    old, new = by_key(rows, key), by_key(store.checkout(cvd, other, types=types), key)
    added = [row for at, row in new.items() if at not in old]
    removed = [row for at, row in old.items() if at not in new]
    changed = [Change(at, row, new[at]) for at, row in old.items() if at in new and new[at] != row]
    return Diff(rows.columns, key, added, removed, changed)


def conflicts(store, cvd, base, one, other, types=None):
    key = store.schema(cvd).key
    base, one, other = (by_key(store.checkout(cvd, vid, types=types), key) for vid in (base, one, other))
    found = []
    for at in dict.fromkeys([*base, *one, *other]):
        rows = base.get(at), one.get(at), other.get(at)
        if rows[1] != rows[0] and rows[2] != rows[0] and rows[1] != rows[2]:
            found.append(Conflict(at, *rows))
    return found
