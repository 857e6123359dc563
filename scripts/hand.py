"""Stores that are made by hand from docs/formats.md: datasets of any rows, also of such as no command leaves there."""

from stores import FRONT, PAGE, commit, header, record, text, u32

INT, TEXT, FLAG = 1, 2, 3

# The schemas of the store's own two datasets: columns, and the places of the key's.
USERS = ([("name", TEXT)], [0])
STAGE = ([("owner", TEXT), ("name", TEXT), ("cvd", TEXT), ("made", INT), ("vids", TEXT)], [0, 1])


def value_bytes(value):
    if isinstance(value, bool):
        return bytes([value])
    if isinstance(value, int):
        return value.to_bytes(8, "big", signed=True)
    return u32(len(value.encode())) + value.encode()


def row_bytes(row):
    """Gives whether a row is marked, and its bytes. One whose NULLs are its last columns is plain."""
    count = max((place for place, value in enumerate(row, 1) if value is not None), default=0)
    nulls = sum(1 << place for place, value in enumerate(row[:count]) if value is None)
    values = b"".join(value_bytes(value) for value in row if value is not None)
    if not nulls:
        return False, values
    return True, bytes([count]) + nulls.to_bytes(-(-count // 8), "little") + values


def segment_bytes(rids, rows):
    found = b""
    for rid, row in zip(rids, rows):
        marked, spelled = row_bytes(row)
        found += u32(rid, len(spelled) | marked << 31) + spelled
    return found


def list_bytes(rids):
    ranges = []
    for rid in sorted(rids):
        if ranges and rid == sum(ranges[-1]):
            ranges[-1][1] += 1
        else:
            ranges.append([rid, 1])
    return b"".join(u32(*one) for one in ranges)


def schema_bytes(columns, key):
    named = b"".join(text(name) + bytes([kind]) for name, kind in columns)
    return bytes([len(columns)]) + named + bytes([len(key), *key])


class Hand:
    """A store in the making. Its datasets are numbered from 1 on."""

    def __init__(self, number=2):
        self.number, self.events, self.pages, self.count = number, [], b"", 0

    def run(self, found):
        """Puts a run on the next pages, and gives its extent."""
        if not found:
            return 0, 0
        page = len(self.pages) // PAGE
        self.pages += found + bytes(-len(found) % PAGE)
        return page, len(found)

    def dataset(self, name, schema, *versions):
        """Makes a dataset of versions, each of these rows and upon the one before it. A row that the one before has is its record."""
        self.count += 1
        rows = versions[0]
        had = list(zip(range(1, len(rows) + 1), rows))
        runs = *self.run(list_bytes([rid for rid, _ in had])), *self.run(segment_bytes([rid for rid, _ in had], rows))
        self.events.append(b"\x01" + text(name) + schema_bytes(*schema) + u32(len(rows), *runs))
        records = len(rows)
        for vid, rows in enumerate(versions[1:], 2):
            kept, new = [], []
            for row in rows:
                at = next((at for at, (_, one) in enumerate(had) if one == row), None)
                if at is None:
                    new.append(row)
                else:
                    kept.append(had.pop(at))
            fresh = list(zip(range(records + 1, records + 1 + len(new)), new))
            had = kept + fresh
            runs = *self.run(list_bytes([rid for rid, _ in had])), *self.run(segment_bytes([rid for rid, _ in fresh], new))
            parents, counts = [(vid - 1, len(kept))], (len(rows), len(new), len(new))
            self.events.append(commit(vid, parents, counts, runs, cvd=self.count, message="stage"))
            records += len(new)
        return self

    def event(self, payload):
        """Lets this event follow."""
        self.events.append(payload)
        return self

    def files(self):
        """Gives the bytes of the journal and of the pages."""
        events = b"".join(map(record, self.events))
        return header(1, FRONT, self.number) + events + b"\0", self.pages
