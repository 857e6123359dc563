"""A reader of a store's two files, written from docs/formats.md alone: what opening finds, and which pages are damaged for what reads
versions. The numbers of each record, list and segment are kept with their places, so that others can be put there."""

from split import split_of

PAGE = 4096
LAST_PAGE = 1 << 22
MOST = 1 << 28
FRONT = 38
MOST_RECORDS = 1 << 31
MOST_ROWS = 1_000_000
LETTERS = "abcdefghijklmnopqrstuvwxyz_"


class Off(Exception):
    """The bytes spell nothing."""


class Damaged(Exception):
    """Opening finds an area damaged at a place."""


class Numbers:
    """Bytes that are read from the left. The places of their numbers, and how many bytes each has, are kept."""

    def __init__(self, found, at=0, end=None):
        self.found, self.at, self.end = found, at, len(found) if end is None else end
        self.places = []

    def take(self, count):
        self.at += count
        if self.at > self.end:
            raise Off
        return self.found[self.at - count : self.at]

    def number(self, size):
        self.places.append((self.at, size))
        return int.from_bytes(self.take(size), "big")

    def u8(self):
        return self.number(1)

    def u16(self):
        return self.number(2)

    def u32(self):
        return self.number(4)

    def one_of(self, *known):
        found = self.u8()
        if found not in known:
            raise Off
        return found

    def text(self):
        try:
            return self.take(self.u32()).decode()
        except UnicodeDecodeError:
            raise Off from None

    def extent(self):
        return self.u32(), self.u32()

    def many(self, count, item):
        return [item() for _ in range(count)]

    def counted(self, item):
        return self.many(self.u32(), item)

    def column(self):
        return self.text(), self.one_of(1, 2, 3)

    def schema(self):
        columns = self.many(self.u8(), self.column)
        return columns, self.many(self.u8(), self.u8)

    def edges(self):
        return self.many(self.u16(), lambda: (self.u32(), self.u32()))

    def target(self):
        return {"size": self.u32(), "source": self.u32(), "kept": self.counted(self.u32), "kept_records": self.u32()}


# ---- events


def init_of(at):
    return {"tag": 1, "name": at.text(), "schema": at.schema(), "rows": at.u32(), "list": at.extent(), "segment": at.extent()}


def commit_of(at, wide):
    event = {"tag": 9 if wide else 2, "cvd": at.u32(), "vid": at.u32(), "message": at.text()}
    event["columns"] = at.many(at.u8(), at.column) if wide else None
    event.update(parents=at.edges(), rows=at.u32(), fresh=at.u32())
    event["part"] = at.u32() if at.one_of(0, 1) else 0
    event.update(added=at.u32(), list=at.extent(), segment=at.extent())
    return event


def plan_of(at):
    return {"tag": 3, "cvd": at.u32(), "p": at.u32(), "q": at.u32(), "targets": at.counted(at.target)}


def version_of(at):
    return {"parents": at.edges(), "message": at.text(), "rows": at.u32(), "fresh": at.u32(), "list": at.extent()}


def part_of(at):
    return {"id": at.u32(), "versions": at.counted(at.u32), "holds": at.counted(at.u32), "records": at.u32(), "segments": at.counted(at.extent)}


def whole_target_of(at):
    versions = at.counted(at.u32)
    return {"versions": versions, **at.target()}


def whole_of(at):
    event = {"tag": 8, "number": at.u32(), "name": at.text(), "schema": at.schema(), "records": at.u32()}
    event.update(p=at.u32(), q=at.u32(), next=at.u32())
    event["versions"] = at.counted(lambda: version_of(at))
    event["parts"] = at.counted(lambda: part_of(at))
    event["plan"] = None
    if at.one_of(0, 1):
        event["plan"] = {"at": at.u32(), "copied": at.u32()}
        event["plan"].update(targets=at.counted(lambda: whole_target_of(at)), segments=at.counted(at.extent))
    return event


SPELLED = {
    1: init_of,
    2: lambda at: commit_of(at, False),
    3: plan_of,
    4: lambda at: {"tag": 4, "cvd": at.u32(), "count": at.u32(), "segment": at.extent()},
    5: lambda at: {"tag": 5, "cvd": at.u32()},
    6: lambda at: {"tag": 6, "cvd": at.u32()},
    7: lambda at: {"tag": 7, "next": at.u32()},
    8: whole_of,
    9: lambda at: commit_of(at, True),
}


def event_of(at):
    """Gives the event that bytes spell."""
    event = SPELLED[at.one_of(*SPELLED)](at)
    if at.at != at.end:
        raise Off
    return event


# ---- what events ask


def is_name(name, column=False):
    plain = name.lower()
    begins = plain[:1] in LETTERS and plain[:1] != ""
    return begins and len(name) <= 63 and name.isascii() and all(c in LETTERS or c.isdigit() for c in plain) and not (column and plain == "vid")


def is_schema(columns, key):
    names = [name for name, _ in columns]
    known = 1 <= len(names) <= 64 and len(set(names)) == len(names) and all(is_name(name, True) for name in names)
    return known and key != [] and len(set(key)) == len(key) and all(place < len(names) for place in key)


def is_extent(extent):
    page, length = extent
    return page + pages_of(length) <= LAST_PAGE and (length > 0 or page == 0)


def pages_of(length):
    return -(-length // PAGE)


def is_list(extent, rows):
    return extent[1] % 8 == 0 and extent[1] <= 8 * rows and (extent[1] == 0) == (rows == 0) and is_extent(extent)


def is_segment(extent, records):
    return (extent[1] == 0) == (records == 0) and is_extent(extent)


def are_parents(parents, rows, versions):
    known = [parent for parent, _ in parents]
    there = parents != [] and len(set(known)) == len(known) and all(1 <= parent <= len(versions) for parent in known)
    return there and all(weight <= min(rows, versions[parent - 1]["rows"]) for parent, weight in parents)


def ascends(numbers):
    return all(one < other for one, other in zip(numbers, numbers[1:]))


def tree_parent(parents):
    """Gives the tree parent and the tree weight."""
    return max(parents, key=lambda edge: edge[1], default=(0, 0))


def nodes_of(versions):
    return [(version["rows"], *tree_parent(version["parents"])) for version in versions]


def stored_in(cvd):
    return sum(part["records"] for part in cvd["parts"]) + (cvd["plan"]["copied"] if cvd["plan"] else 0)


def part_serving(cvd, vid):
    return next(part for part in cvd["parts"] if vid in part["versions"])


def place_of(cvd, parents):
    """Gives the number of the partition that a version joins, or 0 where it gets its own."""
    parent, weight = tree_parent(parents)
    if cvd["plan"] and any(parent in target["versions"] for target in cvd["plan"]["targets"][cvd["plan"]["at"] :]):
        return 0
    if cvd["q"] and cvd["q"] * weight <= cvd["p"] * cvd["records"] and stored_in(cvd) < 2 * cvd["records"]:
        return 0
    return part_serving(cvd, parent)["id"]


def is_target(target, waiting, cvd, later):
    """Whether the source of a target that has these versions fits, where later targets have those."""
    kept = target["kept"]
    if target["source"] == 0:
        return kept == [] and target["kept_records"] == 0
    part = next((part for part in cvd["parts"] if part["id"] == target["source"]), None)
    empties = part is not None and set(part["versions"]) & set(waiting) and not set(part["versions"]) & set(later)
    positions = part is not None and ascends(kept) and all(place < len(part["segments"]) for place in kept)
    return bool(empties and positions and (kept != []) == (target["kept_records"] > 0) and target["kept_records"] <= target["size"])


def later_than(targets, at):
    return [vid for target in targets[at + 1 :] for vid in target["versions"]]


# ---- the store that events make


class Store:
    """What the events of a journal make."""

    def __init__(self, number):
        self.format, self.cvds, self.next = number, [], 1
        self.count, self.last, self.in_snapshot = 0, 0, False

    def cvd(self, number):
        return next((cvd for cvd in self.cvds if cvd["number"] == number), None)

    def named(self, name):
        return next((cvd for cvd in self.cvds if cvd["name"] == name), None)

    def apply(self, event):
        """Lets an event follow, or says that it doesn't."""
        kinds = {1: self.init, 2: self.commit, 3: self.plan, 4: self.copy, 5: self.flip, 6: self.drop, 7: self.base, 8: self.whole, 9: self.commit}
        applies = kinds[event["tag"]](event)
        self.in_snapshot = event["tag"] in (7, 8)
        self.count += 1
        return applies

    def is_new_name(self, name):
        return is_name(name) and self.named(name) is None and len(self.cvds) < 1024

    def init(self, event):
        rows = event["rows"]
        applies = self.next < 4294967295 and self.is_new_name(event["name"]) and is_schema(*event["schema"]) and rows <= MOST_ROWS
        if not (applies and is_list(event["list"], rows) and is_segment(event["segment"], rows)):
            return False
        version = {"parents": [], "rows": rows, "fresh": rows, "list": event["list"], "upto": rows}
        segments = [event["segment"]] if rows else []
        part = {"id": 1, "versions": [1], "holds": [1], "records": rows, "segments": segments}
        cvd = {"number": self.next, "name": event["name"], "schema": event["schema"], "records": rows, "p": 0, "q": 0, "next": 2}
        self.cvds.append({**cvd, "versions": [version], "parts": [part], "plan": None})
        self.next += 1
        return True

    def widens(self, cvd, columns):
        return self.format == 2 and columns != [] and is_schema(cvd["schema"][0] + columns, cvd["schema"][1])

    def commit(self, event):
        cvd, rows, fresh, added = self.cvd(event["cvd"]), event["rows"], event["fresh"], event["added"]
        if cvd is None or event["vid"] != len(cvd["versions"]) + 1 or event["vid"] > 65_535 or len(event["message"].encode()) > 1024:
            return False
        if event["columns"] is not None and not self.widens(cvd, event["columns"]) or not are_parents(event["parents"], rows, cvd["versions"]):
            return False
        records = cvd["records"] + fresh
        if rows > MOST_ROWS or fresh > rows or rows > records or records > MOST_RECORDS or event["part"] != place_of(cvd, event["parents"]):
            return False
        part = next((part for part in cvd["parts"] if part["id"] == event["part"]), None)
        fits = added == rows if part is None else fresh <= added <= rows and part["records"] + added <= records
        if not (fits and is_list(event["list"], rows) and is_segment(event["segment"], added)):
            return False
        if event["columns"] is not None:
            cvd["schema"] = (cvd["schema"][0] + event["columns"], cvd["schema"][1])
        cvd["versions"].append({"parents": event["parents"], "rows": rows, "fresh": fresh, "list": event["list"], "upto": records})
        cvd["records"] = records
        if part is None:
            part = {"id": cvd["next"], "versions": [], "holds": [], "records": 0, "segments": []}
            cvd["parts"].append(part)
            cvd["next"] += 1
        part["versions"].append(event["vid"])
        part["holds"].append(event["vid"])
        part["records"] += added
        part["segments"] += [event["segment"]] if added else []
        return True

    def plan(self, event):
        cvd, p, q, targets = self.cvd(event["cvd"]), event["p"], event["q"], event["targets"]
        if cvd is None or cvd["plan"] or not 1 <= p <= q <= 1_000_000 or cvd["next"] > 4_294_000_000:
            return False
        parts, _ = split_of(nodes_of(cvd["versions"]), p, q)
        if len(parts) != len(targets):
            return False
        for target, part in zip(targets, parts):
            target["versions"] = part
        for at, target in enumerate(targets):
            sizes = all(cvd["versions"][vid - 1]["rows"] <= target["size"] for vid in target["versions"]) and target["size"] <= cvd["records"]
            if not (sizes and is_target(target, target["versions"], cvd, later_than(targets, at))):
                return False
        cvd.update(p=p, q=q, plan={"targets": targets, "at": 0, "copied": 0, "segments": []})
        return True

    def running(self, event):
        cvd = self.cvd(event["cvd"])
        return (cvd, cvd["plan"]) if cvd and cvd["plan"] else (None, None)

    def copy(self, event):
        _, plan = self.running(event)
        if plan is None:
            return False
        target = plan["targets"][plan["at"]]
        left = target["size"] - target["kept_records"] - plan["copied"]
        if not (event["count"] >= 1 and event["count"] == min(256, left) and is_segment(event["segment"], 1)):
            return False
        plan["copied"] += event["count"]
        plan["segments"].append(event["segment"])
        return True

    def flip(self, event):
        cvd, plan = self.running(event)
        if plan is None:
            return False
        target = plan["targets"][plan["at"]]
        if target["size"] != target["kept_records"] + plan["copied"]:
            return False
        source = next((part for part in cvd["parts"] if part["id"] == target["source"]), None)
        segments = [source["segments"][place] for place in target["kept"]] + plan["segments"]
        for part in cvd["parts"]:
            part["versions"] = [vid for vid in part["versions"] if vid not in target["versions"]]
        cvd["parts"] = [part for part in cvd["parts"] if part["versions"]]
        new = {"id": cvd["next"], "versions": target["versions"], "holds": list(target["versions"]), "records": target["size"]}
        cvd["parts"].append({**new, "segments": segments})
        cvd["next"] += 1
        plan.update(at=plan["at"] + 1, copied=0, segments=[])
        if plan["at"] == len(plan["targets"]):
            cvd["plan"] = None
        return True

    def drop(self, event):
        cvd = self.cvd(event["cvd"])
        if cvd is None:
            return False
        self.cvds.remove(cvd)
        return True

    def base(self, event):
        if self.count or event["next"] < 1:
            return False
        self.next = event["next"]
        return True

    def whole(self, event):
        if not (self.in_snapshot and self.last < event["number"] < self.next and self.is_new_name(event["name"]) and is_schema(*event["schema"])):
            return False
        records = 0
        for at, version in enumerate(event["versions"]):
            records += version["fresh"]
            rows = version["rows"]
            known = version["parents"] == [] if at == 0 else are_parents(version["parents"], rows, event["versions"][:at])
            if not (known and len(version["message"].encode()) <= 1024 and rows <= min(MOST_ROWS, records) and version["fresh"] <= rows):
                return False
            version["upto"] = records
        if not (1 <= len(event["versions"]) <= 65_535 and records == event["records"] <= MOST_RECORDS):
            return False
        if not (are_parts(event) and is_plan(event) and are_whole_extents(event)):
            return False
        self.last = event["number"]
        self.cvds.append(event)
        return True


def are_parts(event):
    """Whether a snapshot's partitions serve each version once."""
    parts, count = event["parts"], len(event["versions"])
    left = len(event["plan"]["targets"]) - event["plan"]["at"] if event["plan"] else 0
    each = all(
        part["versions"] and ascends(part["versions"]) and ascends(part["holds"]) and set(part["versions"]) <= set(part["holds"])
        and 1 <= part["holds"][0] and part["holds"][-1] <= count and part["records"] <= event["records"]
        for part in parts
    )
    numbers = [part["id"] for part in parts]
    served = sorted(vid for part in parts for vid in part["versions"])
    numbered = ascends([0, *numbers, event["next"]]) and event["next"] + left + 65_535 - count < 1 << 32
    return each and numbered and served == list(range(1, count + 1))


def is_plan(event):
    """Whether a snapshot's threshold and plan are sound."""
    p, q, plan = event["p"], event["q"], event["plan"]
    ranged = 1 <= p <= q <= 1_000_000
    if plan is None:
        return ranged or p == q == 0
    targets, at, count = plan["targets"], plan["at"], len(event["versions"])
    if not (ranged and at < len(targets) and plan["copied"] + targets[at]["kept_records"] <= targets[at]["size"]):
        return False
    listed = [vid for target in targets for vid in target["versions"]]
    there = len(set(listed)) == len(listed) and all(1 <= vid <= count for vid in listed)
    if not (there and all(target["versions"] and ascends(target["versions"]) and target["size"] <= event["records"] for target in targets)):
        return False
    waiting = {vid for target in targets[at:] for vid in target["versions"]}
    sources = {part["id"]: part["versions"] for part in event["parts"]}
    fit = all(is_target(target, target["versions"], event, later_than(targets, place)) for place, target in enumerate(targets) if place >= at)
    return fit and all(set(sources.get(target["source"], [])) <= waiting for target in targets[at:])


def are_whole_extents(event):
    plan = event["plan"]
    lists = all(is_list(version["list"], version["rows"]) for version in event["versions"])
    segments = all(segment[1] > 0 and is_extent(segment) for part in event["parts"] for segment in part["segments"])
    some = all((part["segments"] != []) == (part["records"] > 0) for part in event["parts"])
    copied = plan is None or (plan["segments"] != []) == (plan["copied"] > 0) and all(one[1] > 0 and is_extent(one) for one in plan["segments"])
    return lists and segments and some and copied


# ---- opening


def slots_of(journal):
    """Gives the place, the gate, the epoch, the start and the format number of both slots."""
    return [(at, journal[at], *(int.from_bytes(journal[at + by : at + by + 4], "big") for by in (1, 5, 9))) for at in (12, 25)]


def extents_of(store):
    """Gives the live extents that have bytes."""
    for cvd in store.cvds:
        yield from (version["list"] for version in cvd["versions"] if version["list"][1])
        yield from (segment for part in cvd["parts"] for segment in part["segments"])
        yield from cvd["plan"]["segments"] if cvd["plan"] else []


def check_pages(store, length):
    """Looks for the least page that two live extents share, and then for the least one that isn't there whole."""
    last, twice, missing = 0, [], []
    for page, count in sorted(extents_of(store)):
        if page < last:
            twice.append(page)
        last = max(last, page + pages_of(count))
        if (page + pages_of(count)) * PAGE > length:
            missing.append(max(page, length // PAGE))
    for found in (twice, missing):
        if found:
            raise Damaged("pages", min(found))


def records_in(journal, start):
    """Gives the gate and the payload of each record of the live half. All of them are framed before one is read."""
    found, at, end = [], start, min(len(journal), MOST)
    while journal[at] == 0xA5:
        length = int.from_bytes(journal[at + 1 : at + 5], "big")
        if at + 5 + length >= end:
            raise Damaged("journal", at)
        found.append((at, at + 5, at + 5 + length))
        at += 5 + length
    return found


def opened(journal, pages):
    """Gives the store of a journal that was made, and the places of its numbers with how many bytes each has."""
    place, _, _, start, number = max((slot for slot in slots_of(journal) if slot[1] == 0xA5), key=lambda slot: slot[2])
    if not FRONT <= start < min(len(journal), MOST):
        raise Damaged("journal", place)
    store, places = Store(number), []
    for gate, begin, end in records_in(journal, start):
        at = Numbers(journal, begin, end)
        places.append((gate + 1, 4))
        try:
            applies = store.apply(event_of(at))
        except Off:
            applies = False
        if not applies:
            raise Damaged("journal", gate)
        places += at.places
    check_pages(store, len(pages))
    return store, places


# ---- lists, segments and rows


def run_of(pages, extent):
    return Numbers(pages, extent[0] * PAGE, extent[0] * PAGE + extent[1])


def list_at(pages, extent, places=None):
    """Gives the rids of a list."""
    at, rids, last = run_of(pages, extent), [], -1
    while at.at < at.end:
        first, count = at.u32(), at.u32()
        if not (count >= 1 and first >= max(1, last + 2) and first + count - 1 <= MOST_RECORDS) or len(rids) + count > MOST_ROWS:
            raise Off
        last = first + count - 1
        rids += range(first, last + 1)
    if places is not None:
        places += at.places
    return rids


def value_at(at, kind):
    if kind == 1:
        return int.from_bytes(at.take(8), "big", signed=True)
    return at.text() if kind == 2 else bool(at.one_of(0, 1))


def row_at(at, columns, marked):
    """Gives the values of a row, NULL being None."""
    nulls = [False] * len(columns)
    if marked:
        count = at.u8()
        bits = int.from_bytes(at.take(-(-count // 8)), "little")
        nulls = [bits >> place & 1 == 1 for place in range(count)] + [True] * (len(columns) - count)
        # Such a row is spelled so only where some column is NULL before one that isn't, which is the last of those that are told.
        if not 1 <= count <= len(columns) or nulls[count - 1] or not any(nulls[:count]) or bits >> count:
            raise Off
    row = []
    for (_, kind), null in zip(columns, nulls):
        if null or not marked and at.at == at.end:
            row.append(None)
        else:
            row.append(value_at(at, kind))
    if at.at != at.end:
        raise Off
    return tuple(row)


def segment_at(pages, extent, cvd, places=None):
    """Gives the rids and rows of a segment."""
    columns, key = cvd["schema"]
    at, found = run_of(pages, extent), []
    while at.at < at.end:
        rid, length = at.u32(), at.u32()
        marked, length = length >> 31, length & (MOST_RECORDS - 1)
        if not (found[-1][0] if found else 0) < rid <= MOST_RECORDS or length > 65_536:
            raise Off
        begin = at.at
        at.take(length)
        inner = Numbers(pages, begin, at.at)
        row = row_at(inner, columns, marked)
        if any(row[place] is None for place in key):
            raise Off
        at.places += inner.places
        found.append((rid, row))
    if places is not None:
        places += at.places
    return found


# ---- what is damaged for what reads


def list_of(pages, cvd, vid):
    """Gives a version's rids, or None where its list is off or doesn't agree with its numbers."""
    version = cvd["versions"][vid - 1]
    try:
        rids = list_at(pages, version["list"])
    except Off:
        return None
    return rids if len(rids) == version["rows"] and (not rids or rids[-1] <= version["upto"]) else None


def segments_of(pages, cvd, part):
    """Gives what each of a partition's segments has, None where it is off."""
    found = []
    for segment in part["segments"]:
        try:
            found.append(segment_at(pages, segment, cvd))
        except Off:
            found.append(None)
    return found


def rows_of(pages, cvd, vid):
    """Gives the rows of a version by their rids, which a sound scan finds."""
    had = {}
    for found in segments_of(pages, cvd, part_serving(cvd, vid)):
        for rid, row in found:
            had.setdefault(rid, row)
    return {rid: had[rid] for rid in list_of(pages, cvd, vid)}


def lists_damaged(pages, cvd, vids):
    """Gives the pages of the lists of these versions that are damaged."""
    return {cvd["versions"][vid - 1]["list"][0] for vid in vids if list_of(pages, cvd, vid) is None}


def scan_damaged(pages, cvd, vids):
    """Gives the pages one of which a scan of these versions names, none where it finds no damage."""
    found = lists_damaged(pages, cvd, vids)
    for part in (part for part in cvd["parts"] if set(part["versions"]) & set(vids)):
        read = segments_of(pages, cvd, part)
        off = {segment[0] for segment, had in zip(part["segments"], read) if had is None}
        there = {rid for had in read if had is not None for rid, _ in had}
        for vid in set(part["versions"]) & set(vids) if not off else []:
            rids = list_of(pages, cvd, vid)
            if rids is not None and not there.issuperset(rids):
                found.add(cvd["versions"][vid - 1]["list"][0])
        found |= off
    return found


def parts_damaged(pages, cvd, parts):
    """Gives the first pages of those of these partitions that don't bear out the numbers, and of segments that are off."""
    found = set()
    for part in parts:
        read = segments_of(pages, cvd, part)
        off = {segment[0] for segment, had in zip(part["segments"], read) if had is None}
        rids = [rid for had in read if had is not None for rid, _ in had]
        agrees = len(set(rids)) == len(rids) == part["records"] and max(rids, default=0) <= cvd["records"]
        found |= off or (set() if agrees else {part["segments"][0][0]})
    return found


def commit_damaged(pages, cvd, vid, rows):
    """Gives the pages one of which a commit of these rows upon a version names."""
    found = scan_damaged(pages, cvd, [vid])
    if found:
        return found
    shared = len(set(rows).intersection(rows_of(pages, cvd, vid).values()))
    part = place_of(cvd, [(vid, shared)])
    return parts_damaged(pages, cvd, [one for one in cvd["parts"] if one["id"] == part])


def plan_damaged(pages, cvd):
    """Gives the pages one of which a plan that begins names."""
    return lists_damaged(pages, cvd, range(1, len(cvd["versions"]) + 1)) | parts_damaged(pages, cvd, cvd["parts"])


def step_damaged(pages, cvd):
    """Gives the pages one of which the next step of a dataset's plan names. A record that it copies is looked for in one segment of its
    version's partition after another."""
    plan = cvd["plan"]
    target = plan["targets"][plan["at"]]
    found = lists_damaged(pages, cvd, target["versions"])
    if found:
        return found
    listed = {vid: list_of(pages, cvd, vid) for vid in target["versions"]}
    rids = {rid for vid in listed for rid in listed[vid]}
    source = next((part for part in cvd["parts"] if part["id"] == target["source"]), {"segments": []})
    kept = {"segments": [source["segments"][place] for place in target["kept"]]}
    read = segments_of(pages, cvd, kept)
    off = {segment[0] for segment, had in zip(kept["segments"], read) if had is None}
    has = [rid for had in read if had is not None for rid, _ in had]
    agrees = len(rids) == target["size"] and rids.issuperset(has) and len(set(has)) == len(has) == target["kept_records"]
    if off or not agrees:
        return off or {cvd["versions"][target["versions"][0] - 1]["list"][0]}
    wanted = sorted(rids.difference(has))[plan["copied"] :][:256]
    for vid in target["versions"]:
        found |= copy_damaged(pages, cvd, vid, {rid for rid in listed[vid] if rid in wanted})
    return found


def copy_damaged(pages, cvd, vid, wanted):
    """Gives the page that is named where these records of a version aren't found in its partition, if there is one."""
    part = part_serving(cvd, vid)
    for segment, had in zip(part["segments"], segments_of(pages, cvd, part)):
        if wanted and had is None:
            return {segment[0]}
        wanted = wanted.difference(rid for rid, _ in had or [])
    return {cvd["versions"][vid - 1]["list"][0]} if wanted else set()
