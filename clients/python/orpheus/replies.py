"""What the program replies, as values."""

import re
from collections import namedtuple

Made = namedtuple("Made", "cvd vid rows new")
Written = namedtuple("Written", "cvd rows path")
Version = namedtuple("Version", "vid rows new parents message")
Listed = namedtuple("Listed", "name versions records")
Partition = namedtuple("Partition", "id records versions")
Plan = namedtuple("Plan", "p q target targets copied of steps")
Layout = namedtuple("Layout", "partitions plan stored cost")
Split = namedtuple("Split", "depth partitions stored records members cost steps chosen lines", defaults=(None, ()))
Threshold = namedtuple("Threshold", "p depth partitions stored cost")
Steps = namedtuple("Steps", "taken left")
Generated = namedtuple("Generated", "cvd versions records members")
Advice = namedtuple("Advice", "cost best optimize")
Staged = namedtuple("Staged", "table cvd vids")


def matched(pattern, text):
    found = re.match(pattern + r"\Z", text, re.S)
    if not found:
        raise ValueError(f"no reply of this kind: {text!r}")
    return found.groups()


def numbers(text):
    return tuple(int(it) for it in text.split(",") if it)


def lines(text):
    return text.split("\n")[:-1] if text.endswith("\n") else text.split("\n")


def made(text):
    cvd, vid, rows, _, new = matched(r"(.*): version (\d+) \((\d+) rows(, (\d+) new)?\)", text)
    return Made(cvd, int(vid), int(rows), int(rows if new is None else new))


def written(text, path):
    cvd, rows = matched(r"(\w+): (\d+) rows to .*", text)
    return Written(cvd, int(rows), path)


def log(text):
    found = []
    for line in lines(text):
        vid, rows, new, parents, message = matched(r"version (\d+): (\d+) rows, (\d+) new, parents (none|[\d,]+), (.*)", line)
        found.append(Version(int(vid), int(rows), int(new), () if parents == "none" else numbers(parents), message))
    return found


def ls(text):
    found = []
    for line in lines(text)[:-1]:
        name, versions, records = matched(r"(\w+): (\d+) versions, (\d+) records", line)
        found.append(Listed(name, int(versions), int(records)))
    return found


def layout(text):
    partitions, plan = [], None
    *parts, last = lines(text)
    for line in parts:
        if line.startswith("plan "):
            plan = Plan(*map(int, matched(r"plan (\d+)/(\d+): target (\d+) of (\d+), copied (\d+) of (\d+), steps (\d+)", line)))
        else:
            number, records, versions = matched(r"partition (\d+): records (\d+), versions ([\d,]*)", line)
            partitions.append(Partition(int(number), int(records), numbers(versions)))
    return Layout(partitions, plan, *map(int, matched(r"stored (\d+), cost (\d+)", last)))


SPLIT = r"depth (\d+), partitions (\d+), stored (\d+), records (\d+), members (\d+), cost (\d+), steps (\d+)"


THRESHOLD = r"p (\d+): depth (\d+), partitions (\d+), stored (\d+), cost (\d+)"


def split(text):
    *tried, last = lines(text)
    chosen = matched(r"chosen (\d+/\d+)", tried.pop())[0] if tried else None
    table = tuple(Threshold(*map(int, matched(THRESHOLD, line))) for line in tried)
    return Split(*map(int, matched(SPLIT, last)), chosen, table)


def steps(text):
    return Steps(*map(int, matched(r"steps (\d+) left (\d+)", text)))


def generated(text):
    cvd, *counts = matched(r"(\w+): (\d+) versions, (\d+) records, (\d+) members", text)
    return Generated(cvd, *map(int, counts))


def advice(text):
    cost, best, word = matched(r"cost (\d+), best (\d+): (optimize|keep)", text)
    return Advice(int(cost), int(best), word == "optimize")


def datasets(text):
    return int(matched(r"checkpoint: (\d+) datasets", text)[0])


def user(text):
    return matched(r"user (.*)", text)[0]


def tables(text):
    found = []
    for line in lines(text)[:-1]:
        table, cvd, vids = matched(r"(\S+): (\S*) ([\d,]*)", line)
        found.append(Staged(table, cvd, numbers(vids)))
    return found
