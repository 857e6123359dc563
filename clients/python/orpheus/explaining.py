"""What is behind a refusal: the place in the file, the value, the two headers, the usual reason."""

import csv
import difflib
import os
import re

from . import faults, values

USUAL = {
    4: "the pages are full: drop what isn't needed",
    5: "the journal is full: checkpoint makes room",
    11: "drop it first, or take another name",
    15: "a dataset has at most 65,535 versions",
    18: "wait until its migration is done: migrate() takes all steps",
    19: "a version has at most 1,000,000 rows",
    20: "a store has at most 1,024 datasets",
    23: "the store is of format 1, which has no NULL and takes no added columns: checkpoint() makes it one of format 2",
    34: "the file isn't UTF-8: `iconv -f latin1 -t utf-8 old.csv > new.csv` may be what it takes",
    35: "a file has at most 67,108,864 bytes",
    36: "a row has at most 65,536 bytes",
    51: "this program has no such command",
    53: "this program has no such option, or a name or a message is too long",
    64: "each name stands once; a column that a commit added is there in all versions, and isn't added again",
    71: "names that end in .staged, and datasets that begin with orpheus_, are the store's own",
}
FIXES = {
    "flag": "flags are true, t, false and f alone; an empty field is NULL",
    "int": "ints are digits with a sign at most, from -2^63 to 2^63 - 1, without blanks, points or words; an empty field is NULL",
}
MISTAKES = [
    (r"(?i)\bFROM\s+(?!VERSION\b|CVD\b|PARENTS\b|ANCESTORS\b|DESCENDANTS\b)", "a source is `CVD name`, `VERSION 1, 2 OF CVD name` or `ANCESTORS(2) OF CVD name`"),
    (r"(?i)\bVERSION\s+[\d,\s]+(?!\s*OF\b)[a-z_]", "behind the versions comes `OF CVD name`"),
    (r"==", "equality is one `=`"),
    (r"(?i)\bAS\b", "there are no aliases"),
    (r"(?i)\bDISTINCT\b", "there is no DISTINCT: GROUP BY the columns"),
    (r"(?i)\b(LIKE|BETWEEN|OFFSET|AVG|CASE|UNION|EXISTS)\b", "there is none of LIKE, BETWEEN, OFFSET, AVG, CASE, UNION and EXISTS"),
    (r"(?i)\bIN\s*\(", "there is no IN: write `a = 1 OR a = 2`"),
    (r"(?i)[=<>]\s*NULL\b", "NULL is asked for by `IS NULL`"),
    (r"\d\.\d", "numbers are whole"),
    (r"(?i)\b(?!VID\b|NOT\b)\w+\s+IN\s+(PARENTS|ANCESTORS|DESCENDANTS)\b", "only `vid IN` takes a lineage"),
    (r"(?i)\bJOIN\b", "joins are read only by a program that has them"),
    (r"^\s*\"", "the query itself stands in no quotes"),
    (r"(?i)^\s*(?!SELECT\b)", "a query begins with SELECT"),
    (r",\s*(FROM|WHERE|GROUP|ORDER|LIMIT)\b", "a comma is too many"),
]


def of_refusal(why, about):
    """Gives some lines on a refusal."""
    about = about or {}
    if "told" in about:
        return about["told"]
    lines = [str(why)]
    if about.get("done"):
        lines.append(f"the {about['done']} commands before it were done")
    for look in (of_file, of_query, of_names):
        try:
            lines += look(why, about) or []
        except (faults.OrpheusError, OSError, LookupError, ValueError):
            pass
    if why.number in USUAL:
        lines.append(USUAL[why.number])
    return "\n".join(lines)


# ---- files


def numbered(path):
    """Gives the records of a file that aren't empty lines, each with the lines that it stands on; the header is number 0."""
    with open(path, encoding="utf-8-sig", errors="surrogateescape", newline="") as file:
        found = csv.reader(file)
        number, first = -1, 1
        for fields in found:
            if fields:
                number += 1
                yield number, first, found.line_num, fields
            first = found.line_num + 1


def place(first, last):
    return f"line {first}" if first == last else f"lines {first} to {last}"


def printable(text):
    return repr(text.encode("utf-8", "surrogateescape").decode("utf-8", "backslashreplace"))


def row_of(path, wanted):
    for number, first, last, fields in numbered(path):
        if number == wanted:
            return first, last, fields
    raise LookupError(wanted)


def header_of(about, line):
    if about.get("schema"):
        return about["schema"].names
    found = re.match(r'commit "(\w+)"', line)
    if found:
        return about["store"].schema(found[1]).names
    found = re.search(r' -s "([^"]*)"', line)
    return values.Schema(found[1]).names if found else None


def of_file(why, about):
    path = about.get("file")
    if path is None:
        return []
    if why.number == 70:
        return missing(path)
    if why.number == 31:
        return headers(path, header_of(about, why.line))
    if why.number == 35:
        return [f"{path} has {os.path.getsize(path):,} bytes"]
    found = re.match(r"row ([1-9]\d*)", why.text)
    if not found:
        return []
    first, last, fields = row_of(path, int(found[1]))
    lines = [f"{'the rows as CSV' if about.get('gone') else path}, {place(first, last)}: {', '.join(printable(it) for it in fields)}"]
    column = re.search(r"column (\w+):", why.text)
    names = [it for _, _, _, it in [next(numbered(path))]][0]
    if column and column[1] in names:
        value = fields[names.index(column[1])]
        lines.append(f"{column[1]} is {printable(value)}")
        kind = re.search(r"not (\w+)\Z", why.text)
        lines += [FIXES[kind[1]]] if kind and kind[1] in FIXES else []
        lines += ["a key column is never NULL: fill it in, or take another key"] if why.number == 37 else []
    if why.number == 32:
        lines.append(f"the columns are {', '.join(names)}; a text with a comma stands in double quotes, and a quote that isn't closed takes in the lines behind it")
    if why.number == 14:
        lines += earlier(path, int(found[1]), names, about, why.line)
    return lines


def missing(path):
    if os.path.isdir(path):
        return [f"{path} is a folder"]
    if os.path.lexists(path):
        return [f"{path} is a link that leads nowhere" if os.path.islink(path) and not os.path.exists(path) else f"{path} is no regular file"]
    folder = os.path.dirname(path)
    if not os.path.isdir(folder):
        return [f"there is no folder {folder}"]
    near = difflib.get_close_matches(os.path.basename(path), os.listdir(folder), 3)
    return [f"{folder} has {', '.join(near)}" if near else f"{folder} has no file of that name"]


def headers(path, wanted):
    found = next(numbered(path), (0, 1, 1, []))[3]
    lines = [f"the file:   {','.join(found)}"] + ([f"the schema: {','.join(wanted)}"] if wanted else [])
    if wanted and sorted(found) == sorted(wanted):
        lines.append("the columns are in another order")
    elif len(found) == 1 and wanted and len(wanted) > 1:
        lines.append("the fields seem to stand apart by something else than commas")
    elif wanted and [it.strip().lower() for it in found] == [it.lower() for it in wanted]:
        lines.append("blanks or letters differ")
    elif wanted:
        lines += [f"the file lacks {it}" for it in wanted if it not in found] + [f"the schema has no {it}" for it in found if it not in wanted]
    return lines


def earlier(path, wanted, names, about, line):
    said = re.search(r' -k "([^"]*)"', line)
    key = said[1].split(",") if said else about["store"].schema(re.match(r'commit "(\w+)"', line)[1]).key
    at = [names.index(it) for it in key]
    met = {}
    for number, first, last, fields in numbered(path):
        found = tuple(fields[it] for it in at) if len(fields) > max(at) else None
        if number == wanted:
            if found in met:
                return [f"its key {', '.join(found)} stands in row {met[found][0]} already, {place(*met[found][1:])}"]
            return [f"a row before it has the key {', '.join(found)}, written in another way"]
        if number > 0:
            met.setdefault(found, (number, first, last))
    return []


# ---- queries and names


def of_query(why, about):
    text = about.get("query")
    if text is None:
        return []
    found = re.match(r"byte (\d+) ", why.text)
    if why.number == 40 and found:
        before = text.encode()[: int(found[1])].decode("utf-8", "ignore")
        return [text, " " * len(before) + "^ here no word, number, text or sign begins"]
    if why.number == 41:
        return [text] + [says for pattern, says in MISTAKES if re.search(pattern, unquoted(text))]
    if why.number == 42:
        name = why.text[len("no column ") :]
        asked = re.search(r"(?i)\bCVD\s+(\w+)", text)
        lines = [f"the columns are {', '.join(about['store'].schema(asked[1]).names)}"] if asked else []
        return lines + ([f"a text stands in single quotes: '{name}'"] if f'"{name}"' in text else [])
    if why.number == 43:
        return ["ints are compared with ints, texts in single quotes with texts, flags with TRUE and FALSE"]
    if why.number == 44:
        return ["beside COUNT, SUM, MIN and MAX only columns of GROUP BY are selected"]
    return []


def unquoted(text):
    return re.sub(r"'(?:[^']|'')*'", "''", text)


def of_names(why, about):
    store = about.get("store")
    if store is None:
        return []
    if why.number == 10:
        names = [it.name for it in store.ls()]
        near = difflib.get_close_matches(why.text[len("no dataset ") :], names, 3)
        return [f"there is {', '.join(near)}" if near else f"the store has {', '.join(names) or 'no dataset'}"]
    found = re.match(r'\w+ "(\w+)"', why.line) or re.search(r"(?i)\bCVD\s+(\w+)", why.line)
    if why.number == 12 and found:
        return [f"{found[1]} has the versions 1 to {len(store.log(found[1]))}"]
    return []
