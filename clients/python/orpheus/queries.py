"""The columns of a query's answer, by the items that it selects."""

import re

TOKEN = re.compile(r"""\s*(?:([A-Za-z_][A-Za-z0-9_]*)|"((?:[^"]|"")*)"|(.))""", re.S)


def tokens(text):
    at = 0
    while at < len(text):
        found = TOKEN.match(text, at)
        if not found:
            return
        at = found.end()
        word, name, sign = found.groups()
        yield ("word", word) if word is not None else ("name", name.replace('""', '"')) if name is not None else ("sign", sign)


def items_of(text):
    """Gives the selected items and the dataset, or None where this isn't a query over one dataset."""
    found = list(tokens(text))
    if not found or found[0][1].upper() != "SELECT":
        return None
    items, item, at = [], [], 1
    while at < len(found) and not (found[at][0] == "word" and found[at][1].upper() == "FROM"):
        if found[at] == ("sign", ","):
            items.append(item)
            item = []
        else:
            item.append(found[at])
        at += 1
    items.append(item)
    for here in range(at, len(found) - 1):
        if found[here] == ("word", found[here][1]) and found[here][1].upper() == "CVD":
            return items, found[here + 1][1]
    return None


def columns_of(items, schema):
    """Gives the name and the kind of each column of an answer, or None where an item isn't understood."""
    found = []
    for item in items:
        texts = [text for _, text in item]
        if texts == ["*"]:
            found += [tuple(it) for it in schema.columns]
        elif len(item) == 1 and item[0][0] != "sign":
            name = texts[0]
            is_vid = item[0][0] == "word" and name.upper() == "VID"
            kind = "int" if is_vid else schema.kinds.get(name)
            if kind is None:
                return None
            found.append((name, kind))
        elif len(item) == 4 and texts[1] == "(" and texts[3] == ")":
            call = texts[0].upper()
            kind = schema.kinds.get(texts[2]) if call in ("MIN", "MAX") else "int"
            if kind is None and call in ("MIN", "MAX") and texts[2].upper() == "VID":
                kind = "int"
            if kind is None:
                return None
            found.append((f"{call}({texts[2]})", kind))
        else:
            return None
    return found
