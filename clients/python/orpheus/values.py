"""Schemas, and values as CSV has them."""

import csv
import datetime
import decimal
import operator
import re
from collections import namedtuple

KINDS = ("int", "text", "flag")
NAME = re.compile(r"[A-Za-z_][A-Za-z0-9_]{0,62}\Z")
NULL_LIKE = re.compile(r"\\+N\Z")
WHOLE = re.compile(r"(0|-?[1-9][0-9]*)\Z")
FIELD = re.compile(r'(?:"((?:[^"]|"")*)"|([^",\r\n]*))(,|\r\n|\n|\r|\Z)')
LEAST, MOST = -(1 << 63), (1 << 63) - 1

Column = namedtuple("Column", "name kind")


class Schema:
    """The columns of a dataset with their kinds, and the key's columns."""

    def __init__(self, columns, key=()):
        if isinstance(columns, str):
            columns = [item.partition(":")[::2] for item in columns.split(",")]
        elif isinstance(columns, dict):
            columns = columns.items()
        self.columns = tuple(Column(*it) for it in columns)
        self.key = tuple(key.split(",")) if isinstance(key, str) else tuple(key)

    @property
    def names(self):
        return [it.name for it in self.columns]

    @property
    def kinds(self):
        return {it.name: it.kind for it in self.columns}

    def said(self):
        """Gives the schema as `-s` has it."""
        return ",".join(f"{it.name}:{it.kind}" for it in self.columns)

    def __eq__(self, other):
        return isinstance(other, Schema) and (self.columns, self.key) == (other.columns, other.key)

    def __hash__(self):
        return hash((self.columns, self.key))

    def __str__(self):
        return f"-s {self.said()} -k {','.join(self.key)}"

    def __repr__(self):
        return f"Schema({self.said()!r}, key={','.join(self.key)!r})"


class Scaled:
    """A column of decimals with so many places, kept as whole numbers: `Scaled(2)` keeps 1.25 as 125."""

    def __init__(self, places):
        self.places = places

    def kept(self, value):
        exact = decimal.Context(prec=40, traps=[decimal.Inexact, decimal.InvalidOperation])
        try:
            found = exact.scaleb(decimal.Decimal(value), self.places)
            return int(exact.to_integral_exact(found))
        except decimal.DecimalException:
            raise ValueError(f"{value!r} has more than {self.places} places") from None

    def given(self, value):
        return decimal.Decimal(value).scaleb(-self.places)

    def __repr__(self):
        return f"Scaled({self.places})"


def kept(value, kind):
    """Gives a value as its column keeps it, where the caller mapped the column to a Python type."""
    if kind is datetime.date:
        return value.isoformat() if not isinstance(value, str) else value
    if kind is datetime.datetime:
        return value.isoformat(" ") if not isinstance(value, str) else value
    if isinstance(kind, Scaled):
        return kind.kept(value)
    return value


def given(value, kind):
    """Gives a kept value as the Python type to which the caller mapped the column."""
    if value is None:
        return None
    if kind is datetime.date:
        return datetime.date.fromisoformat(value)
    if kind is datetime.datetime:
        return datetime.datetime.fromisoformat(value)
    if isinstance(kind, Scaled):
        return kind.given(value)
    return value


def is_null(value):
    if value is None or type(value).__name__ in ("NAType", "NaTType"):
        return True
    return isinstance(value, float) and value != value


# ---- one field


def read_field(text, kind):
    """Gives the value that a field spells, as the program writes them."""
    if kind == "text":
        if text == "\\N":
            return None
        return text[1:] if NULL_LIKE.match(text) else text
    if text == "":
        return None
    return int(text) if kind == "int" else text in ("true", "t")


def field_of(value, kind):
    """Gives the field that spells a value."""
    if is_null(value):
        return "\\N" if kind == "text" else ""
    if kind == "text":
        if not isinstance(value, str):
            raise TypeError(f"{value!r} is no text")
        return "\\" + value if NULL_LIKE.match(value) else value
    if kind == "flag":
        if type(value).__name__ not in ("bool", "bool_"):
            raise TypeError(f"{value!r} is no flag")
        return "true" if value else "false"
    if type(value).__name__ in ("bool", "bool_"):
        raise TypeError(f"{value!r} is no int")
    if isinstance(value, (float, decimal.Decimal)) and value == int(value):
        value = int(value)
    number = operator.index(value)
    if not LEAST <= number <= MOST:
        raise ValueError(f"{number} has more than 64 bits")
    return str(number)


# ---- CSV


def quoted(text):
    if any(it in text for it in '",\r\n'):
        return '"' + text.replace('"', '""') + '"'
    return text


def line_of(fields):
    line = ",".join(quoted(it) for it in fields)
    return (line or '""') + "\n"


def records(text):
    """Gives the records of CSV text that the program wrote, each as a list of fields."""
    at, record = 0, []
    while at < len(text):
        found = FIELD.match(text, at)
        if not found:
            raise ValueError(f"no CSV at place {at}")
        inside, plain, end = found.groups()
        record.append(plain if inside is None else inside.replace('""', '"'))
        at = found.end()
        if end != ",":
            yield record
            record = []
        elif at == len(text):
            record.append("")
            yield record


class Rows(list):
    """Rows as dicts from column names to values, with the columns' names."""

    def __init__(self, columns, rows):
        super().__init__(rows)
        self.columns = list(columns)


def rows_of(text, schema, types=None):
    """Gives the rows of a checkout."""
    types, found = types or {}, records(text)
    names = next(found)
    if names != schema.names:
        raise ValueError(f"the dataset has the columns {', '.join(names)} now")
    kinds = [it.kind for it in schema.columns]
    rows = ([given(read_field(field, kind), types.get(name)) for name, field, kind in zip(names, fields, kinds)] for fields in found)
    return Rows(names, (dict(zip(names, row)) for row in rows))


def tuples_of(source, names):
    """Gives rows of any kind that this package takes, as lists in the order of the names."""
    if hasattr(source, "to_pydict"):
        source = source.to_pydict()
        return zip(*(source[name] for name in names))
    if hasattr(source, "columns") and hasattr(source, "iloc"):
        missing = [name for name in names if name not in source.columns]
        extra = [name for name in source.columns if name not in names]
        if missing or extra:
            raise ValueError(f"the frame has the columns {', '.join(map(str, source.columns))}, and the schema {', '.join(names)}")
        return zip(*(source[name].tolist() for name in names))
    return (tuple_of(row, names) for row in source)


def tuple_of(row, names):
    if not isinstance(row, dict):
        row = list(row)
        if len(row) != len(names):
            raise ValueError(f"a row has {len(row)} values, and the schema {len(names)} columns")
        return row
    extra = [name for name in row if name not in names]
    if extra:
        raise ValueError(f"the schema has no column {extra[0]}")
    return [row.get(name) for name in names]


def write_rows(source, schema, types, out):
    """Writes rows as a file that the program reads, and says how many there were."""
    types, count = types or {}, 0
    out.write(line_of(schema.names).encode())
    for count, row in enumerate(tuples_of(source, schema.names), 1):
        fields = []
        for value, (name, kind) in zip(row, schema.columns):
            try:
                fields.append(field_of(None if is_null(value) else kept(value, types.get(name)), kind))
            except (TypeError, ValueError) as why:
                raise type(why)(f"row {count}, column {name}: {why}") from None
        out.write(line_of(fields).encode("utf-8"))
    return count


# ---- a schema that is guessed


def kind_of_fields(fields):
    said = [it for it in fields if it != ""]
    if not said:
        return "text"
    if all(WHOLE.match(it) and LEAST <= int(it) <= MOST for it in said):
        return "int"
    return "flag" if all(it in ("true", "false") for it in said) else "text"


def kind_of_values(name, values, mapped):
    if mapped is not None:
        return "int" if isinstance(mapped, Scaled) else "text"
    kinds = {type(it).__name__ for it in values if not is_null(it)}
    if not kinds or kinds == {"str"}:
        return "text"
    if kinds <= {"bool", "bool_"}:
        return "flag"
    if all(it.startswith(("int", "uint")) for it in kinds) or (kinds <= {"float", "int"} and all(it == int(it) for it in values if not is_null(it))):
        return "int"
    raise TypeError(f"column {name} has {', '.join(sorted(kinds))}: name what it is kept as by types, as {{{name!r}: Scaled(2)}}")


def key_of(columns, rows):
    """Gives the first column that has no NULL and no value twice."""
    for at, column in enumerate(columns):
        found = [row[at] for row in rows]
        if not any(it in ("", "\\N") or is_null(it) for it in found) and len(set(found)) == len(found):
            return (column.name,)
    return ()


def guess(source, types=None):
    """Guesses a schema from a file, or from rows."""
    types = types or {}
    if isinstance(source, str) or hasattr(source, "__fspath__"):
        with open(source, encoding="utf-8-sig", newline="") as file:
            found = [row for row in csv.reader(file) if row]
        if not found:
            raise ValueError(f"{source} is empty, and a schema is guessed from its header")
        names, rows = found[0], found[1:]
        for number, row in enumerate(rows, 1):
            if len(row) != len(names):
                raise ValueError(f"row {number} of {source} has {len(row)} fields, and the header {len(names)}")
        kinds = [kind_of_fields([row[at] for row in rows]) for at in range(len(names))]
    else:
        names, rows = names_and_rows(source)
        kinds = [kind_of_values(name, [row[at] for row in rows], types.get(name)) for at, name in enumerate(names)]
    for name in names:
        if not NAME.match(name) or name.lower() == "vid":
            raise ValueError(f"{name!r} can't name a column: a name is a letter or an underscore, then letters, digits and underscores, and isn't vid")
    columns = [Column(*it) for it in zip(names, kinds)]
    return Schema(columns, key_of(columns, rows))


def names_and_rows(source):
    if hasattr(source, "to_pydict"):
        source = source.to_pydict()
        return list(source), list(zip(*source.values()))
    if hasattr(source, "columns") and hasattr(source, "iloc"):
        names = [str(it) for it in source.columns]
        return names, list(zip(*(source[name].tolist() for name in names)))
    source = list(source)
    if not source or not isinstance(source[0], dict):
        raise ValueError("a schema is guessed from a file, a frame, a table or dicts")
    names = list(dict.fromkeys(name for row in source for name in row))
    return names, [tuple_of(row, names) for row in source]
