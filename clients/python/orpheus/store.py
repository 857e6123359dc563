"""A store, with a method for each command of the program."""

import contextlib
import errno
import fractions
import os
import sys
import tempfile

from . import comparing, faults, keeping, picturing, program, queries, replies, values, words
from .words import word


def shown(schema):
    print(f"orpheus: guessed {schema}", file=sys.stderr)


class File:
    """A file that a command reads, as a name that a line can have, from the folder in which the program is started."""

    def __init__(self, folder, name, path, schema=None, gone=False):
        self.folder, self.name, self.path, self.schema, self.gone = folder, name, path, schema, gone


class Store:
    """The store in a folder. Each method is one run of the program, unless `batch` joins several.

    `program` is the program's path; where none is given, it is looked for. `wait` is for how many seconds a method waits while another
    run has the folder. `user` is who the commands are of. `types` maps columns to Python types, by dataset: `{"people": {"born": date,
    "wage": Scaled(2)}}` keeps dates and times as ISO texts, and decimals as whole numbers of their smallest unit.
    """

    def __init__(self, folder, program=None, wait=0, user=None, types=None):
        self.folder = os.path.abspath(os.fspath(folder))
        self.program = find(program)
        self.wait = wait
        self.user = user
        self.types = dict(types or {})
        self._schemas = {}
        if not os.path.isfile(os.path.join(self.folder, "journal")):
            raise faults.NoStore(f"{folder} has no store: Store.create({str(folder)!r}) makes one, and so does `orpheus-shell {folder} init`")

    @classmethod
    def create(cls, folder, program=None, **others):
        """Makes a store in a new or an empty folder, and gives it."""
        path = os.path.abspath(os.fspath(folder))
        if os.path.isdir(path) and os.listdir(path):
            raise faults.OrpheusError(f"{folder} has something already")
        with globals()["program"].Run(find(program), path) as run:
            run.last("ls")
        return cls(folder, program, **others)

    def __repr__(self):
        return f"Store({self.folder!r})"

    # ---- runs

    @contextlib.contextmanager
    def _run(self, cwd=None):
        """Starts a run when it is this process's turn, as this store's user."""
        with program.turn(self.folder, self.wait), program.Run(self.program, self.folder, cwd) as run:
            if self.user is not None:
                run.ask(f"config {word(self.user, 'user')}")
                run.replies.clear()
            yield run

    def _tell(self, line, cwd=None, about=None):
        """Gives the reply to one line."""
        try:
            with self._run(cwd) as run:
                return run.last(line)
        except faults.Refused as why:
            why._about = {"store": self, **(about or {})}
            raise
        except faults.InputFault as why:
            path = (about or {}).get("path") or (about or {}).get("file")
            found = program.input_found(path, self.folder, writes="path" in (about or {})) if path else []
            raise faults.InputFault(why.said, why.replies, found) from None

    # ---- files

    @contextlib.contextmanager
    def _file(self, source, schema=None, types=None):
        """Gives a source as a file that a line can name: a path as it is, and rows as a new file."""
        with contextlib.ExitStack() as stack:
            if isinstance(source, (str, os.PathLike)):
                path = os.path.abspath(os.fspath(source))
                folder, name = os.path.split(path)
                if "\n" in name or not is_unicode(name) or not os.path.isdir(folder):
                    folder, name = stack.enter_context(tempfile.TemporaryDirectory()), "it.csv"
                    os.symlink(path, os.path.join(folder, name))
                yield File(folder, name, path, schema)
                return
            folder = stack.enter_context(tempfile.TemporaryDirectory())
            path = os.path.join(folder, "rows.csv")
            with open(path, "wb") as out:
                values.write_rows(source, schema, types, out)
            yield File(folder, "rows.csv", path, schema, gone=True)

    def _read(self, line, file):
        """Says a line that reads a file; what it is refused for is told by the file, which may be gone soon."""
        about = {"file": file.path, "schema": file.schema, "store": self, "gone": file.gone}
        try:
            return self._tell(line, file.folder, about)
        except faults.Refused as why:
            if file.gone:
                why._about = {**about, "told": why.explain()}
            raise

    # ---- commands

    def guess(self, source, types=None):
        """Guesses the schema of a file or of rows, and the key: the first column that tells the rows apart."""
        return values.guess(source, types)

    def init(self, cvd, source, schema=None, key=None, types=None, show=shown):
        """Makes a dataset from a file or rows. Where no schema is given, it is guessed, and `show` is called with it before it is used."""
        types = types if types is not None else self.types.get(cvd)
        if types:
            self.types[cvd] = types
        if schema is None:
            schema = values.guess(source, types) if not hasattr(source, "__next__") else None
            if schema is None:
                raise TypeError("a schema is guessed from a file, a frame, a table or a list of dicts")
            schema = values.Schema(schema.columns, key if key is not None else schema.key)
            if not schema.key:
                raise ValueError("no column tells the rows apart: name the key's columns by key=")
            show(schema)
        elif not isinstance(schema, values.Schema):
            schema = values.Schema(schema, key if key is not None else ())
        elif key is not None:
            schema = values.Schema(schema.columns, key)
        self._schemas.pop(cvd, None)
        with self._file(source, schema, types) as file:
            line = f"init {word(cvd, 'dataset')} -s {word(schema.said())} -k {word(','.join(schema.key))} -f {word(file.name, 'file')}"
            made = replies.made(self._read(line, file).rstrip("\n"))
        self._schemas[cvd] = schema
        return made

    def commit(self, cvd, source, parents, message="", add=None, types=None):
        """Makes the next version from a file or rows. `parents` are versions or tags, one or several; `add` are columns that come at the
        right of the schema, as `{"city": "text"}`."""
        with self._commit_file(cvd, source, add, types) as file:
            return replies.made(self._read(self._commit_line(cvd, file, parents, message, add), file).rstrip("\n"))

    def _commit_file(self, cvd, source, add, types):
        types = types if types is not None else self.types.get(cvd)
        schema = None
        if add or not isinstance(source, (str, os.PathLike)):
            schema = self.schema(cvd)
            if add:
                schema = values.Schema([*schema.columns, *values.Schema(add).columns], schema.key)
        return self._file(source, schema, types)

    def _commit_line(self, cvd, file, parents, message, add=None):
        said = f"commit {word(cvd, 'dataset')} -v {words.vids(self.vids(cvd, parents))} -f {word(file.name, 'file')} -m {word(message, 'message')}"
        if add:
            self._schemas.pop(cvd, None)
            said += f" -a {word(values.Schema(add).said())}"
        return said

    def checkout(self, cvd, vids, to=None, types=None):
        """Gives the rows of a version, or of several merged, the first listed one counting; or writes them as CSV to a path."""
        if to is not None:
            path = os.path.abspath(os.fspath(to))
            folder, name = os.path.split(path)
            if not os.path.isdir(folder):
                raise FileNotFoundError(errno.ENOENT, "there is no folder", folder)
            about = {"path": path}
            return replies.written(self._tell(self._checkout_line(cvd, vids, name), folder, about).rstrip("\n"), path)
        with tempfile.TemporaryDirectory() as folder:
            self._tell(self._checkout_line(cvd, vids, "rows.csv"), folder)
            with open(os.path.join(folder, "rows.csv"), encoding="utf-8", newline="") as file:
                text = file.read()
        return self._rows(cvd, text, types)

    def _checkout_line(self, cvd, vids, name):
        return f"checkout {word(cvd, 'dataset')} -v {words.vids(self.vids(cvd, vids))} -f {word(name, 'file')}"

    def _rows(self, cvd, text, types):
        types = types if types is not None else self.types.get(cvd)
        schema = self._schema_of_header(cvd, next(values.records(text)))
        return values.rows_of(text, schema, types)

    def frame(self, cvd, vids, types=None):
        """Gives the rows of a checkout as a DataFrame, where pandas is. NULL is NA."""
        import pandas

        rows = self.checkout(cvd, vids, types=types)
        mapped = types if types is not None else self.types.get(cvd, {})
        made = pandas.DataFrame({name: [row[name] for row in rows] for name in rows.columns}, columns=rows.columns)
        kinds = self.schema(cvd).kinds
        plain = {name: {"int": "Int64", "text": "string", "flag": "boolean"}[kinds[name]] for name in rows.columns if name not in mapped}
        return made.astype(plain)

    def arrow(self, cvd, vids, types=None):
        """Gives the rows of a checkout as an Arrow table, where pyarrow is."""
        import pyarrow

        rows = self.checkout(cvd, vids, types=types)
        mapped = types if types is not None else self.types.get(cvd, {})
        kinds = {"int": pyarrow.int64(), "text": pyarrow.string(), "flag": pyarrow.bool_()}
        schema = self.schema(cvd)
        columns = {name: pyarrow.array([row[name] for row in rows], None if name in mapped else kinds[kind]) for name, kind in schema.columns}
        return pyarrow.table(columns)

    def run(self, query, raw=False):
        """Answers a query. The rows are named by the items that it selects; `raw` leaves their fields as they are printed."""
        text = words.query(query)
        reply = self._tell(f"run {text}", about={"query": text})
        body = reply.rstrip("\n").rsplit("\n", 1)[0] + "\n" if reply.count("\n") > 1 else ""
        found = [fields for fields in values.records(body)]
        columns = None
        asked = None if raw else queries.items_of(text)
        if asked:
            columns = queries.columns_of(asked[0], self.schema(asked[1]))
            if columns and found and len(columns) != len(found[0]):
                columns = None
        if not columns:
            names = [str(at) for at in range(1, len(found[0]) + 1)] if found else []
            return Answer(names, [tuple(fields) for fields in found])
        rows = [tuple(values.read_field(field, kind) for field, (_, kind) in zip(fields, columns)) for fields in found]
        return Answer([name for name, _ in columns], rows)

    def log(self, cvd):
        """Gives the versions of a dataset."""
        return replies.log(self._tell(f"log {word(cvd, 'dataset')}"))

    def ls(self):
        """Gives the datasets."""
        return replies.ls(self._tell("ls"))

    def layout(self, cvd):
        """Gives the partitions of a dataset, the plan that runs, and how many records are stored and read."""
        return replies.layout(self._tell(f"layout {word(cvd, 'dataset')}"))

    def optimize(self, cvd, threshold=None, budget=None):
        """Begins a migration at a threshold, as "1/2" or a Fraction, or at the cheapest one that stores at most the budget; then the
        split has the threshold that was chosen, and as `lines` the hundred that were tried."""
        if (threshold is None) == (budget is None):
            raise TypeError("optimize takes a threshold or a budget")
        self._number_of(cvd)
        option = f"-s {budget}" if threshold is None else f"-d {fraction(threshold)}"
        return replies.split(self._tell(f"optimize {word(cvd, 'dataset')} {option}").rstrip("\n"))

    def _number_of(self, cvd):
        words.sayable(cvd, "dataset")

    def advise(self, cvd, budget, ratio):
        """Says whether an optimize within the budget is worth it, by the ratio of the cost now and then."""
        return replies.advice(self._tell(f"advise {word(cvd, 'dataset')} -s {budget} -m {fraction(ratio)}").rstrip("\n"))

    def migrate(self, steps=None, progress=None, at_once=64):
        """Takes so many steps of the migrations that run, or all. `progress` is called with how many were taken, and how many in all."""
        taken, left = 0, None
        try:
            with self._run() as run:
                while left != 0 and (steps is None or taken < steps):
                    now = at_once if steps is None else min(at_once, steps - taken)
                    reply = replies.steps(run.ask(f"migrate {now}"))
                    taken, left = taken + reply.taken, reply.left
                    if progress:
                        progress(taken, taken + left if steps is None else min(steps, taken + left))
                    if reply.taken < now:
                        break
        except faults.Refused as why:
            why._about = {"store": self}
            raise
        return replies.Steps(taken, left or 0)

    def checkpoint(self):
        """Writes the state as a snapshot, so that opening is quick, and gives the number of datasets."""
        return replies.datasets(self._tell("checkpoint").rstrip("\n"))

    def generate(self, cvd, seed, rows, versions):
        """Makes a dataset of rows that look random, to try things on."""
        return replies.generated(self._tell(f"generate {word(cvd, 'dataset')} {seed} {rows} {versions}").rstrip("\n"))

    def drop(self, cvd):
        """Drops a dataset with all its versions."""
        self._tell(f"drop {word(cvd, 'dataset')}")
        self._schemas.pop(cvd, None)

    # ---- users and staged tables

    def create_user(self, name):
        return replies.user(self._tell(f"create_user {word(name, 'user')}").rstrip("\n"))

    def whoami(self):
        return self._tell("whoami").rstrip("\n")

    def stage(self, cvd, vids, table, folder="."):
        """Stages a checkout as a table of the user, and gives where its file is."""
        folder = os.path.abspath(folder)
        reply = self._tell(f"checkout {word(cvd, 'dataset')} -v {words.vids(self.vids(cvd, vids))} -t {word(table, 'table')}", folder).rstrip("\n")
        name = replies.matched(r"\w+: \d+ rows to (.*)", reply)[0]
        return replies.written(reply, os.path.join(folder, name))

    def commit_staged(self, table, message="", folder="."):
        """Commits a staged table, named `user.table`, from its file in the folder."""
        return replies.made(self._tell(f"commit -t {word(table, 'table')} -m {word(message, 'message')}", os.path.abspath(folder)).rstrip("\n"))

    def unstage(self, table):
        self._tell(f"unstage {word(table, 'table')}")

    def tables(self):
        """Gives the user's staged tables."""
        return replies.tables(self._tell("tables"))

    # ---- several commands in one run

    @contextlib.contextmanager
    def batch(self, progress=None):
        """Joins `init`, `commit`, `checkout` to a path, `drop`, `checkpoint`, `optimize`, `generate` into one run, which begins at the end of
        the `with` block. Each gives something whose `result` is there afterwards. The first refused one ends the run: what stood before
        it was done, and what stands behind it wasn't."""
        with contextlib.ExitStack() as files:
            batch = Batch(self, files)
            yield batch
            batch.run(progress)

    # ---- what the program leaves to its users

    def vids(self, cvd, asked):
        """Gives version numbers: of one, of several, or of tags."""
        listed = [asked] if isinstance(asked, (int, str)) else list(asked)
        tags = self.tags(cvd) if any(isinstance(it, str) for it in listed) else {}
        for it in listed:
            if isinstance(it, str) and it not in tags:
                raise KeyError(f"{cvd} has no version tagged {it!r}")
        return [tags[it] if isinstance(it, str) else int(it) for it in listed]

    def schema(self, cvd):
        """Gives the columns of a dataset with their kinds, and its key. The program has no command for it, so it is asked what it refuses:
        a comparison of a column with both a text and a number names its kind, and a file whose key is NULL names the key."""
        if cvd not in self._schemas:
            with tempfile.TemporaryDirectory() as folder:
                self._tell(f"checkout {word(cvd, 'dataset')} -v 1 -f names.csv", folder)
                with open(os.path.join(folder, "names.csv"), encoding="utf-8") as file:
                    names = file.readline().rstrip("\n").split(",")
            self._schema_of_header(cvd, names)
        return self._schemas[cvd]

    def _schema_of_header(self, cvd, names):
        known = self._schemas.get(cvd)
        if known is None or known.names != names:
            columns = [values.Column(name, keeping.kind_of(self, cvd, name)) for name in names]
            self._schemas[cvd] = values.Schema(columns, keeping.key_of(self, cvd, columns))
        return self._schemas[cvd]

    def diff(self, cvd, one, other, types=None):
        """Gives the rows that are added, removed and changed from one version to another, told apart by the key."""
        return comparing.diff(self, cvd, one, other, types)

    def merge_conflicts(self, cvd, base, one, other, types=None):
        """Gives the keys whose rows two versions changed in different ways since a third one."""
        return comparing.conflicts(self, cvd, base, one, other, types)

    def tags(self, cvd):
        """Gives the tags of a dataset's versions. They are rows of the dataset `version_tags`, since the store has no tags."""
        return keeping.tags(self, cvd)

    def tag(self, cvd, name, vid):
        """Names a version. A tag of that name moves to it."""
        keeping.tag(self, cvd, name, vid)

    def untag(self, cvd, name):
        keeping.tag(self, cvd, name, None)

    def backup(self, to):
        """Copies the store to a new folder while no run has it, with checksums, and gives these."""
        return keeping.backup(self, to)

    def export(self, folder, cvd, vids=None, parquet=False):
        """Writes each version to `vid=N/part.csv`, or to Parquet where pyarrow is: one partitioned table for Spark, Trino or DuckDB."""
        return keeping.export(self, folder, cvd, vids, parquet)

    def history(self, cvd):
        """Gives a picture of the versions of a dataset and of who made them from whom."""
        return picturing.history(cvd, self.log(cvd), self.layout(cvd))

    def choices(self, cvd, split):
        """Draws what an optimize within a budget chose from: the records that each threshold stores, and those that checkouts read."""
        if not split.lines:
            raise TypeError("choices takes the split of an optimize within a budget")
        return picturing.choices(cvd, split)

    def storage(self, cvd):
        """Gives a picture of what the partitions store and what checkouts read."""
        return picturing.storage(cvd, self.layout(cvd), self.log(cvd))


def find(path):
    return program.find(path)


def is_unicode(text):
    try:
        text.encode("utf-8")
        return True
    except UnicodeEncodeError:
        return False


def fraction(asked):
    """Gives a threshold or a ratio as p/q."""
    if isinstance(asked, str):
        return asked
    found = fractions.Fraction(asked).limit_denominator(1_000_000)
    return f"{found.numerator}/{found.denominator}"


class Answer(list):
    """The rows of an answer as tuples, with the columns' names."""

    def __init__(self, columns, rows):
        super().__init__(rows)
        self.columns = columns

    def dicts(self):
        return [dict(zip(self.columns, row)) for row in self]

    def frame(self):
        import pandas

        return pandas.DataFrame(self.dicts(), columns=self.columns)


class Pending:
    """What a command of a batch comes to. `result` is there when the batch has run."""

    def __init__(self, line, parse, about):
        self.line, self.parse, self.about = line, parse, about
        self.result = None


class Batch:
    """Commands that are to be one run."""

    def __init__(self, store, files):
        self.store = store
        self.files = files
        self.pending = []
        self.asked = None

    def _add(self, line, parse, **about):
        self.pending.append(Pending(line, parse, {"store": self.store, **about}))
        return self.pending[-1]

    def init(self, cvd, source, schema, key=None):
        schema = values.Schema(schema.columns if isinstance(schema, values.Schema) else schema, key if key is not None else schema.key)
        file = self.files.enter_context(self.store._file(source, schema, self.store.types.get(cvd)))
        path = word(os.path.join(file.folder, file.name), "file")
        self.store._schemas[cvd] = schema
        line = f"init {word(cvd, 'dataset')} -s {word(schema.said())} -k {word(','.join(schema.key))} -f {path}"
        return self._add(line, replies.made, file=file.path, schema=schema)

    def commit(self, cvd, source, parents, message="", add=None, types=None):
        file = self.files.enter_context(self.store._commit_file(cvd, source, add, types))
        file.name = os.path.join(file.folder, file.name)
        line = self.store._commit_line(cvd, file, parents, message, add)
        if add:
            # (the next commits of this run are of the wider schema)
            self.store._schemas[cvd] = file.schema
        return self._add(line, replies.made, file=file.path, schema=file.schema)

    def checkout(self, cvd, vids, to):
        path = os.path.abspath(os.fspath(to))
        return self._add(self.store._checkout_line(cvd, vids, path), lambda text: replies.written(text, path), path=path)

    def drop(self, cvd):
        self.store._schemas.pop(cvd, None)
        return self._add(f"drop {word(cvd, 'dataset')}", lambda text: None)

    def checkpoint(self):
        return self._add("checkpoint", replies.datasets)

    def optimize(self, cvd, threshold):
        return self._add(f"optimize {word(cvd, 'dataset')} -d {fraction(threshold)}", replies.split)

    def generate(self, cvd, seed, rows, versions):
        return self._add(f"generate {word(cvd, 'dataset')} {seed} {rows} {versions}", replies.generated)

    def run(self, progress=None):
        try:
            with self.store._run() as run:
                for number, it in enumerate(self.pending, 1):
                    self.asked = it
                    it.result = it.parse(run.ask(it.line))
                    if progress:
                        progress(number, len(self.pending))
        except faults.Refused as why:
            # (told when the run has ended, since to tell it may take runs of its own, and before the files of rows go; columns of
            # commits that weren't reached aren't there)
            self.store._schemas.clear()
            why._about = {"done": self.pending.index(self.asked), **self.asked.about}
            why._about = {**why._about, "told": why.explain()}
            raise
