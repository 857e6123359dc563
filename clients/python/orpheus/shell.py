"""orpheus-shell: commands on a store, one by one at a prompt or in the call's words.

    orpheus-shell FOLDER                       a prompt
    orpheus-shell FOLDER COMMAND [WORD ..]     one command; see `orpheus-shell FOLDER help`
    orpheus-shell --completion bash|zsh        what a shell reads to complete these words

Options: --json and --csv print results for other programs; --wait SECONDS waits while another run has the store; --program PATH names
the program; --yes makes what isn't there without asking.
"""

import argparse
import csv
import glob
import io
import json
import os
import shlex
import shutil
import subprocess
import sys

from . import faults, keeping, replies
from .store import Store

EXITS = {faults.Refused: 1, faults.NoStore: 6, faults.NoProgram: 3}


class Usage(Exception):
    """The words of a command are off."""


# ---- what commands give


class Table:
    """Rows to be shown, with the columns' names."""

    def __init__(self, columns, rows):
        self.columns, self.rows = list(columns), [list(row) for row in rows]


def table_of(tuples, kind):
    return Table(kind._fields, tuples)


def cell(value):
    if value is None:
        return "NULL"
    if isinstance(value, (tuple, list)):
        return ",".join(map(str, value)) or "none"
    return {True: "true", False: "false"}.get(value, str(value)) if isinstance(value, bool) else str(value)


def plain(text):
    """Gives a text as a terminal may have it: control characters as they are written in Python."""
    return "".join(it if it.isprintable() else repr(it)[1:-1] for it in text)


def as_text(table):
    rows = [[plain(cell(it)) for it in row] for row in table.rows]
    widths = [max(map(len, column)) for column in zip(table.columns, *rows)]
    right = [bool(table.rows) and all(isinstance(row[at], int) or row[at] is None for row in table.rows) for at in range(len(widths))]

    def line(cells):
        return "  ".join(it.rjust(wide) if at_right else it.ljust(wide) for it, wide, at_right in zip(cells, widths, right)).rstrip()

    return "\n".join([line(table.columns), line(["-" * it for it in widths]), *map(line, rows), f"({len(rows)} rows)"])


def as_csv(table):
    out = io.StringIO()
    made = csv.writer(out, lineterminator="\n")
    made.writerow(table.columns)
    made.writerows([["" if it is None else cell(it) for it in row] for row in table.rows])
    return out.getvalue().rstrip("\n")


def as_json(found):
    if isinstance(found, Table):
        return json.dumps([dict(zip(found.columns, row)) for row in found.rows], ensure_ascii=False, default=str)
    return json.dumps(found, ensure_ascii=False, default=str)


# ---- commands


def taken(words, least, most, form):
    if not least <= len(words) <= most:
        raise Usage(form)
    return words


def options(words, names):
    """Takes `-x VALUE` out of a command's words, and gives both."""
    plain_words, found, at = [], {}, 0
    while at < len(words):
        if words[at] in names:
            if at + 1 == len(words):
                raise Usage(f"{words[at]} has a value")
            found[words[at]] = words[at + 1]
            at += 2
        else:
            plain_words.append(words[at])
            at += 1
    return plain_words, found


def vids(text):
    return [int(it) if it.isdigit() else it for it in text.split(",")]


def vid(text):
    return vids(text)[0]


class Shell:
    """The commands over one store."""

    def __init__(self, folder, program=None, wait=0, yes=False, form="text"):
        self.folder, self.program, self.wait, self.yes, self.form = folder, program, wait, yes, form
        self.kept = None
        self.asks = sys.stdin.isatty()

    @property
    def store(self):
        if self.kept is None:
            if not os.path.isfile(os.path.join(self.folder, "journal")) and self.may(f"{self.folder} has no store: make one?"):
                self.kept = Store.create(self.folder, self.program, wait=self.wait)
            else:
                self.kept = Store(self.folder, self.program, wait=self.wait)
        return self.kept

    def may(self, question):
        if self.yes:
            return True
        return self.asks and input(f"{question} [y/n] ").strip().lower() in ("y", "yes")

    def show(self, schema):
        print(f"guessed {schema}", file=sys.stderr)

    def bar(self, done, of):
        if sys.stderr.isatty():
            wide = 30 * done // max(of, 1)
            print(f"\r[{'#' * wide}{'.' * (30 - wide)}] {done} of {of}", end="\n" if done >= of else "", file=sys.stderr, flush=True)

    # Each command is a method `do_NAME`, whose doc is its form and what it does.

    def do_init(self, words):
        """init DATASET FILE [-s SCHEMA] [-k KEY]: makes a dataset; the schema is guessed where none is given, and shown"""
        words, given = options(words, ("-s", "-k", "-f"))
        words += [given["-f"]] if "-f" in given else []
        cvd, path = taken(words, 2, 2, self.do_init.__doc__)
        return self.store.init(cvd, path, given.get("-s"), given.get("-k"), show=self.show)

    def do_commit(self, words):
        """commit DATASET FILE.. -v PARENTS -m MESSAGE [-a COLUMNS]: makes the next version, or of several files one after another"""
        words, given = options(words, ("-v", "-m", "-f", "-a"))
        words += [given["-f"]] if "-f" in given else []
        if len(words) < 2 or "-v" not in given:
            raise Usage(self.do_commit.__doc__)
        cvd, *files = words
        if len(files) == 1:
            return self.store.commit(cvd, files[0], vids(given["-v"]), given.get("-m", ""), add=given.get("-a"))
        parents = self.store.vids(cvd, vids(given["-v"]))
        following = len(self.store.log(cvd)) + 1
        with self.store.batch(progress=self.bar) as batch:
            made = []
            for at, path in enumerate(files):
                made.append(batch.commit(cvd, path, parents, given.get("-m", os.path.basename(path)), add=None if at else given.get("-a")))
                parents = [following + at]
        return table_of([it.result for it in made], replies.Made)

    def do_checkout(self, words):
        """checkout DATASET VERSIONS [FILE]: shows the merge of the versions, or puts it into the file"""
        words, given = options(words, ("-v", "-f"))
        cvd, *rest = words or [""]
        rest = ([given["-v"]] if "-v" in given else []) + rest + ([given["-f"]] if "-f" in given else [])
        taken([cvd, *rest], 2, 3, self.do_checkout.__doc__)
        if len(rest) == 2:
            return self.store.checkout(cvd, vids(rest[0]), to=rest[1])
        rows = self.store.checkout(cvd, vids(rest[0]))
        return Table(rows.columns, [row.values() for row in rows])

    def do_run(self, words, text=None):
        """run QUERY: answers a query, as SELECT name FROM VERSION 2 OF CVD people WHERE score > 20"""
        found = self.store.run(text if text is not None else " ".join(words))
        return Table(found.columns, found)

    def do_log(self, words):
        """log DATASET: the versions"""
        return table_of(self.store.log(*taken(words, 1, 1, self.do_log.__doc__)), replies.Version)

    def do_ls(self, words):
        """ls: the datasets"""
        taken(words, 0, 0, self.do_ls.__doc__)
        return table_of(self.store.ls(), replies.Listed)

    def do_schema(self, words):
        """schema DATASET: its columns, kinds and key"""
        found = self.store.schema(*taken(words, 1, 1, self.do_schema.__doc__))
        return Table(["column", "kind", "key"], [(it.name, it.kind, it.name in found.key) for it in found.columns])

    def do_diff(self, words):
        """diff DATASET A B: rows added, removed and changed from version A to B"""
        cvd, one, other = taken(words, 3, 3, self.do_diff.__doc__)
        found = self.store.diff(cvd, vid(one), vid(other))
        if self.form == "text":
            return str(found) or "no row differs"
        rows = [("added", None, row) for row in found.added] + [("removed", row, None) for row in found.removed]
        return Table(["what", "old", "new"], [*rows, *(("changed", it.old, it.new) for it in found.changed)])

    def do_conflicts(self, words):
        """conflicts DATASET BASE A B: keys that A and B changed in different ways since BASE"""
        cvd, *three = taken(words, 4, 4, self.do_conflicts.__doc__)
        return Table(["key", "base", "one", "other"], self.store.merge_conflicts(cvd, *map(vid, three)))

    def do_tag(self, words):
        """tag DATASET [NAME VERSION]: names a version, or shows the names"""
        taken(words, 1, 3, self.do_tag.__doc__)
        if len(words) == 3:
            self.store.tag(words[0], words[1], self.store.vids(words[0], vids(words[2]))[0])
        return Table(["tag", "version"], sorted(self.store.tags(words[0]).items()))

    def do_layout(self, words):
        """layout DATASET: partitions, the plan that runs, what is stored and read"""
        found = self.store.layout(*taken(words, 1, 1, self.do_layout.__doc__))
        if self.form == "text":
            parts = as_text(table_of(found.partitions, replies.Partition))
            plan = f"\nplan {found.plan.p}/{found.plan.q}: {found.plan.steps} steps left" if found.plan else ""
            return f"{parts}{plan}\nstored {found.stored}, cost {found.cost}"
        return {"partitions": [it._asdict() for it in found.partitions], "plan": found.plan and found.plan._asdict(), "stored": found.stored, "cost": found.cost}

    def do_optimize(self, words):
        """optimize DATASET P/Q | optimize DATASET -s RECORDS: begins a migration to the partitions at the threshold, or within a budget"""
        words, given = options(words, ("-d", "-s"))
        budget = int(given.pop("-s")) if "-s" in given else None
        cvd, *threshold = taken(words + list(given.values()), 1 if budget is not None else 2, 2, self.do_optimize.__doc__)
        return self.store.optimize(cvd, *threshold, budget=budget)._replace(lines=None)

    def do_advise(self, words):
        """advise DATASET -s RECORDS [-m A/B]: whether a migration within a budget is worth it, where checkouts read A/B as much now"""
        words, given = options(words, ("-s", "-m"))
        if "-s" not in given:
            raise Usage(self.do_advise.__doc__)
        return self.store.advise(*taken(words, 1, 1, self.do_advise.__doc__), int(given["-s"]), given.get("-m", "3/2"))

    def do_migrate(self, words):
        """migrate [STEPS]: takes so many steps of the migrations that run, or all"""
        taken(words, 0, 1, self.do_migrate.__doc__)
        return self.store.migrate(int(words[0]) if words else None, progress=self.bar)

    def do_checkpoint(self, words):
        """checkpoint: writes a snapshot, so that opening is quick"""
        taken(words, 0, 0, self.do_checkpoint.__doc__)
        return f"{self.store.checkpoint()} datasets"

    def do_generate(self, words):
        """generate DATASET SEED ROWS VERSIONS: makes a dataset to try things on"""
        return self.store.generate(*taken(words, 4, 4, self.do_generate.__doc__))

    def do_drop(self, words):
        """drop DATASET: drops it with all its versions"""
        (cvd,) = taken(words, 1, 1, self.do_drop.__doc__)
        if not self.yes and self.asks and not self.may(f"drop {cvd} with all its versions?"):
            return "nothing was dropped"
        self.store.drop(cvd)
        return f"{cvd}: dropped"

    def do_history(self, words):
        """history DATASET [svg|dot]: a picture of the versions"""
        return self.picture(words, "history")

    def do_storage(self, words):
        """storage DATASET [svg|dot]: a picture of what is stored and read"""
        return self.picture(words, "storage")

    def picture(self, words, what):
        cvd, kind = (taken(words, 1, 2, f"{what} DATASET [svg|dot]") + ["svg"])[:2]
        if kind not in ("svg", "dot"):
            raise Usage(f"{what} DATASET [svg|dot]")
        return getattr(getattr(self.store, what)(cvd), kind).rstrip("\n")

    def do_backup(self, words):
        """backup FOLDER: copies the store there, with checksums"""
        (to,) = taken(words, 1, 1, self.do_backup.__doc__)
        self.store.backup(to)
        return f"{to} has a copy"

    def do_verify(self, words):
        """verify [FOLDER]: checks a backup's checksums and checks every version out"""
        (folder,) = taken(words, 0, 1, self.do_verify.__doc__) or [self.folder]
        return keeping.verify(folder, self.program)

    def do_export(self, words):
        """export DATASET FOLDER [VERSIONS] [parquet]: writes vid=N/part.csv for other programs"""
        parquet = "parquet" in words[2:]
        cvd, folder, *listed = taken([it for it in words if it != "parquet"], 2, 3, self.do_export.__doc__)
        made = self.store.export(folder, cvd, vids(listed[0]) if listed else None, parquet)
        return Table(["path"], [(it,) for it in made])

    def do_help(self, words):
        """help [COMMAND]: what there is"""
        if words:
            return command(self, words[0]).__doc__
        return "\n".join(command(self, name).__doc__ for name in commands())


def commands():
    return [name[3:] for name in vars(Shell) if name.startswith("do_")]


def command(shell, name):
    found = getattr(shell, f"do_{name}", None)
    if found is None:
        raise Usage(f"there is no command {name}; there is {', '.join(commands())}")
    return found


def said(found, form):
    """Gives what a command came to, as text."""
    if form == "json":
        return as_json(found._asdict() if hasattr(found, "_asdict") else found)
    if isinstance(found, Table):
        return as_csv(found) if form == "csv" else as_text(found)
    if hasattr(found, "_asdict"):
        one = Table(found._fields, [found])
        return as_csv(one) if form == "csv" else ", ".join(f"{name} {cell(it)}" for name, it in found._asdict().items() if it is not None)
    return str(found)


# ---- one command, and the prompt


def serve(shell, line=None, words=None):
    """Serves one command, and gives the exit that it stands for."""
    try:
        if words is None:
            first = line.split(None, 1)
            if first[0] == "run":
                found = shell.do_run([], first[1] if len(first) == 2 else "")
            else:
                words = shlex.split(line)
                found = command(shell, words[0])(words[1:])
        else:
            found = command(shell, words[0])(words[1:])
        show(said(found, shell.form))
        return 0
    except faults.Refused as why:
        print(why.explain(), file=sys.stderr)
        return 1
    except faults.Ended as why:
        print(why.explain(), file=sys.stderr)
        return why.exit or 3
    except Usage as why:
        print(why, file=sys.stderr)
        return 2
    except (faults.OrpheusError, OSError, ValueError, KeyError, TypeError, ImportError) as why:
        print(f"{type(why).__name__}: {why}" if not isinstance(why, faults.OrpheusError) else why, file=sys.stderr)
        return EXITS.get(type(why), 4 if isinstance(why, OSError) else 2)


def show(text):
    """Prints a text; where it is longer than the terminal, through a pager."""
    lines = shutil.get_terminal_size().lines
    pager = os.environ.get("PAGER") or ("less" if shutil.which("less") else "")
    if pager and sys.stdout.isatty() and sys.stdin.isatty() and text.count("\n") >= lines:
        try:
            subprocess.run([*shlex.split(pager), *(["-S", "-F"] if pager == "less" else [])], input=text.encode(), check=False)
            return
        except OSError:
            pass
    print(text)


class Completer:
    """Completes commands, datasets, columns and files."""

    def __init__(self, shell):
        self.shell, self.found = shell, []

    def names(self, line, begun):
        if " " not in line.lstrip()[: len(line.lstrip()) - len(begun)]:
            return commands()
        datasets = []
        columns = []
        try:
            datasets = [it.name for it in self.shell.store.ls()]
            columns = [name for it in datasets if it in line for name in self.shell.store.schema(it).names]
        except (faults.OrpheusError, ValueError):
            pass
        files = [it + "/" if os.path.isdir(it) else it for it in glob.glob(glob.escape(begun) + "*")]
        return datasets + columns + files + (["SELECT", "FROM", "VERSION", "CVD", "WHERE", "GROUP", "BY", "ORDER", "LIMIT"] if line.startswith("run") else [])

    def __call__(self, begun, state):
        import readline

        if state == 0:
            listed = self.names(readline.get_line_buffer()[: readline.get_endidx()], begun)
            self.found = sorted({it for it in listed if it.startswith(begun)})
        return self.found[state] if state < len(self.found) else None


def with_history(shell):
    """Reads the prompt's history, where there is a place for it; and gives where it is to be kept."""
    try:
        import readline
    except ImportError:
        return None
    readline.set_completer(Completer(shell))
    readline.set_completer_delims(" \t\n,")
    readline.parse_and_bind("tab: complete")
    path = os.path.join(os.environ.get("XDG_STATE_HOME") or os.path.expanduser("~/.local/state"), "orpheus-history")
    try:
        readline.read_history_file(path)
    except OSError:
        pass
    return path


def keep_history(path):
    try:
        import readline

        os.makedirs(os.path.dirname(path), exist_ok=True)
        readline.write_history_file(path)
    except (ImportError, OSError):
        pass


def prompt(shell):
    path = with_history(shell)
    print("help tells the commands; an end of input leaves", file=sys.stderr)
    while True:
        try:
            line = input("orpheus> ").strip()
        except EOFError:
            print()
            break
        except KeyboardInterrupt:
            print()
            continue
        if line in ("exit", "quit"):
            break
        if line:
            try:
                serve(shell, line)
            except KeyboardInterrupt:
                print("interrupted: `log` tells what was done", file=sys.stderr)
    if path:
        keep_history(path)
    return 0


BASH = """_orpheus_shell() {
    local here=${COMP_WORDS[COMP_CWORD]}
    case $COMP_CWORD in
    1) COMPREPLY=($(compgen -d -- "$here")) ;;
    2) COMPREPLY=($(compgen -W "%s" -- "$here")) ;;
    *) COMPREPLY=($(compgen -f -W "$(orpheus-shell --csv "${COMP_WORDS[1]}" ls 2>/dev/null | sed '1d;s/,.*//')" -- "$here")) ;;
    esac
}
complete -o filenames -F _orpheus_shell orpheus-shell"""
ZSH = """#compdef orpheus-shell
_orpheus_shell() {
    case $CURRENT in
    2) _files -/ ;;
    3) compadd %s ;;
    *) compadd $(orpheus-shell --csv "$words[2]" ls 2>/dev/null | sed '1d;s/,.*//'); _files ;;
    esac
}
compdef _orpheus_shell orpheus-shell"""


def arguments():
    made = argparse.ArgumentParser("orpheus-shell", description=__doc__, formatter_class=argparse.RawDescriptionHelpFormatter)
    made.add_argument("--json", action="store_true", help="print results as JSON")
    made.add_argument("--csv", action="store_true", help="print results as CSV")
    made.add_argument("--wait", type=float, default=0, metavar="SECONDS")
    made.add_argument("--program", metavar="PATH")
    made.add_argument("--yes", action="store_true")
    made.add_argument("--completion", choices=("bash", "zsh"))
    made.add_argument("folder", nargs="?")
    made.add_argument("command", nargs=argparse.REMAINDER)
    return made


def main(words=None):
    asked = arguments().parse_args(words)
    if asked.completion:
        print((BASH if asked.completion == "bash" else ZSH) % " ".join(commands()))
        return 0
    if asked.folder is None:
        arguments().print_usage(sys.stderr)
        return 2
    form = "json" if asked.json else "csv" if asked.csv else "text"
    # A command in the call's words is meant: `init` makes the store that it needs.
    shell = Shell(asked.folder, asked.program, asked.wait, asked.yes or asked.command[:1] in (["init"], ["generate"]), form)
    if asked.command:
        return serve(shell, words=asked.command)
    if not sys.stdin.isatty():
        status = 0
        for line in sys.stdin:
            if line.strip() and not line.lstrip().startswith("#"):
                status = max(status, serve(shell, line.strip()))
        return status
    return prompt(shell)
