"""Tables that are there, compared with the snapshot of a unit: both as rows in the order of their keys, of which one is held at a time."""

import contextlib
import itertools
import os
import re
import sys
from decimal import Decimal

from .held import SOURCES
from .run import Program, Words, details_in, schema_path
from .schema import Unreadable, read_schema
from .server import Failed, Missing, end_by_signals
from .stream import ABSENT, canonical, checked, ended, in_order_of_keys, key_of, lines_of, values_of, written

USAGE = """usage: examples/load/compare --unit T [OPTION ..] FOLDER|SCHEMA SOURCE

Compares tables that are there with the snapshot of unit T, row by row, by their keys. It tells the rows that are missing, those that are
too many, and the fields that differ: how many there are, the first ten of each, and for each of these what `pdgf row` says of its row.

FOLDER has the schema, which is its one file *.toml that declares no detail table, and the word lists that it names; or SCHEMA is its
path. SOURCE says where the tables are, whoever loaded them:

    postgres        the database that psql finds, by PGHOST, PGDATABASE and so on
    mariadb         the database that its client finds, by MYSQL_HOST and so on and its files of options; MYSQL_DATABASE names it
    sqlite [FILE]   the database in FILE, else in the file that the variable SQLITE_DATABASE names
    play FILE       the store that `pdgf play` made, which has no detail tables
    copy FILE       a file in the text format of PostgreSQL's COPY, with the schema's delimiter; `-` is the standard input
    csv FILE        a file of CSV
                    For copy and csv it may be a folder too, with NAME.tbl or NAME.csv for each table.

Options:
    --table N       only table N; a single file needs it
    --as NAME       the table has this name in the database; SCHEMA.NAME with a schema of its own there. It needs --table
    --details FILE  a detail table too, once for each; without it those of the other files *.toml of FOLDER
    --header        a file of CSV begins with the names of the columns, which may stand in any order and have others among them
    --null TEXT     a field of CSV that is TEXT, without quotes, is null, and no backslash has a meaning. Without it a file is read as pdgf
                    writes it: a null is \\N, and a text that begins with a backslash has one more before it

In a database the columns have the names of the schema's, and there may be others. Numbers are compared by their values: 6.0 is 6.00.
A date may have a time of midnight after it. All other fields are compared byte by byte.

The rows of both sides are read in the order of keys, and one row of each is held at a time. A database sorts them (ORDER BY) if the
key is of a type of numbers. Else they go through the program `sort`, and so does a snapshot whose keys are scrambled, and each file. That
keeps at most 64 MiB in memory, and the rest in files in the folder that TMPDIR names, else in /tmp: plan room there for the table twice.

The status is 0 if all is equal, 1 if something differs, 2 for words that aren't known and for a schema, unit or table that can't be read,
and 3 if something that is needed isn't installed. The variable PDGF names another program than the repository's own.
"""

SHOWN = 10
NUMBER = re.compile(r"-?[0-9]+(\.[0-9]*)?([eE][-+]?[0-9]{1,3})?|-?\.[0-9]+")


class Request:
    def __init__(self, words):
        self.unit = self.table = self.name = self.null = None
        self.details = []
        self.header = False
        words = list(words)
        while words and words[0].startswith("-"):
            match words.pop(0):
                case "--unit" if words and words[0].isascii() and words[0].isdigit():
                    self.unit = words.pop(0)
                case "--table" if words:
                    self.table = words.pop(0)
                case "--as" if words and words[0]:
                    self.name = words.pop(0)
                case "--null" if words:
                    self.null = words.pop(0)
                case "--details" if words and os.path.isfile(words[0]):
                    self.details.append(os.path.abspath(words.pop(0)))
                case "--header":
                    self.header = True
                case _:
                    raise Words
        if self.unit is None or len(words) < 2 or words[1] not in SOURCES or (self.name and not self.table):
            raise Words
        self.path, self.kind, *self.places = words
        if len(self.places) > 1 or (self.kind != "csv" and (self.header or self.null is not None)):
            raise Words


class Tally:
    """How many differences of a kind there are, and the first ones."""

    def __init__(self):
        self.count = 0
        self.shown = []

    def add(self, *what):
        self.count += 1
        if len(self.shown) < SHOWN:
            self.shown.append(what)


class Comparison:
    """A table's rows against those of the snapshot."""

    def __init__(self, table):
        self.table = table
        self.wanted = self.held = 0
        self.missing, self.surplus, self.fields = Tally(), Tally(), Tally()
        self.differing_rows = 0

    def run(self, wanted, held):
        """Both are lines with their keys, in the order of these. A row without a key that a snapshot can have is one too many anywhere."""
        want = next(wanted, None)
        last = None
        for key, line in held:
            self.held += 1
            if key is None:
                self.surplus.add(None, line, False)
                continue
            if last is not None and key < last:
                raise Failed(f"{self.table.name}: the rows don't come in the order of their keys")
            while want is not None and want[0] < key:
                self.lack(want)
                want = next(wanted, None)
            if want is not None and want[0] == key:
                self.wanted += 1
                if line != want[1]:
                    self.look(key, line, want[1])
                want = next(wanted, None)
            else:
                self.surplus.add(key, line, key == last)
            last = key
        while want is not None:
            self.lack(want)
            want = next(wanted, None)

    def lack(self, want):
        self.wanted += 1
        self.missing.add(want[0])

    def look(self, key, line, wanted):
        """The fields of two lines that aren't the same bytes."""
        before = self.fields.count
        columns = self.table.columns
        pairs = itertools.zip_longest(values_of(line), values_of(wanted), fillvalue=ABSENT)
        for place, (held, due) in enumerate(pairs):
            if place < len(self.table.keys):
                continue
            column = columns[place] if place < len(columns) else None
            if not is_same(column.type.form if column else "text", held, due):
                self.fields.add(key, column.name if column else f"field {place + 1}", held, due)
        if self.fields.count > before:
            self.differing_rows += 1

    @property
    def is_equal(self):
        return self.missing.count == self.surplus.count == self.fields.count == 0

    def tell(self, unit, life):
        """The lines that are shown. `life` tells of a key what `pdgf row` does."""
        if self.is_equal:
            return [f"unit {unit}: {self.table.name} {self.wanted}: equal"]
        shown = [f"unit {unit}: {self.table.name} differs: {counted(self.held, 'row')}, {self.wanted} in the snapshot"]
        if self.missing.count:
            shown.append(f"  missing: {self.missing.count} of the snapshot's rows")
            shown += [f"    {self.place(key)}: {life(key)}" for (key,) in self.missing.shown]
        if self.surplus.count:
            shown.append(f"  too many: {counted(self.surplus.count, 'row')}")
            for key, line, again in self.surplus.shown:
                if key is None:
                    fields = ", ".join(map(written, values_of(line)[: len(self.table.keys)]))
                    shown.append(f"    {', '.join(self.table.keys)} {fields}: no row ever has this key")
                else:
                    shown.append(f"    {self.place(key)}{', once more' if again else ''}: {life(key)}")
        if self.fields.count:
            shown.append(f"  differ: {counted(self.fields.count, 'field')}, in {counted(self.differing_rows, 'row')}")
            for key, column, held, due in self.fields.shown:
                shown.append(f"    {self.place(key)}, {column}: {written(held)} in the table, {written(due)} in the snapshot: {life(key)}")
        return shown

    def place(self, key):
        return ", ".join(f"{name} {it}" for name, it in zip(self.table.keys, key))


def counted(count, what):
    return f"{count} {what}{'' if count == 1 else 's'}"


def is_same(form, held, due):
    """Whether two fields are the same value of a column: a number by its value, a day as the midnight that it begins with."""
    if held == due:
        return True
    if not isinstance(held, str) or not isinstance(due, str):
        return False
    if form in ("whole", "fixed"):
        return bool(NUMBER.fullmatch(held) and NUMBER.fullmatch(due)) and Decimal(held) == Decimal(due)
    if form == "date":
        return held in (f"{due} 00:00:00", f"{due}T00:00:00")
    return False


class Snapshot:
    """The snapshots of a unit, and the lives of its rows."""

    def __init__(self, program, schema, unit):
        self.program = program
        self.schema = schema
        self.unit = unit
        self.lives = {}

    @contextlib.contextmanager
    def rows(self, table):
        """The rows of a table in the order of their keys, as lines with their keys."""
        with contextlib.ExitStack() as stack:
            if table.is_detail:
                path = self.program.details[[it.name for it in self.schema.tables if it.is_detail].index(table.name)]
                words = ["details", "--spec", path, "--unit", self.unit]
            else:
                words = ["snapshot", "--table", table.name, "--unit", self.unit]
            run = stack.enter_context(ended(self.program.words(*words), cwd=self.program.folder))
            lines = checked(run, f"pdgf {' '.join(words)}", lines_of(run.stdout, "the snapshot"))
            keyed = ((key_of(it, len(table.keys)), it) for it in (canonical(it, self.schema.delimiter) for it in lines))
            if self.is_scrambled(table):
                keyed = stack.enter_context(in_order_of_keys(keyed, len(table.keys)))
            yield keyed

    def is_scrambled(self, table):
        owner = self.schema.table(table.references[0].parent) if table.is_detail else table
        return owner.is_scrambled

    def life(self, table):
        """What tells of a key of a table what `pdgf row` does; of a line of a detail table it is said of the parent's row."""
        owner = table.references[0].parent if table.is_detail else table.name

        def tell(key):
            named = owner, str(key[0])
            if named not in self.lives:
                self.lives[named] = self.program.row(*named, self.unit)
            return f"of {owner} {key[0]}: {self.lives[named]}" if table.is_detail else self.lives[named]

        return tell


def say(text):
    print(f"compare: {text}", flush=True)


def compare(words):
    request = Request(words)
    path, details = schema_path(request.path), request.details
    if not details and request.kind != "play":
        details = details_in(request.path)
    program = Program(path, details)
    program.check()
    schema = read_schema(path, details)
    tables = [it for it in schema.tables if request.table in (None, it.name)]
    if not tables:
        raise Failed(f"the schema has no table {request.table}")
    snapshot = Snapshot(program, schema, request.unit)
    source = SOURCES[request.kind](schema, request)
    equal = True
    for table in tables:
        comparison = Comparison(table)
        with snapshot.rows(table) as wanted, source.rows(table) as held:
            comparison.run(wanted, held)
        for it in comparison.tell(request.unit, snapshot.life(table)):
            say(it)
        equal = equal and comparison.is_equal
    return 0 if equal else 1


def main(words):
    if words == ["--help"]:
        print(USAGE, end="")
        return 0
    end_by_signals()
    sys.stdout.reconfigure(errors="backslashreplace")  # a field may be no UTF-8
    try:
        return compare(words)
    except Words:
        print(USAGE, end="", file=sys.stderr)
        return 2
    except Missing as error:
        print(f"compare: missing: {error}", file=sys.stderr)
        return 3
    except BrokenPipeError:  # nobody reads what it tells
        os.dup2(os.open(os.devnull, os.O_WRONLY), sys.stdout.fileno())
        return 2
    except (Failed, Unreadable, OSError) as error:
        print(f"compare: {error}", file=sys.stderr)
        return 2
    except KeyboardInterrupt:
        return 130
