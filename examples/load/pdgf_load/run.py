"""The one interface of the loads: the words, the texts of the program, the steps from unit to unit."""

import glob
import os
import shutil
import subprocess
import sys

from .database import Database
from .schema import Unreadable, declares_details, read_schema
from .server import Failed, Missing, end_by_signals, room
from .tables import tables_as_sql
from .text import lines

USAGE = """usage: examples/load/{name} [--from T] [--last] [--details FILE].. [--streams DIR] [--tables FILE] FOLDER|SCHEMA [COMMAND ..]
       examples/load/{name} [--from T] [--last] --scripts DIR [--tables FILE] FOLDER|SCHEMA [COMMAND ..]

Loads the tables of a schema into {title} as they stand at unit 0, or at T, does to them what each later unit does, each
as a transaction and with the foreign keys on, and compares them with the snapshot of each unit.

FOLDER has the schema, which is its one file *.toml that declares no detail table, and the word lists that it names; or SCHEMA is its
path. Detail tables are those that the files of --details declare, else those of the other files *.toml of FOLDER. The tables
are made by the file of --tables, else by FOLDER/{tables}, else they are those of examples/load/ddl. With --last they are
compared after the last unit alone. With --streams the texts that are loaded lie in DIR, written before by the modes snapshot and
details (unit 0, or T), unit and details-unit. COMMAND runs at the end, if all is equal, with the database in its environment.

With --scripts a script is run for each unit in place of all this, each statement by itself: DIR/0.sql, or DIR/T.sql, is written before by
`pdgf snapshot --format sql`, and the later ones by `pdgf unit --format sql`. Detail tables have none, and aren't made.

{server}

The status is 0 where all is equal, 1 where a table differs or a step fails, 2 for words that aren't known, and 3 where something
that is needed isn't installed. The variable PDGF names another program than the repository's own.
"""


class Words(Exception):
    """The words give no request."""


class Request:
    def __init__(self, words):
        self.first = 0
        self.last = False
        self.details = []
        self.streams = None
        self.scripts = None
        self.tables = None
        words = list(words)
        while words and words[0].startswith("-"):
            match words.pop(0):
                case "--from" if words and words[0].isascii() and words[0].isdigit():
                    self.first = int(words.pop(0))
                case "--last":
                    self.last = True
                case "--details" if words and os.path.isfile(words[0]):
                    self.details.append(os.path.abspath(words.pop(0)))
                case "--streams" if words and os.path.isdir(words[0]):
                    self.streams = os.path.abspath(words.pop(0))
                case "--scripts" if words and os.path.isdir(words[0]):
                    self.scripts = os.path.abspath(words.pop(0))
                case "--tables" if words and os.path.isfile(words[0]):
                    self.tables = os.path.abspath(words.pop(0))
                case _:
                    raise Words
        if not words or self.scripts and (self.streams or self.details):
            raise Words
        self.path, *self.command = words

    def schema_path(self):
        return schema_path(self.path)

    def detail_paths(self):
        return [] if self.scripts else self.details or details_in(self.path)


def in_folder(path):
    return sorted(glob.glob(f"{glob.escape(os.path.abspath(path))}/*.toml"))


def schema_path(path):
    """The schema that a path names, or the one of a folder."""
    if not os.path.isdir(path):
        return os.path.abspath(path)
    found = [it for it in in_folder(path) if not declares_details(it)]
    if len(found) != 1:
        raise Failed(f"{path} has no schema, or several")
    return found[0]


def details_in(path):
    """The files of a folder that declare detail tables; of a file none."""
    return [it for it in in_folder(path) if declares_details(it)]


class Program:
    """The program pdgf, with a schema, in its folder, and the files that declare detail tables over it."""

    def __init__(self, path, details=()):
        self.top = os.path.dirname(os.path.dirname(os.path.dirname(os.path.dirname(os.path.realpath(__file__)))))
        named = os.environ.get("PDGF") or f"{self.top}/pdgf"
        found = shutil.which(named)
        if found is None:
            raise Failed(f"there is no program {named}")
        self.program = os.path.abspath(found)
        self.folder, self.name = os.path.split(path)
        self.details = details

    def words(self, mode, *options):
        return [self.program, mode, self.name, *options]

    def call(self, mode, *options):
        ran = subprocess.run(self.words(mode, *options), cwd=self.folder, stdin=subprocess.DEVNULL, stdout=subprocess.DEVNULL)
        if ran.returncode != 0:
            raise Failed(f"pdgf {mode} {self.name} {' '.join(options)}: status {ran.returncode}")

    def check(self):
        """Tries the schema. The repository's script has built the program then, and isn't asked again whether it has."""
        self.call("check")
        built = f"{self.top}/crates/pdgf_main/out/pdgf_main"
        if self.program == f"{self.top}/pdgf" and os.access(built, os.X_OK):
            self.program = built

    def row(self, table, key, unit):
        """The life of a row as the mode `row` tells it, in one line."""
        words = self.words("row", "--table", table, "--key", key, "--unit", unit)
        ran = subprocess.run(words, cwd=self.folder, stdin=subprocess.DEVNULL, capture_output=True, text=True, errors="replace")
        if ran.returncode != 0:
            if ran.stderr.strip().endswith("--key"):
                return "no row ever has this key"
            raise Failed(ran.stderr.strip())
        told = ran.stdout.split("\n")
        return ", ".join(told[: 4 if "state live" in told[2] else 3])

    def texts(self, mode, unit, folder):
        """The folder, emptied, with what the mode, `snapshot` or `unit`, writes at a unit, and of the detail tables the mode that does the same."""
        shutil.rmtree(folder, ignore_errors=True)
        os.mkdir(folder)
        self.call(mode, "--unit", str(unit), "--out", folder)
        for path in self.details:
            self.call({"snapshot": "details", "unit": "details-unit"}[mode], "--spec", path, "--unit", str(unit), "--out", folder)
        return folder


def tables_of(request, database, schema, folder):
    """The statements that make the tables."""
    for path in (request.tables, f"{folder}/{tables_file(type(database))}"):
        if path and os.path.isfile(path):
            with open(path, encoding="utf-8") as file:
                return file.read()
    return tables_as_sql(schema, database.dialect)


def tables_file(database):
    return "tables.sql" if database.dialect.name == "postgres" else f"tables_{database.dialect.name}.sql"


def compare(program, database, unit, folder):
    """Says that all is equal, or how it isn't."""
    texts = program.texts("snapshot", unit, f"{folder}/wanted")
    counts = []
    for table in database.schema.tables:
        path = f"{texts}/{table.name}.tbl"
        if found := database.difference(table, path, lines):
            say(f"unit {unit}: {table.name} differs: {found[0]}")
            for it in found[1:]:
                say(f"  {it}")
            return False
        counts.append(f"{table.name} {lines(path)}")
    say(f"unit {unit}: {', '.join(counts)}: equal")
    return True


def say_as(name):
    return lambda text: print(f"{name}: {text}", flush=True)


say = say_as("load")


def replay(request, program, database, folder):
    """Whether all units give what they should."""
    first = request.first
    if first > database.schema.units:
        raise Failed(f"there is no unit {first}")
    for unit in range(first, database.schema.units + 1):
        mode = "unit" if unit > first else "snapshot"
        try:
            if request.scripts:
                database.carry_out(f"{request.scripts}/{unit}.sql")
            else:
                texts = request.streams or program.texts(mode, unit, f"{folder}/texts")
                database.play(unit, texts, lines, is_base=unit == first)
        except Failed as error:
            raise Failed(f"unit {unit}: {error}") from None
        if unit == first:
            database.settle()
        if unit == database.schema.units or not request.last:
            if not compare(program, database, unit, folder):
                return False
    return True


def load(words, kind):
    request = Request(words)
    path, details = request.schema_path(), request.detail_paths()
    program = Program(path, details)
    program.check()
    schema = read_schema(path, details)
    with room() as folder, kind.opened(schema, folder, path) as database:
        try:
            database.make_tables(tables_of(request, database, schema, program.folder))
        except Failed as error:
            raise Failed(f"the tables can't be made: {error}") from None
        if not replay(request, program, database, folder):
            return 1
        if request.command:
            return subprocess.run(request.command, env=database.environment).returncode
    return 0


def option(words, name, default):
    """The value of an option, which is taken out of the words with its name."""
    if name not in words:
        return default
    place = words.index(name)
    if place + 1 == len(words):
        raise Words
    value = words[place + 1]
    del words[place : place + 2]
    return value


def carried_out(name, usage, do, words):
    """Does what a script of this name is for, with its words. Returns its status, and tells why that isn't 0."""
    if words[:1] == ["--help"]:
        print(usage, end="")
        return 0
    end_by_signals()
    try:
        return do(words)
    except Words:
        print(usage, end="", file=sys.stderr)
        return 2
    except Missing as error:
        print(f"{name}: missing: {error}", file=sys.stderr)
        return 3
    except (Failed, Unreadable, FileNotFoundError) as error:
        print(f"{name}: {error}", file=sys.stderr)
        return 1
    except KeyboardInterrupt:
        return 130


def main(words, kind: type[Database], server):
    usage = USAGE.format(name=kind.dialect.name, title=kind.title, tables=tables_file(kind), server=server.strip())
    return carried_out("load", usage, lambda it: load(it, kind), words)
