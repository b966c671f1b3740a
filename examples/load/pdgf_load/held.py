"""Tables that are there, in a database or in a file, as rows in the order of their keys."""

import contextlib
import os
import re
import subprocess
import sys

from . import mariadb, tables
from .database import as_text
from .postgres import command_words
from .server import Failed, Missing, program
from .stream import ABSENT, LONGEST, canonical, checked, ended, in_order_of_keys, key_of, line_of, lines_of

try:
    import sqlite3
except ModuleNotFoundError:
    sqlite3 = None

CSV_FIELD = re.compile(r'"([^"]*(?:""[^"]*)*)"(?=,|\Z)|([^,]*)', re.S)


class Source:
    """Where tables are."""

    def __init__(self, schema, request):
        self.schema = schema
        self.request = request

    @contextlib.contextmanager
    def rows(self, table):
        """The rows of a table as lines with their keys, in the order of these."""
        parts = len(table.keys)
        with contextlib.ExitStack() as stack:
            is_sorted = self.is_sorted(table)
            lines = stack.enter_context(self.lines(table, is_sorted))
            keyed = ((key_of(it, parts), it) for it in lines)
            if not is_sorted:
                keyed = stack.enter_context(in_order_of_keys(keyed, parts))
            yield keyed

    def is_sorted(self, table):
        return False


def number_told(words):
    """Returns the number that a client tells for a query."""
    ran = subprocess.run(words, stdin=subprocess.DEVNULL, capture_output=True, text=True, errors="replace")
    if ran.returncode != 0:
        raise Failed(ran.stderr.strip())
    return int(ran.stdout)


class InDatabase(Source):
    """Tables whose columns have the names of the schema's."""

    dialect = None

    def name(self, table):
        return self.request.name.split(".", 1) if self.request.name else [table.name]

    def quoted_name(self, table):
        return ".".join(self.dialect.quoted(it) for it in self.name(table))

    def quoted(self, names):
        return [self.dialect.quoted(it) for it in names]

    def query(self, table, expression, is_sorted):
        columns = ", ".join(expression(it) for it in self.quoted(it.name for it in table.columns))
        order = f" ORDER BY {', '.join(self.quoted(table.keys))}" if is_sorted else ""
        return f"SELECT {columns} FROM {self.quoted_name(table)}{order}"


class InPostgres(InDatabase):
    dialect = tables.DIALECTS["postgres"]
    settings = ["-c", "SET client_encoding = 'UTF8'", "-c", "SET datestyle = 'ISO, YMD'"]

    def __init__(self, schema, request):
        super().__init__(schema, request)
        self.words = command_words()
        if request.places:
            raise Failed("psql finds its database by PGDATABASE, and takes no file")

    def is_sorted(self, table):
        """Whether the key is of a type of whole numbers, or of `numeric`."""
        keys = ", ".join(map(as_text, table.keys))
        types = "'int2'::regtype, 'int4'::regtype, 'int8'::regtype, 'numeric'::regtype"
        of = f"attrelid = {as_text(self.quoted_name(table))}::regclass AND attname IN ({keys})"
        words = [*self.words, "-c", f"SELECT count(*) FROM pg_attribute WHERE {of} AND atttypid IN ({types})"]
        return number_told(words) == len(table.keys)

    @contextlib.contextmanager
    def lines(self, table, is_sorted):
        query = self.query(table, lambda it: f"{it}::text", False)
        if is_sorted:
            # By the columns themselves: the texts have the same names.
            query += " t ORDER BY " + ", ".join(f"t.{it}" for it in self.quoted(table.keys))
        words = [*self.words, *self.settings, "-c", f"COPY ({query}) TO STDOUT"]
        with ended(words, stderr=subprocess.PIPE) as run:
            yield checked(run, "psql", lines_of(run.stdout, table.name))


class InMariadb(InDatabase):
    dialect = tables.DIALECTS["mariadb"]
    numbers = "'tinyint', 'smallint', 'mediumint', 'int', 'bigint', 'decimal'"

    def __init__(self, schema, request):
        super().__init__(schema, request)
        if request.places:
            raise Failed("the client finds its database by MYSQL_DATABASE, and takes no file")
        named = os.environ.get("MYSQL_DATABASE") or ("test" if any(os.environ.get(it) for it in mariadb.VARIABLES) else None)
        client = [program("mariadb"), "--batch", "--quick", "--skip-column-names", "--default-character-set=utf8mb4"]
        self.words = [*client, *([named] if named else [])]

    def is_sorted(self, table):
        *schema, name = self.name(table)
        place = f"table_schema = {as_text(schema[0]) if schema else 'DATABASE()'} AND table_name = {as_text(name)}"
        keys = f"column_name IN ({', '.join(map(as_text, table.keys))}) AND data_type IN ({self.numbers})"
        words = [*self.words, "-e", f"SELECT count(*) FROM information_schema.columns WHERE {place} AND {keys}"]
        return number_told(words) == len(table.keys)

    @contextlib.contextmanager
    def lines(self, table, is_sorted):
        # The client writes a null as the word NULL. So a text has `=` before it, and a null is another letter.
        query = self.query(table, lambda it: f"ifnull(concat('=', CAST({it} AS CHAR)), 'N')", is_sorted)
        with ended([*self.words, "-e", query], stderr=subprocess.PIPE) as run:
            yield checked(run, "mariadb", (self.line(it) for it in lines_of(run.stdout, table.name)))

    escapes = {b"\\0": b"\0", b"\b": rb"\b", b"\v": rb"\v", b"\f": rb"\f", b"\r": rb"\r"}
    to_change = re.compile(rb"\\[\\nt0]|[\b\v\f\r]")

    def line(self, text):
        """A line of the client's, which escapes a backslash, a tab, a line feed and a NUL."""
        fields = (rb"\N" if it == b"N" else it[1:] for it in text.split(b"\t"))
        return self.to_change.sub(lambda found: self.escapes.get(found[0], found[0]), b"\t".join(fields))


class InSqlite(InDatabase):
    dialect = tables.DIALECTS["sqlite"]

    def __init__(self, schema, request):
        super().__init__(schema, request)
        if sqlite3 is None:
            raise Missing("Python's module sqlite3")
        path = request.places[0] if request.places else os.environ.get("SQLITE_DATABASE")
        if not path or not os.path.isfile(path):
            raise Failed(f"there is no database {path}" if path else "no file is named, and SQLITE_DATABASE neither")
        self.connection = sqlite3.connect(path, isolation_level=None)
        self.connection.text_factory = bytes
        self.connection.execute("PRAGMA query_only = ON")

    def execute(self, query):
        try:
            yield from self.connection.execute(query)
        except sqlite3.Error as error:
            raise Failed(f"{error}: {query[:100]}") from None

    def is_sorted(self, table):
        """Whether the key is kept as a number where it is one."""
        *schema, name = self.name(table)
        of = f", {as_text(schema[0])}" if schema else ""
        types = dict(self.execute(f"SELECT name, type FROM pragma_table_info({as_text(name)}{of})"))
        # SQLite takes the name of no column for a text.
        if types and (absent := [it.name for it in table.columns if it.name.encode() not in types]):
            raise Failed(f"{name} has no column {absent[0]}")
        return all(b"INT" in types.get(it.encode(), b"").upper() for it in table.keys)

    @contextlib.contextmanager
    def lines(self, table, is_sorted):
        yield (line_of(map(self.value, it)) for it in self.execute(self.query(table, str, is_sorted)))

    @staticmethod
    def value(held):
        return held.decode("utf-8", "surrogateescape") if isinstance(held, bytes) else None if held is None else str(held)


class InStore(InSqlite):
    """The store that `pdgf play` made: each row as a line, with the place of its table in the upper bits of its number."""

    def __init__(self, schema, request):
        if not request.places:
            raise Failed("no store is named")
        super().__init__(schema, request)

    def is_sorted(self, table):
        return False

    @contextlib.contextmanager
    def lines(self, table, is_sorted):
        if table.is_detail:
            raise Failed(f"a store has no detail tables, and {table.name} is one")
        place = self.schema.tables.index(table)
        kept = self.execute(f"SELECT line FROM kept_row WHERE row_id BETWEEN {place} << 40 AND ({place + 1} << 40) - 1")
        yield (canonical(it.removesuffix(b"\n"), self.schema.delimiter) for (it,) in kept)


class InFile(Source):
    """A file for a table, or a folder with one for each."""

    ending = None

    def __init__(self, schema, request):
        super().__init__(schema, request)
        if not request.places:
            raise Failed("no file is named")
        (self.place,) = request.places
        if not request.table and not os.path.isdir(self.place):
            raise Failed("a file has one table, which --table names")

    @contextlib.contextmanager
    def file(self, table):
        if self.place == "-":
            yield sys.stdin.buffer
            return
        path = f"{self.place}/{table.name}.{self.ending}" if os.path.isdir(self.place) else self.place
        try:
            file = open(path, "rb")
        except OSError as error:
            raise Failed(f"{path} can't be read: {error.strerror}") from None
        with file:
            yield file


class InCopy(InFile):
    ending = "tbl"

    @contextlib.contextmanager
    def lines(self, table, is_sorted):
        with self.file(table) as file:
            # COPY may end its text with a line of its own.
            yield (canonical(it, self.schema.delimiter) for it in lines_of(file, table.name) if it != rb"\.")


class InCsv(InFile):
    ending = "csv"

    @contextlib.contextmanager
    def lines(self, table, is_sorted):
        with self.file(table) as file:
            yield self.lines_of_records(table, records(file, table.name))

    def lines_of_records(self, table, found):
        names = [it.name for it in table.columns]
        places = None
        if self.request.header:
            head = [text for text, _ in next(found, [])]
            if absent := [it for it in names if it not in head]:
                raise Failed(f"the header has no column {absent[0]}")
            places = [head.index(it) for it in names]
        for record in found:
            values = [self.value(*it) for it in record]
            if places:
                values = [values[it] if it < len(values) else ABSENT for it in places]
            yield line_of(values)

    def value(self, text, is_quoted):
        if self.request.null is not None:
            return None if text == self.request.null and not is_quoted else text
        return None if text == r"\N" else text[1:] if text.startswith("\\\\") else text


def records(file, what):
    """The records of a file of CSV: each field with whether it is quoted."""
    parts, size, is_open = [], 0, False
    for number, line in enumerate(lines_of(file, what), 1):
        parts.append(line.removeprefix(b"\xef\xbb\xbf") if number == 1 else line)
        size += len(line)
        if size > LONGEST:
            raise Failed(f"{what}: the record at line {number} has more than 16 MiB")
        is_open ^= line.count(b'"') % 2 == 1
        if not is_open:
            yield fields_of(b"\n".join(parts).removesuffix(b"\r").decode("utf-8", "surrogateescape"))
            parts, size = [], 0
    if is_open:
        raise Failed(f"{what}: a quote isn't closed")


def fields_of(record):
    if '"' not in record:
        return [(it, False) for it in record.split(",")]
    fields, place = [], 0
    while place <= len(record):
        found = CSV_FIELD.match(record, place)
        fields.append((found[2], False) if found[1] is None else (found[1].replace('""', '"'), True))
        place = found.end() + 1
    return fields


SOURCES = {"postgres": InPostgres, "mariadb": InMariadb, "sqlite": InSqlite, "play": InStore, "copy": InCopy, "csv": InCsv}
