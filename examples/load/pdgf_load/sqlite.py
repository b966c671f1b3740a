"""SQLite, by Python's own module."""

import contextlib
import os

from . import tables
from .database import GIVEN, Database
from .server import Failed, Missing
from .text import rows

try:
    import sqlite3
except ModuleNotFoundError:
    sqlite3 = None


class Session:
    """Carries out each statement at once."""

    def __init__(self, database):
        self.database = database
        self.execute(f"DROP TABLE IF EXISTS temp.{database.quoted(GIVEN)}")

    def execute(self, sql):
        try:
            return self.database.connection.execute(sql)
        except sqlite3.Error as error:
            self.give_up(f"{error}: {sql[:100]}")

    def give_up(self, message):
        if self.database.connection.in_transaction:
            self.database.connection.execute("ROLLBACK")
        raise Failed(message)

    def begin(self):
        self.execute("BEGIN")

    def commit(self):
        self.execute("COMMIT")

    def copy(self, target, columns, path):
        quoted = self.database.quoted
        places = ", ".join("?" * len(columns))
        statement = f"INSERT INTO {quoted(target)} ({quoted(*columns)}) VALUES ({places})"
        try:
            self.database.connection.executemany(statement, rows(path, self.database.schema.delimiter))
        except sqlite3.Error as error:
            self.give_up(f"{os.path.basename(path)}: {error}")

    def make_given(self, table, columns):
        quoted = self.database.quoted
        self.execute(f"CREATE TEMP TABLE {quoted(GIVEN)} AS SELECT {quoted(*columns)} FROM {quoted(table.name)} WHERE 0")
        self.execute(f"CREATE UNIQUE INDEX temp.\"Given key\" ON {quoted(GIVEN)} ({quoted(*table.keys)})")

    def drop_given(self):
        self.execute(f"DROP TABLE temp.{self.database.quoted(GIVEN)}")

    def expect(self, number, query, message):
        if self.execute(query).fetchone()[0] != number:
            self.give_up(message)

    def answer(self, query):
        found = self.execute(query).fetchall()
        return lambda: found

    def finish(self):
        pass


class Sqlite(Database):
    """Its tables are in a file: that of the variable SQLITE_DATABASE, or one that is thrown away at the end."""

    dialect = tables.DIALECTS["sqlite"]
    title = "SQLite"

    @classmethod
    @contextlib.contextmanager
    def opened(cls, schema, room, _):
        if sqlite3 is None:
            raise Missing("Python's module sqlite3")
        path = os.environ.get("SQLITE_DATABASE") or f"{room}/pdgf.db"
        with contextlib.closing(sqlite3.connect(path, isolation_level=None)) as connection:
            connection.execute("PRAGMA foreign_keys = ON")
            if "SQLITE_DATABASE" not in os.environ:
                connection.execute("PRAGMA synchronous = OFF")
            yield cls(schema, connection, {**os.environ, "SQLITE_DATABASE": os.path.abspath(path)})

    def __init__(self, schema, connection, environment):
        super().__init__(schema)
        self.connection = connection
        self.environment = environment

    def session(self):
        return Session(self)

    def make_tables(self, sql):
        try:
            self.connection.executescript(f"BEGIN;\n{sql}\nCOMMIT;\n")
        except sqlite3.Error as error:
            raise Failed(str(error)) from None

    def carry_out(self, path):
        with open(path, encoding="utf-8", newline="") as file:
            script = file.read()
        try:
            self.connection.executescript(script)
        except (sqlite3.Error, ValueError) as error:
            raise Failed(f"{os.path.basename(path)}: {error}") from None

    def settle(self):
        self.connection.execute("ANALYZE")

    def differ(self, column):
        name = self.quoted(column)
        return f"t.{name} IS NOT g.{name} COLLATE BINARY"

    def text(self, table, column):
        return f"{table}.{self.quoted(column)}"
