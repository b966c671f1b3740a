"""PostgreSQL, by psql."""

import contextlib
import glob
import os
import signal
import subprocess

from . import tables
from .database import GIVEN, Database, Script, as_text
from .server import Failed, Owner, program
from .text import holds_nul

VARIABLES = ("PGHOST", "PGHOSTADDR", "PGPORT", "PGSERVICE", "PGDATABASE")


def server_folders():
    """Where Debian keeps the server's programs, the newest first."""
    found = glob.glob("/usr/lib/postgresql/*/bin")
    return sorted(found, key=lambda it: float(it.split("/")[4]), reverse=True)


def command_words():
    return [program("psql"), "-X", "-q", "-At", "-F", "\t", "-v", "ON_ERROR_STOP=1", "-v", "VERBOSITY=terse"]


def command(script, environment, **how):
    outputs = {"stdin": subprocess.DEVNULL, "stdout": subprocess.PIPE, "stderr": subprocess.PIPE, "errors": "replace"}
    return subprocess.run([*command_words(), "-f", script], env=environment, **outputs, **how)


@contextlib.contextmanager
def served(room, settings=""):
    """A server of its own, as the environment by which psql finds it."""
    owner = Owner(["postgres", "nobody"])
    folders = server_folders()
    initdb, postgres = program("initdb", folders), program("postgres", folders)
    os.chmod(room, 0o711)
    folder = f"{room}/server"
    os.mkdir(folder, 0o700)
    owner.give(folder)
    owner.run([initdb, "-D", "data", "-U", "postgres", "-A", "trust", "-E", "UTF8", "--locale=C", "--no-sync"], folder)
    with open(f"{folder}/data/postgresql.conf", "a") as file:
        # It is thrown away at the end: nothing has to survive a crash.
        file.write(f"listen_addresses = ''\nunix_socket_directories = '{folder}'\n")
        file.write(f"fsync = off\nfull_page_writes = off\nsynchronous_commit = off\n{settings}")
    kept = {name: value for name, value in os.environ.items() if not name.startswith("PG")}
    environment = {**kept, "PGHOST": folder, "PGPORT": "5432", "PGUSER": "postgres", "PGDATABASE": "postgres"}

    def is_ready():
        ping = [program("psql"), "-X", "-c", "SELECT 1"]
        return subprocess.run(ping, env=environment, stdin=subprocess.DEVNULL, capture_output=True).returncode == 0

    with owner.serve([postgres, "-D", f"{folder}/data"], folder, is_ready, signal.SIGQUIT):
        yield environment


class Session(Script):
    given = f'pg_temp."{GIVEN}"'

    def __init__(self, database):
        super().__init__()
        self.database = database
        self.execute("SET client_encoding = 'UTF8'")
        self.execute("SET datestyle = 'ISO, YMD'")

    def copy(self, target, columns, path):
        if holds_nul(path):
            raise Failed(f"{os.path.basename(path)} has a NUL, which PostgreSQL takes in no text, and at which psql cuts a line off")
        delimiter = {"\t": r"E'\t'", "|": "'|'"}[self.database.schema.delimiter]
        quoted = self.database.quoted
        self.parts.append(f"\\copy {quoted(target)} ({quoted(*columns)}) FROM {as_text(path)} (DELIMITER {delimiter})\n")

    def make_given(self, table, columns):
        quoted = self.database.quoted
        self.execute(f"CREATE TEMP TABLE {quoted(GIVEN)} AS SELECT {quoted(*columns)} FROM {quoted(table.name)} WITH NO DATA")

    def expect(self, number, query, message):
        self.execute(f"DO $$ BEGIN IF ({query}) <> {number} THEN RAISE EXCEPTION '%', {as_text(message)}; END IF; END $$")

    def finish(self):
        self.answered = self.database.run("".join(self.parts))


class Postgres(Database):
    """Its tables are in the database that psql finds by an environment."""

    dialect = tables.DIALECTS["postgres"]
    title = "PostgreSQL"

    @classmethod
    @contextlib.contextmanager
    def opened(cls, schema, room, _):
        program("psql")
        if any(os.environ.get(it) for it in VARIABLES):
            yield cls(schema, room, dict(os.environ))
        else:
            with served(room) as environment:
                yield cls(schema, room, environment)

    def __init__(self, schema, room, environment):
        super().__init__(schema)
        self.script = f"{room}/script.sql"
        self.environment = environment

    def session(self):
        return Session(self)

    def run(self, script):
        with open(self.script, "w", encoding="utf-8") as file:
            file.write(script)
        return self.run_file(self.script, self.environment)

    @staticmethod
    def run_file(path, environment):
        ran = command(path, environment)
        if ran.returncode != 0:
            raise Failed(ran.stderr.strip().removeprefix(f"psql:{path}:"))
        return [it.split("\t") for it in ran.stdout.splitlines()]

    def carry_out(self, path):
        self.run_file(path, {**self.environment, "PGCLIENTENCODING": "UTF8"})

    def make_tables(self, sql):
        self.run(f"SET client_encoding = 'UTF8';\nBEGIN;\n{sql}\nCOMMIT;\n")

    def settle(self):
        """Counts what the tables hold, for the plans of what comes."""
        self.run("".join(f"ANALYZE {self.quoted(it.name)};\n" for it in self.schema.tables))

    def differ(self, column):
        return f"{self.text('t', column)} IS DISTINCT FROM {self.text('g', column)}"

    def text(self, table, column):
        return f'{table}.{self.quoted(column)}::text COLLATE "C"'
