"""MariaDB, by its client."""

import contextlib
import os
import re
import signal
import subprocess

from . import tables
from .database import GIVEN, Database, Script, as_text
from .server import Failed, Owner, program

# With these the client takes a script of the program as it is: with names between double quotes, backslashes that are no escapes, and CR LF.
AS_IT_IS = ["--binary-mode", "--init-command=SET sql_mode = 'ANSI_QUOTES,NO_BACKSLASH_ESCAPES,STRICT_ALL_TABLES'"]
VARIABLES = ("MYSQL_HOST", "MYSQL_TCP_PORT", "MYSQL_UNIX_PORT")
ESCAPE = re.compile(rb"\\(.)", re.S)
LETTERS = {b"v": b"\v", b"f": b"\f"}  # which LOAD DATA takes for the letters


def ready_for_load(path, room):
    """A file with the same lines, of which LOAD DATA reads each escape as it is meant."""
    with open(path, "rb") as file:
        text = file.read()
    if rb"\v" not in text and rb"\f" not in text:
        return path
    made = f"{room}/{os.path.basename(path)}.load"
    with open(made, "wb") as file:
        file.write(ESCAPE.sub(lambda found: LETTERS.get(found[1], found[0]), text))
    return made


@contextlib.contextmanager
def served(room):
    """A server of its own, as the file of options by which clients find it."""
    owner = Owner(["mysql", "nobody"])
    install, server = program("mariadb-install-db"), program("mariadbd")
    os.chmod(room, 0o711)
    folder = f"{room}/server"
    os.mkdir(folder, 0o711)
    os.mkdir(f"{folder}/data", 0o700)
    owner.give(folder)
    owner.give(f"{folder}/data")
    socket = f"{folder}/socket"
    how = ["--no-defaults", f"--datadir={folder}/data"]
    owner.run([install, *how, "--auth-root-authentication-method=normal", "--skip-test-db", "--skip-name-resolve"], folder)
    options = f"{room}/my.cnf"
    with open(options, "w") as file:
        file.write(f"[client]\nsocket = {socket}\nuser = root\n[client-mariadb]\ndatabase = pdgf\n")
    # It is thrown away at the end: nothing has to survive a crash.
    settings = ["--skip-networking", f"--socket={socket}", f"--pid-file={folder}/pid", "--innodb-flush-log-at-trx-commit=0", "--innodb-doublewrite=0"]

    def is_ready():
        words = [program("mariadb"), "--no-defaults", f"--socket={socket}", "--user=root", "-e", "CREATE DATABASE IF NOT EXISTS pdgf"]
        return subprocess.run(words, stdin=subprocess.DEVNULL, capture_output=True).returncode == 0

    with owner.serve([server, *how, *settings], folder, is_ready, signal.SIGKILL):
        yield options


class Session(Script):
    given = f"`{GIVEN}`"

    def __init__(self, database):
        super().__init__()
        self.database = database
        # A value that a column can't hold is refused, and no engine stands in for another.
        self.execute("SET sql_mode = 'STRICT_ALL_TABLES,NO_ENGINE_SUBSTITUTION,ERROR_FOR_DIVISION_BY_ZERO'")

    def begin(self):
        self.execute("START TRANSACTION")

    def copy(self, target, columns, path):
        delimiter = {"\t": r"\t", "|": "|"}[self.database.schema.delimiter]
        quoted = self.database.quoted
        ready = ready_for_load(path, self.database.room).replace("\\", "\\\\")
        self.execute(
            f"LOAD DATA LOCAL INFILE {as_text(ready)} INTO TABLE {quoted(target)} CHARACTER SET utf8mb4"
            rf" FIELDS TERMINATED BY '{delimiter}' ENCLOSED BY '' ESCAPED BY '\\' LINES TERMINATED BY '\n' ({quoted(*columns)})"
        )
        # With LOCAL what is wrong with a line is a warning, and the line is mended or left out.
        self.execute("SET @warnings = @@warning_count")
        self.expect(0, "SELECT @warnings", f"{os.path.basename(path)} gives warnings")

    def make_given(self, table, columns):
        quoted = self.database.quoted
        kept = f"SELECT {quoted(*columns)} FROM {quoted(table.name)} LIMIT 0"
        self.execute(f"CREATE TEMPORARY TABLE {quoted(GIVEN)} (PRIMARY KEY ({quoted(*table.keys)})) {self.database.dialect.options} {kept}")

    def drop_given(self):
        self.execute(f"DROP TEMPORARY TABLE {self.given}")

    def expect(self, number, query, message):
        refusal = f"SIGNAL SQLSTATE '45000' SET MESSAGE_TEXT = {as_text(message)}"
        block = f"BEGIN NOT ATOMIC IF ({query}) <> {number} THEN {refusal}; END IF; END"
        self.parts.append(f"DELIMITER //\n{block} //\nDELIMITER ;\n")

    def finish(self):
        self.answered = self.database.run("".join(self.parts))


class Mariadb(Database):
    """Its tables are in a database that the client finds by files of options, or by the variables MYSQL_HOST and so on."""

    dialect = tables.DIALECTS["mariadb"]
    title = "MariaDB"

    @classmethod
    @contextlib.contextmanager
    def opened(cls, schema, room, _):
        client = program("mariadb")
        if any(os.environ.get(it) for it in VARIABLES):
            yield cls(schema, room, [client], [os.environ.get("MYSQL_DATABASE", "test")], dict(os.environ))
        else:
            with served(room) as options:
                environment = {**os.environ, "MYSQL_HOME": room, "MARIADB_HOME": room}
                yield cls(schema, room, [client, f"--defaults-file={options}"], ["pdgf"], environment)

    def __init__(self, schema, room, client, names, environment):
        super().__init__(schema)
        self.room = room
        self.client = [*client, "--batch", "--raw", "--skip-column-names", "--local-infile=1", "--default-character-set=utf8mb4", *names]
        self.environment = environment

    def session(self):
        return Session(self)

    def run(self, script):
        path = f"{self.room}/script.sql"
        with open(path, "w", encoding="utf-8") as file:
            file.write(script)
        return self.run_file(path)

    def carry_out(self, path):
        self.run_file(path, AS_IT_IS)

    def run_file(self, path, options=()):
        with open(path, "rb") as file:
            how = {"stdin": file, "stdout": subprocess.PIPE, "stderr": subprocess.PIPE, "env": self.environment, "errors": "replace"}
            ran = subprocess.run([*self.client, *options], **how)
        if ran.returncode != 0:
            # The client shows the statement too.
            told = [it for it in ran.stderr.splitlines() if it.startswith("ERROR")]
            raise Failed(" ".join(told) or ran.stderr.strip())
        return [it.split("\t") for it in ran.stdout.splitlines()]

    def make_tables(self, sql):
        self.run(sql)

    def settle(self):
        self.run("".join(f"ANALYZE TABLE {self.quoted(it.name)};\n" for it in self.schema.tables))

    def deletion(self, table):
        return f"DELETE t FROM {self.quoted(table.name)} t JOIN {self.quoted(GIVEN)} g ON {self.same(table)}"

    def changing(self, table):
        name, given = self.quoted(table.name), self.quoted(GIVEN)
        return f"UPDATE {name} t JOIN {given} g ON {self.same(table)} SET {self.settings(table, 't.')}"

    def differ(self, column):
        name = self.quoted(column)
        return f"NOT (CAST(t.{name} AS BINARY) <=> CAST(g.{name} AS BINARY))"

    def text(self, table, column):
        return f"CAST({table}.{self.quoted(column)} AS CHAR)"
