"""What the loads do in each database: a transaction of a unit, and the comparison with a snapshot."""

import os

from .server import Failed

GIVEN = "Given"  # no name of a schema has a capital letter


class Database:
    """A database with the tables of a schema. `session()` gives something that carries out statements in turn.

    A session has `begin`, `commit`, `execute(sql)`, `copy(target, columns, path)`, which appends the lines of a file to a table, `make_given(table,
    columns)`, an empty table `Given` with the types of a table's columns, `drop_given`, `expect(number, query, message)`, which gives up
    where a query answers another number, `answer(query)`, the answer's lines as lists of fields, and `finish`, by which all is carried out.

    `carry_out(path)` runs a script of the program, each statement by itself.
    """

    dialect = None

    def __init__(self, schema):
        self.schema = schema
        self.held = {}

    def quoted(self, *names):
        return ", ".join(self.dialect.quoted(it) for it in names)

    def columns(self, table):
        return [it.name for it in table.columns]

    def play(self, unit, texts, lines, is_base):
        """Carries out a unit as one transaction, by the files of a folder: `lines(path)` counts those of one. The base is a snapshot.

        A table stands after those that it refers to. So rows are deleted from the last table on, and inserted from the first: a row
        that is deleted is one that no row refers to.
        """
        session = self.session()
        session.begin()
        tables = self.schema.tables
        if is_base:
            for table in tables:
                path = f"{texts}/{table.name}.tbl"
                session.copy(table.name, self.columns(table), path)
                self.held[table.name] = lines(path)
        else:
            for table in reversed(tables):
                self.delete(session, table, f"{texts}/{table.name}.{unit}.del", lines)
            for table in tables:
                self.update(session, table, f"{texts}/{table.name}.{unit}.upd", lines)
            for table in tables:
                path = f"{texts}/{table.name}.{unit}.ins"
                if inserted := lines(path):
                    session.copy(table.name, self.columns(table), path)
                    self.held[table.name] += inserted
        for table in tables:
            # A row that went with its parent, and which the files don't delete, is told of here.
            due = self.held[table.name]
            session.expect(due, f"SELECT count(*) FROM {self.quoted(table.name)}", f"{table.name} has not the {due} rows that it should")
        session.commit()
        session.finish()

    def delete(self, session, table, path, lines):
        if deleted := lines(path):
            self.give(session, table, table.keys, path)
            session.execute(self.deletion(table))
            session.drop_given()
            self.held[table.name] -= deleted

    def update(self, session, table, path, lines):
        if lines(path):
            self.give(session, table, self.columns(table), path)
            if table.values:
                session.execute(self.changing(table))
            session.drop_given()

    def give(self, session, table, columns, path):
        """Takes the lines of a file into the table `Given`, each of which has to have its row."""
        session.make_given(table, columns)
        session.copy(GIVEN, columns, path)
        absent = f"SELECT count(*) FROM {self.quoted(GIVEN)} g WHERE NOT EXISTS (SELECT 1 FROM {self.quoted(table.name)} t WHERE {self.same(table)})"
        session.expect(0, absent, f"{os.path.basename(path)} has keys that {table.name} has not")

    def same(self, table):
        """That a row `t` of a table has the key of a row `g` of `Given`."""
        return " AND ".join(f"t.{it} = g.{it}" for it in map(self.quoted, table.keys))

    def settings(self, table, prefix=""):
        return ", ".join(f"{prefix}{it} = g.{it}" for it in map(self.quoted, table.values))

    def deletion(self, table):
        keys = self.quoted(*table.keys)
        return f"DELETE FROM {self.quoted(table.name)} WHERE ({keys}) IN (SELECT {keys} FROM {self.quoted(GIVEN)})"

    def changing(self, table):
        return f"UPDATE {self.quoted(table.name)} AS t SET {self.settings(table)} FROM {self.quoted(GIVEN)} g WHERE {self.same(table)}"

    def difference(self, table, path, lines):
        """How a table differs from the text of a snapshot, as lines to be shown; none where it doesn't.

        The text is taken into a table of the same types first: so no difference comes from how a type writes its values.
        """
        columns = self.columns(table)
        session = self.session()
        session.make_given(table, columns)
        session.copy(GIVEN, columns, path)
        name = self.quoted(table.name)
        equal = " AND ".join([self.same(table), *(f"NOT ({self.differ(it)})" for it in table.values)])
        wanted = lines(path)
        absent = f"SELECT count(*) FROM {self.quoted(GIVEN)} g WHERE NOT EXISTS (SELECT 1 FROM {name} t WHERE {equal})"
        answer = session.answer(f"SELECT (SELECT count(*) FROM {self.quoted(GIVEN)}), (SELECT count(*) FROM {name}), ({absent})")
        session.finish()
        given, held, wrong = (int(it) for it in answer()[0])
        if given != wanted:
            raise Failed(f"{os.path.basename(path)} has {wanted} lines, and {given} were taken")
        if held == wanted and wrong == 0:
            return []
        return [f"{held} rows, {wanted} in the snapshot, {wrong} of these absent or different", *self.examples(table, path)]

    def examples(self, table, path):
        """Some fields that differ, and rows that only one of both has."""
        columns = self.columns(table)
        session = self.session()
        session.make_given(table, columns)
        session.copy(GIVEN, columns, path)
        name, given, same = self.quoted(table.name), self.quoted(GIVEN), self.same(table)
        held, wanted = (", ".join(self.text(side, it) for it in table.keys) for side in "tg")
        queries = [
            f"SELECT {held}, '{it}', {self.text('t', it)}, {self.text('g', it)} FROM {name} t JOIN {given} g ON {same} WHERE {self.differ(it)}"
            for it in table.values
        ]
        queries.append(f"SELECT {held}, '', 'there', 'no such row' FROM {name} t WHERE NOT EXISTS (SELECT 1 FROM {given} g WHERE {same})")
        queries.append(f"SELECT {wanted}, '', 'no such row', 'there' FROM {given} g WHERE NOT EXISTS (SELECT 1 FROM {name} t WHERE {same})")
        answer = session.answer(" UNION ALL ".join(queries) + " LIMIT 5")
        session.finish()
        return [self.example(table, *it) for it in answer()]

    @staticmethod
    def example(table, *fields):
        *key, column, held, wanted = fields
        place = ", ".join([*(f"{name} {it}" for name, it in zip(table.keys, key)), *([column] if column else [])])
        return f"{place}: {held} in the table, {wanted} in the snapshot"


class Script:
    """A session of a client that reads a file of statements."""

    def __init__(self):
        self.parts = []

    def execute(self, sql):
        self.parts.append(f"{sql};\n")

    def begin(self):
        self.execute("BEGIN")

    def commit(self):
        self.execute("COMMIT")

    def answer(self, query):
        self.execute(query)
        return lambda: self.answered

    def drop_given(self):
        self.execute(f"DROP TABLE {self.given}")


def as_text(text):
    """A text of SQL."""
    return "'" + text.replace("'", "''") + "'"
