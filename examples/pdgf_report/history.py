"""What the rows of the tables do from unit to unit, counted one by one in the texts of the program."""

import collections

from pdgf_load.server import Failed
from pdgf_load.text import lines, rows


class History:
    """What the rows of a table did, up to a unit."""

    def __init__(self, table):
        self.table = table
        self.held = []  # at each unit
        self.inserted, self.updated, self.deleted = [], [], []  # by each unit
        self.births = {}  # of the keys that are there
        self.lives = collections.Counter()  # of the rows that went
        self.born = 0
        self.children = {}  # for each reference to this table, how many rows each key has

    def key(self, fields):
        """The key of a row; of a line of a detail table, with its number."""
        return fields[0] if not self.table.is_detail else f"{fields[0]}\t{fields[1]}"


def histories_of(schema, program, units, folder):
    """The histories of all tables, by their names."""
    histories = {it.name: History(it) for it in schema.tables}
    for unit in range(units + 1):
        step(histories, schema, program, unit, folder)
    return histories


def step(histories, schema, program, unit, folder):
    """What a unit does."""
    texts = program.texts("unit" if unit else "snapshot", unit, folder)
    for history in histories.values():
        stem = f"{texts}/{history.table.name}"
        history.updated.append(lines(f"{stem}.{unit}.upd") if unit else 0)
        history.deleted.append(delete(history, schema, unit, f"{stem}.{unit}.del") if unit else 0)
        history.inserted.append(insert(histories, history, schema, unit, f"{stem}.{unit}.ins" if unit else f"{stem}.tbl"))
        history.born += history.inserted[-1]
        history.held.append(len(history.births))


def delete(history, schema, unit, path):
    deleted = 0
    for fields in rows(path, schema.delimiter):
        birth = history.births.pop(history.key(fields), None)
        if birth is None:
            raise Failed(f"unit {unit} deletes a row of {history.table.name} that isn't there")
        history.lives[unit - birth] += 1
        deleted += 1
    return deleted


def insert(histories, history, schema, unit, path):
    names = [it.name for it in history.table.columns]
    counters = [
        (names.index(it.column), histories[it.parent].children.setdefault(f"{history.table.name}.{it.column}", collections.Counter()))
        for it in history.table.references
    ]
    inserted = 0
    for fields in rows(path, schema.delimiter):
        inserted += 1
        history.births[history.key(fields)] = unit
        for place, counter in counters:
            counter[fields[place]] += 1
    return inserted


def parents_by_children(history, children):
    """How many rows of a table have so many rows that refer to them, from few to many."""
    parents = collections.Counter(children.values())
    parents[0] = history.born - len(children)
    return sorted((count, rows_) for count, rows_ in parents.items() if rows_)
