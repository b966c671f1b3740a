"""Logical replication from one PostgreSQL to another, compared with the snapshots on both sides."""

import time

from .database import as_text
from .postgres import Postgres, served
from .run import Program, Request, Words, carried_out, option, say_as, tables_of
from .schema import read_schema
from .server import Failed, room
from .text import lines

USAGE = """usage: examples/load/replicate [--units N] [--publish LIST] FOLDER|SCHEMA

Starts two servers of PostgreSQL, makes a schema's tables in both and loads unit 0 into the first one. Then it publishes them there,
subscribes to them in the second, plays what the units 1 to N (10, or the schema's last one) do in the first, and compares both
with the snapshot of each unit. The detail tables that files of FOLDER declare go with them. LIST is what is published, `insert, update,
delete` where it isn't named.

The status is 0 where all is equal, 1 where a table differs or a step fails, 2 for words that aren't known, and 3 where something
that is needed isn't installed. The variable PDGF names another program than the repository's own.
"""

say = say_as("replicate")


def publish(source, target, tables, actions):
    """Publishes tables of one database, by their names, and subscribes to them in another."""
    named = source.quoted(*tables)
    source.run(f"CREATE PUBLICATION pdgf FOR TABLE {named} WITH (publish = {as_text(actions)});")
    environment = source.environment
    place = f"host={environment['PGHOST']} port={environment['PGPORT']} user={environment['PGUSER']} dbname={environment['PGDATABASE']}"
    target.run(f"CREATE SUBSCRIPTION pdgf CONNECTION {as_text(place)} PUBLICATION pdgf;")


def wait_until_replayed(source, target):
    """Waits until the second database has what was committed in the first one by now."""
    written = source.run("SELECT pg_current_wal_insert_lsn();")[0][0]
    replayed = f"SELECT count(*) FROM pg_stat_replication WHERE application_name = 'pdgf' AND replay_lsn >= {as_text(written)};"
    copied = "SELECT count(*) FROM pg_subscription_rel WHERE srsubstate <> 'r';"
    for _ in range(1200):
        if target.run(copied) == [["0"]] and source.run(replayed) == [["1"]]:
            return
        time.sleep(0.1)
    raise Failed("the second server doesn't follow the first one")


def are_equal(program, unit, folder, databases):
    texts = program.texts("snapshot", unit, f"{folder}/wanted")
    counts = []
    for table in databases[0].schema.tables:
        path = f"{texts}/{table.name}.tbl"
        for database, side in zip(databases, ("publisher", "subscriber")):
            if found := database.difference(table, path, lines):
                say(f"unit {unit}: {table.name} of the {side} differs: {found[0]}")
                for it in found[1:]:
                    say(f"  {it}")
                return False
        counts.append(f"{table.name} {lines(path)}")
    say(f"unit {unit}: {', '.join(counts)}: equal in both")
    return True


def replicate(words):
    words = list(words)
    actions = option(words, "--publish", "insert, update, delete")
    last = option(words, "--units", "10")
    request = Request(words)
    if request.command or not last.isascii() or not last.isdigit():
        raise Words
    path, details = request.schema_path(), request.detail_paths()
    program = Program(path, details)
    program.check()
    schema = read_schema(path, details)
    with room() as first, room() as second, served(first, "wal_level = logical\n") as there, served(second) as here:
        source, target = Postgres(schema, first, there), Postgres(schema, second, here)
        sql = tables_of(request, source, schema, program.folder)
        for it in (source, target):
            it.make_tables(sql)
        for unit in range(min(int(last), schema.units) + 1):
            source.play(unit, program.texts("unit" if unit else "snapshot", unit, f"{first}/texts"), lines, is_base=unit == 0)
            if unit == 0:
                source.settle()
                publish(source, target, [it.name for it in schema.tables], actions)
            wait_until_replayed(source, target)
            if not are_equal(program, unit, first, (source, target)):
                return 1
    return 0


def main(words):
    return carried_out("replicate", USAGE, replicate, words)
