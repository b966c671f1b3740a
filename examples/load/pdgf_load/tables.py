"""The tables of a schema as SQL, for PostgreSQL, SQLite and MariaDB."""


class Dialect:
    """What the databases write in different ways."""

    quotes = '"'
    key_type = "bigint"
    options = ""
    indexes_references = False  # whether a foreign key makes the index that a deletion of a parent needs

    def quoted(self, name):
        return f"{self.quotes}{name}{self.quotes}"

    def type(self, type_):
        match type_.form:
            case "whole":
                return "bigint"
            case "fixed":
                return f"numeric({type_.digits}, {type_.decimals})"
            case form:
                return form

    def may_be_indexed(self, types):
        """Whether fields of these types, with a key, can stand in one index: an entry of PostgreSQL's has 2,704 bytes."""
        return sum(it.size for it in types) <= 2000

    def index(self, table, column):
        return f"CREATE INDEX ON {self.quoted(table)} ({self.quoted(column)});"


class Postgres(Dialect):
    name = "postgres"


class Sqlite(Dialect):
    name = "sqlite"
    key_type = "integer"  # with any other word the key isn't the number by which SQLite finds a row

    def type(self, type_):
        """SQLite keeps a number with a point as a double, which has 15 digits, and has no dates and no UUIDs."""
        if type_.form in ("date", "uuid") or (type_.form == "fixed" and type_.digits > 15):
            return "text"
        return super().type(type_)

    def index(self, table, column):
        # A name of all tables and indexes. With a point in it, it's no table's.
        name = self.quoted(f"{table}.{column}")
        return f"CREATE INDEX {name} ON {self.quoted(table)} ({self.quoted(column)});"


class Mariadb(Dialect):
    name = "mariadb"
    quotes = "`"
    # Without these, texts that differ in case or in blanks at the end are equal, or some characters are refused.
    options = " DEFAULT CHARACTER SET utf8mb4 COLLATE utf8mb4_nopad_bin"
    indexes_references = True
    longest_varchar = 200  # 64 of them have room in a row

    def type(self, type_):
        if type_.form == "text" and type_.size <= self.longest_varchar:
            return f"varchar({type_.size})"
        if type_.form == "uuid":
            return f"char({type_.size})"
        return super().type(type_)

    def may_be_indexed(self, types):
        # An index has 3,072 bytes, counts 4 for a character, and takes no `text`.
        texts = [it.size for it in types if it.form in ("text", "uuid")]
        return all(size <= self.longest_varchar for size in texts) and sum(texts) <= 700


DIALECTS = {it.name: it for it in (Postgres(), Sqlite(), Mariadb())}


def tables_as_sql(schema, dialect):
    return "\n".join(table_as_sql(schema, table, dialect) for table in schema.tables)


def table_as_sql(schema, table, dialect):
    quoted = dialect.quoted
    parts = [column_as_sql(table, column, dialect) for column in table.columns]
    if table.is_detail:
        parts.append(f"PRIMARY KEY ({list_of(table.keys, dialect)})")
    for columns in shown_together(schema, table, dialect):
        parts.append(f"UNIQUE ({list_of([table.key, *columns], dialect)})")
    for reference in table.references:
        parent = schema.table(reference.parent)
        for pairs in [[], *checked_lookups(schema, reference, dialect)]:
            own = list_of([reference.column, *(it for it, _ in pairs)], dialect)
            other = list_of([parent.key, *(it for _, it in pairs)], dialect)
            parts.append(f"FOREIGN KEY ({own}) REFERENCES {quoted(parent.name)} ({other}) ON DELETE {reference.on_delete}")
    lines = ",\n".join(f"    {it}" for it in parts)
    text = f"CREATE TABLE {quoted(table.name)} (\n{lines}\n){dialect.options};\n"
    # The primary key of a detail table begins with its reference, and so is the index of it.
    if not dialect.indexes_references and not table.is_detail:
        for reference in table.references:
            text += dialect.index(table.name, reference.column) + "\n"
    return text


def column_as_sql(table, column, dialect):
    name = dialect.quoted(column.name)
    if [column.name] == table.keys:
        return f"{name} {dialect.key_type} PRIMARY KEY"
    return f"{name} {dialect.type(column.type)}{'' if column.may_be_null else ' NOT NULL'}"


def list_of(names, dialect):
    return ", ".join(dialect.quoted(it) for it in names)


def checked_lookups(schema, reference, dialect):
    """The lookups by a reference that a further foreign key checks, as none or one list of pairs of columns."""
    parent = schema.table(reference.parent)
    pairs, shown = [], {parent.key}
    for own, other in reference.lookups:
        if other not in shown:
            shown.add(other)
            pairs.append((own, other))
    indexed = dialect.may_be_indexed([parent.column(it).type for _, it in pairs])
    return [pairs] if pairs and indexed else []


def shown_together(schema, table, dialect):
    """The columns of a table that the foreign keys of lookups take together with its key."""
    lists = {}
    for child in schema.tables:
        for reference in child.references:
            if reference.parent == table.name:
                for pairs in checked_lookups(schema, reference, dialect):
                    lists[tuple(it for _, it in pairs)] = None
    return list(lists)
