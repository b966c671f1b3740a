"""What a schema declares of its columns, in a few words."""

import dataclasses

from pdgf_load.schema import WRONG, Unreadable, read_toml

OWN = ("kind", "name", "changes", "null")


@dataclasses.dataclass(frozen=True)
class Declared:
    """What is declared of a column."""

    kind: str
    source: str  # the kind whose values it holds: of a lookup, that of the column it shows
    note: str  # its keys, in words
    changes: bool
    null: int  # of a thousand fields


@dataclasses.dataclass(frozen=True)
class Lines:
    """How many lines of a detail table hang on a row."""

    low: int
    high: int


def read_declared(path, details, schema):
    """What is declared of each column, by its table and its name; and the lines of detail tables, by their names."""
    found, hung = {}, {}
    try:
        for table in read_toml(path)["table"]:
            read_columns(found, table["name"], table)
        for file in details:
            text = read_toml(file)
            table = schema.table(text["name"])
            key, number = table.keys
            found[table.name, key] = Declared("parent", "key", f"key of {text['parent']}", False, 0)
            found[table.name, number] = Declared("number", "number", "of the line", False, 0)
            read_columns(found, table.name, text)
            hung[table.name] = Lines(text["lo"], text["hi"])
    except WRONG as error:
        raise Unreadable(f"{path} is no schema, as `pdgf check` will tell: {error!r}") from None
    return found, hung


def read_columns(found, name, table):
    for column in table["column"]:
        shown = shown_column(column, table)
        source = found[shown].source if shown else column["kind"]
        if column["kind"] == "after":
            source = "date"
        found[name, column["name"]] = Declared(column["kind"], source, note(column, table), column.get("changes", False), column.get("null", 0))


def shown_column(column, table):
    """The table and the column that a column shows, if it shows one."""
    match column["kind"]:
        case "lookup":
            via = next(it for it in table["column"] if it["name"] == column["via"])
            return via["table"], column["column"]
        case "parent":
            return table["parent"], column["column"]
    return None


def note(column, table):
    """The keys of a column in words, without those that every kind has."""
    match column["kind"]:
        case "key":
            return f"from {column['base']}" + (", scrambled" if column.get("scramble") else "")
        case "born_date" | "changed_date":
            return f"unit 0 is {column['start']}, {days(column.get('step', 1))} a unit"
        case "int":
            return f"{column['lo']} to {column['hi']}" + (f" by {column['step']}" if column.get("step", 1) != 1 else "")
        case "fixed":
            return f"{pointed(column['lo'], column['decimals'])} to {pointed(column['hi'], column['decimals'])}"
        case "date":
            return f"{column['lo']} to {column['hi']}"
        case "skew":
            return f"{column['lo']} to {column['lo'] + column['size'] - 1}, power {column['power']}"
        case "ref":
            return note_of_reference(column)
        case "lookup":
            return f"{column['column']} of {shown_column(column, table)[0]}, by {column['via']}"
        case "parent":
            return f"{column['column']} of {table['parent']}"
        case _:
            return note_of_text(column)


def note_of_text(column):
    """The same, of texts and of what is made of other columns."""
    match column["kind"]:
        case "pick":
            return f"of {len(column['entries'])}" + (", weighted" if "weights" in column else "")
        case "chars":
            return f"{column['lo']} to {column['hi']} of {len(column['alphabet'])}"
        case "dict" | "list":
            return column["file"]
        case "words":
            return f"{column['lo']} to {column['hi']} of {column['file']}"
        case "case":
            return f"on {column['on']}: " + ", ".join(it["kind"] for it in column["branches"])
        case "template":
            return "".join(it if isinstance(it, str) else "{" + it["column"] + "}" for it in column["parts"])
        case "after":
            return f"{column['of']} and {column['lo']} to {days(column['hi'])}"
        case "sum":
            return " + ".join(column["of"])
        case "product":
            return " × ".join(column["of"])
    return ""


def note_of_reference(column):
    parts = [f"to {column['table']}", f"window {column['window']}"]
    if column.get("spread", [1]) != [1]:
        spread = [str(it) for it in column["spread"]]
        parts.append(f"spread {' '.join(spread if len(spread) < 10 else [*spread[:8], '…'])}")
    if column.get("deal") == "drawn":
        parts.append("drawn")
    if column.get("on_delete") == "null":
        parts.append("null when the parent goes")
    return ", ".join(parts)


def days(number):
    return f"{number} day" + ("" if number == 1 else "s")


def pointed(number, decimals):
    """A whole number with a point before its last digits."""
    digits = str(abs(number)).rjust(decimals + 1, "0")
    return ("-" if number < 0 else "") + (digits if decimals == 0 else f"{digits[:-decimals]}.{digits[-decimals:]}")
