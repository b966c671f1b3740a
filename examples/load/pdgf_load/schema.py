"""The tables of a schema, as databases and pictures need them. The schema's text is read and not judged: `pdgf check` does that."""

import dataclasses
import functools

from . import toml


class Unreadable(Exception):
    """The text is no schema that `pdgf check` accepts."""


@dataclasses.dataclass(frozen=True)
class Type:
    """What fields hold: `form` is `whole`, `fixed`, `date`, `uuid` or `text`."""

    form: str
    low: int  # of the forms `whole` and `fixed` the least number, without its point
    high: int  # and the greatest one
    decimals: int  # of those, how many digits stand after the point
    size: int  # the most bytes of a field, in UTF-8 and without escapes

    @property
    def digits(self):
        """How many digits a number has at most, of those forms."""
        return max(len(str(abs(self.low))), len(str(abs(self.high))), self.decimals + 1)


@dataclasses.dataclass(frozen=True)
class Column:
    name: str
    type: Type
    may_be_null: bool


@dataclasses.dataclass(frozen=True)
class Reference:
    column: str
    parent: str
    on_delete: str  # CASCADE or SET NULL
    lookups: tuple  # pairs: the column that shows, a lookup or a `parent`, and the column of the parent that is shown


@dataclasses.dataclass(frozen=True)
class Table:
    name: str
    columns: tuple
    references: tuple
    is_detail: bool = False
    is_scrambled: bool = False  # whether keys of a unit come in another order than that of the births

    @property
    def key(self):
        return self.columns[0].name

    @property
    def keys(self):
        """The columns by which a row is known: of a detail table the key of the parent's row and the number of the line."""
        return [it.name for it in self.columns[: 2 if self.is_detail else 1]]

    @property
    def values(self):
        return [it.name for it in self.columns[len(self.keys) :]]

    def column(self, name):
        return next(it for it in self.columns if it.name == name)


@dataclasses.dataclass(frozen=True)
class Schema:
    units: int
    delimiter: str
    tables: tuple  # the detail tables after the others
    word_lists: tuple  # the names of their files

    def table(self, name):
        return next(it for it in self.tables if it.name == name)


WRONG = (KeyError, TypeError, ValueError, IndexError, AttributeError, StopIteration)


def read_toml(path):
    try:
        with open(path, encoding="utf-8", newline="") as file:
            return toml.loads(file.read())
    except ValueError as error:
        raise Unreadable(f"{path} is no TOML: {error}") from None
    except OSError as error:
        raise Unreadable(f"{path} can't be read: {error.strerror}") from None


def declares_details(path):
    """Whether a file declares a detail table. What can't be read is taken for a schema."""
    try:
        return "parent" in read_toml(path)
    except Unreadable:
        return False


def read_schema(path, details=()):
    """The schema of a file, with the detail tables that others declare."""
    text = read_toml(path)
    try:
        tables = []
        for table in text["table"]:
            tables.append(read_table(table, tables))
        delimiter = {"tab": "\t", "bar": "|"}[text.get("delimiter", "tab")]
        schema = Schema(text["units"], delimiter, tuple(tables), word_lists_of(text))
    except WRONG as error:
        raise Unreadable(f"{path} is no schema, as `pdgf check` will tell: {error!r}") from None
    return dataclasses.replace(schema, tables=(*tables, *(read_details(it, schema) for it in details)))


def read_details(path, schema):
    """The detail table of a file. Its key has no names there: the first column gets the parent's, the second `number`."""
    text = read_toml(path)
    try:
        columns = []
        for column in text["column"]:
            columns.append(read_column(column, text, columns, schema.tables))
        for name in ("number", schema.table(text["parent"]).name):
            while name in [it.name for it in columns]:
                name += "_"
            columns.insert(0, Column(name, whole_of(0, 2**63), False))
        shown = tuple((it["name"], it["column"]) for it in text["column"] if it["kind"] == "parent")
        return Table(text["name"], tuple(columns), (Reference(columns[0].name, text["parent"], "CASCADE", shown),), is_detail=True)
    except WRONG as error:
        raise Unreadable(f"{path} declares no detail table, as `pdgf details` will tell: {error!r}") from None


def word_lists_of(text):
    names = {}
    for table in text["table"]:
        for column in table["column"]:
            for leaf in [column, *column.get("branches", [])]:
                if leaf["kind"] in ("dict", "words", "list"):
                    names[leaf["file"]] = None
    return tuple(names)


def read_table(table, earlier):
    columns = []
    for column in table["column"]:
        columns.append(read_column(column, table, columns, earlier))
    references = [reference_of(it, table) for it in table["column"] if it["kind"] == "ref"]
    return Table(table["name"], tuple(columns), tuple(references), is_scrambled=table["column"][0].get("scramble", False))


def reference_of(column, table):
    lookups = [it for it in table["column"] if it["kind"] == "lookup" and it["via"] == column["name"]]
    on_delete = "SET NULL" if column.get("on_delete") == "null" else "CASCADE"
    return Reference(column["name"], column["table"], on_delete, tuple((it["name"], it["column"]) for it in lookups))


def read_column(column, table, before, earlier):
    named = {it.name: it for it in before}
    may_be_null = column.get("null", 0) > 0
    match column["kind"]:
        case "template":
            type_ = text_of(sum(size_of_part(part, named) for part in column["parts"]))
        case "case":
            type_ = functools.reduce(common_type, [type_of(branch) for branch in column["branches"]])
            may_be_null = may_be_null or named[column["on"]].may_be_null
        case "lookup" | "parent":
            shown = next(it for it in earlier if it.name == parent_of(column, table)).column(column["column"])
            type_ = shown.type
            may_be_null = may_be_null or shown.may_be_null
        case "after":
            type_ = named[column["of"]].type
            may_be_null = may_be_null or named[column["of"]].may_be_null
        case "sum" | "product":
            operands = [named[it] for it in column["of"]]
            type_ = (sum_of if column["kind"] == "sum" else product_of)([it.type for it in operands])
            may_be_null = may_be_null or any(it.may_be_null for it in operands)
        case "ref":
            type_ = whole_of(0, 2**63)
            may_be_null = may_be_null or column.get("on_delete") == "null"
        case _:
            type_ = type_of(column)
    return Column(column["name"], type_, may_be_null)


def parent_of(column, table):
    """The name of the table whose column a lookup shows, or a `parent` of a detail table."""
    if column["kind"] == "parent":
        return table["parent"]
    return next(it for it in table["column"] if it["name"] == column["via"])["table"]


def size_of_part(part, named):
    return len(part.encode()) if isinstance(part, str) else max(named[part["column"]].type.size, part.get("width", 0))


def type_of(leaf):
    """The type of a kind that needs no other column."""
    match leaf["kind"]:
        case "key" | "born" | "changed":
            return whole_of(0, 2**63)
        case "int":
            return whole_of(leaf["lo"], leaf["hi"])
        case "skew":
            return whole_of(leaf["lo"], leaf["lo"] + leaf["size"] - 1)
        case "fixed":
            return fixed_of(leaf["lo"], leaf["hi"], leaf["decimals"])
        case "date" | "born_date" | "changed_date":
            return Type("date", 0, 0, 0, 10)
        case "pick":
            return text_of(max(len(it.encode()) for it in leaf["entries"]))
        case "chars":
            return text_of(leaf["hi"] * max(len(it.encode()) for it in leaf["alphabet"]))
        case "dict" | "list":
            return text_of(255)
        case "words":
            return text_of(leaf["hi"] * 256)
        case "uuid":
            return Type("uuid", 0, 0, 0, 36)
        case kind:
            raise ValueError(f"kind {kind}")


def whole_of(low, high):
    return Type("whole", low, high, 0, 20)


def fixed_of(low, high, decimals):
    return Type("fixed", low, high, decimals, 21)


def text_of(size):
    return Type("text", 0, 0, 0, max(size, 1))


def sum_of(types):
    decimals = max(it.decimals for it in types)
    ends = [scaled_ends(it, decimals) for it in types]
    return fixed_of(sum(low for low, _ in ends), sum(high for _, high in ends), decimals)


def product_of(types):
    low = high = 1
    for it in types:
        ends = [left * right for left in (low, high) for right in (it.low, it.high)]
        low, high = min(ends), max(ends)
    return fixed_of(low, high, sum(it.decimals for it in types))


def scaled_ends(type_, decimals):
    """The least and the greatest number of a type, with so many digits after the point."""
    factor = 10 ** (decimals - type_.decimals)
    return type_.low * factor, type_.high * factor


def common_type(left, right):
    """A type that holds what either holds."""
    size = max(left.size, right.size)
    if left.form == right.form and left.form in ("date", "uuid"):
        return left
    if {left.form, right.form} <= {"whole", "fixed"}:
        decimals = max(left.decimals, right.decimals)
        lows, highs = zip(scaled_ends(left, decimals), scaled_ends(right, decimals))
        return Type("fixed" if "fixed" in (left.form, right.form) else "whole", min(lows), max(highs), decimals, size)
    return text_of(size)
