"""The texts that the program writes: lines with fields, escaped as in the text format of PostgreSQL's COPY."""

import re

ESCAPE = re.compile(r"\\(.)", re.S)
CONTROLS = {"b": "\b", "t": "\t", "n": "\n", "v": "\v", "f": "\f", "r": "\r"}
BEFORE_BAR = re.compile(r"((?:[^|\\]|\\.)*)\|", re.S)


def field(text):
    """What a field of a line holds, None where it is null."""
    if "\\" not in text:
        return text
    if text == r"\N":
        return None
    return ESCAPE.sub(lambda found: CONTROLS.get(found[1], found[1]), text)


def rows(path, delimiter):
    """The fields of each line of a file. In a text a tab is written `\\t`, and where bars stand between the fields a bar `\\|`."""
    with open(path, encoding="utf-8", newline="\n") as file:
        for line in file:
            line = line.removesuffix("\n")
            if "\\" not in line:
                yield line.split(delimiter)
            else:
                fields = line.split(delimiter) if delimiter == "\t" else BEFORE_BAR.findall(line + "|")
                yield [field(it) for it in fields]


def blocks(path):
    with open(path, "rb") as file:
        yield from iter(lambda: file.read(1 << 20), b"")


def lines(path):
    """How many lines a file has."""
    return sum(block.count(b"\n") for block in blocks(path))


def holds_nul(path):
    return any(b"\0" in block for block in blocks(path))
