"""A call of `examples/report`: its words, and what it does."""

import dataclasses
import os
import subprocess
import sys

from pdgf_load.run import Program, Words, details_in, option, schema_path
from pdgf_load.schema import Schema, Unreadable, read_schema
from pdgf_load.server import Failed, Missing, end_by_signals, room

from .history import histories_of
from .kinds import read_declared
from .page import page
from .sample import samples_of

PICTURES = (".svg", ".png")
SAMPLE = 10_000


@dataclasses.dataclass
class Report:
    """All that the page shows."""

    name: str  # of the schema's file
    schema: Schema
    units: int  # the last unit that is shown
    checked: dict  # what `check` tells of each table: sure life, cost, longest line
    declared: dict  # of each column
    hung: dict  # of each detail table, how many lines a row has
    histories: dict
    samples: dict


class Request:
    def __init__(self, words):
        words = list(words)
        self.last = number(option(words, "--units", None))
        self.sample = number(option(words, "--sample", None))
        self.out = option(words, "--out", None)
        self.specs = []
        while "--spec" in words:
            self.specs.append(os.path.abspath(option(words, "--spec", None)))
        if len(words) != 1 or words[0].startswith("-"):
            raise Words
        self.path = schema_path(words[0])
        if not os.path.isfile(self.path):
            raise Failed(f"there is no file {self.path}")
        self.details = self.specs or details_in(words[0])
        self.out = self.out or os.path.splitext(os.path.basename(self.path))[0] + ".svg"
        self.is_picture = self.out.endswith(PICTURES)
        if not self.out.endswith((*PICTURES, ".html")) or self.sample == 0 or (self.is_picture and (self.specs or self.sample)):
            raise Words
        if not os.path.isdir(os.path.dirname(self.out) or "."):
            raise Failed(f"there is no folder {os.path.dirname(self.out)}")


def number(word):
    if word is not None and not (word.isascii() and word.isdigit()):
        raise Words
    return None if word is None else int(word)


def report(words):
    request = Request(words)
    draw = picture() if request.is_picture else None
    details = () if request.is_picture else tuple(request.details)
    program = Program(request.path, details)
    program.check()
    schema = read_schema(request.path, details)
    refuse_equal_names(schema)
    units = schema.units if request.last is None else min(request.last, schema.units)
    name = os.path.basename(request.path)
    with room() as folder:
        histories = histories_of(schema, program, units, f"{folder}/texts")
        if not draw:
            declared, hung = read_declared(request.path, details, schema)
            samples = samples_of(schema, program, histories, declared, request.sample or SAMPLE, f"{folder}/texts")
            text = page(Report(name, schema, units, checked(program), declared, hung, histories, samples))
    if draw:
        draw(histories, name, units, request.out)
    else:
        with open(request.out, "w", encoding="utf-8", newline="\n") as file:
            file.write(text)
    print(f"report: {request.out} shows {len(histories)} tables at the units 0 to {units}")
    return 0


def picture():
    """The function that draws a picture, if matplotlib is there."""
    try:
        from .picture import draw
    except ImportError as error:
        raise Missing(f"python3-matplotlib, without which --out must end with .html ({error})") from None
    return draw


def refuse_equal_names(schema):
    names = [it.name for it in schema.tables]
    for it in names:
        if names.count(it) > 1:
            raise Failed(f"two tables have the name {it}")


def checked(program):
    """What `check` tells of each table after its name and the rows born: sure life, cost and longest line."""
    ran = subprocess.run(program.words("check"), cwd=program.folder, stdin=subprocess.DEVNULL, capture_output=True, text=True)
    if ran.returncode != 0:
        raise Failed(ran.stderr.strip())
    fields = [it.split("\t") for it in ran.stdout.splitlines()]
    return {it[0]: tuple(it[2:]) for it in fields}


def main(words, usage, without):
    """Carries out a call. `without` is called if something isn't there, before that is told: another Python may have it."""
    if words == ["--help"]:
        print(usage, end="")
        return 0
    end_by_signals()
    try:
        return report(words)
    except Words:
        print(usage, end="", file=sys.stderr)
        return 2
    except Missing as error:
        without()
        print(f"report: missing: {error}", file=sys.stderr)
        return 3
    except (Failed, Unreadable, OSError) as error:
        print(f"report: {error}", file=sys.stderr)
        return 1
    except KeyboardInterrupt:
        return 130
