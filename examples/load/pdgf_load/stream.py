"""Rows as a stream: lines in the text format of COPY with tabs, as bytes without their line feed, each with its key."""

import contextlib
import os
import re
import subprocess

from .server import Failed, program
from .text import BEFORE_BAR, CONTROLS, field

ABSENT = object()  # a field that a line doesn't have
NO_FIELD = r"\A"  # how it is written in a line
LONGEST = 1 << 24
ESCAPED = {"\\": r"\\", **{value: f"\\{name}" for name, value in CONTROLS.items()}}
TO_ESCAPE = re.compile("[\\\\\b-\r]")
WHOLE = re.compile(rb"(-?)0*([0-9]+)(?:\.0*)?")


def lines_of(file, what):
    """The lines of a file that is open for bytes, without their line feeds."""
    for number in range(1, 1 << 63):
        line = file.readline(LONGEST)
        if not line:
            return
        if len(line) == LONGEST:
            raise Failed(f"{what}: line {number} has 16 MiB or more")
        yield line.removesuffix(b"\n")


def written(value):
    """A field as a line has it."""
    if value is ABSENT:
        return "no field"
    if value is None:
        return r"\N"
    return TO_ESCAPE.sub(lambda found: ESCAPED[found[0]], value)


def line_of(values):
    return "\t".join(NO_FIELD if it is ABSENT else written(it) for it in values).encode("utf-8", "surrogateescape")


def values_of(line):
    """The fields of a line, None where one is null."""
    return [ABSENT if it == NO_FIELD else field(it) for it in line.decode("utf-8", "surrogateescape").split("\t")]


def canonical(line, delimiter):
    """A line with tabs between its fields, of one with the delimiter."""
    if delimiter == "\t":
        return line
    text = line.decode("utf-8", "surrogateescape")
    return line_of(field(it) for it in BEFORE_BAR.findall(text + "|"))


def key_of(line, parts):
    """The key of a line, as whole numbers; None where it has another one."""
    fields = line.split(b"\t", parts)[:parts]
    if len(fields) < parts:
        return None
    numbers = []
    for it in fields:
        found = WHOLE.fullmatch(it)
        if not found or found[1]:
            return None
        numbers.append(int(found[2]))
    return tuple(numbers)


@contextlib.contextmanager
def in_order_of_keys(keyed, parts):
    """The same lines with their keys, sorted by the program `sort`, which keeps in files what has no room in its memory."""
    numbers = [f"-k{it},{it}n" for it in range(1, parts + 1)]
    words = [program("sort"), "-s", "-t", "\t", "-S", "64M", *numbers]
    with contextlib.ExitStack() as stack:
        sort = stack.enter_context(ended(words, stdin=subprocess.PIPE, stderr=subprocess.PIPE, env={**os.environ, "LC_ALL": "C"}))
        try:
            for key, line in keyed:
                before = b"-1\t" * parts if key is None else b"%d\t" * parts % key
                sort.stdin.write(before + line + b"\n")
            sort.stdin.close()
        except BrokenPipeError:
            pass  # how it ended tells why
        yield sorted_lines(sort, parts)


def sorted_lines(sort, parts):
    for line in sort.stdout:
        *key, line = line[:-1].split(b"\t", parts)
        yield None if key[0] == b"-1" else tuple(map(int, key)), line
    check(sort, "sort")


@contextlib.contextmanager
def ended(words, **how):
    """A program whose output is read, and which is ended at the end."""
    run = subprocess.Popen(words, **{"stdin": subprocess.DEVNULL, "stdout": subprocess.PIPE, **how})
    try:
        yield run
    finally:
        for it in (run.stdin, run.stdout, run.stderr):
            if it:
                with contextlib.suppress(OSError):
                    it.close()
        if run.poll() is None:
            run.terminate()
        run.wait()


def checked(run, name, lines):
    """The lines of a program, which has to end well after them."""
    yield from lines
    check(run, name)


def check(run, name):
    """Gives up if a program that wrote all that it had to has failed."""
    told = run.stderr.read().decode(errors="replace").strip() if run.stderr else ""
    if run.wait() != 0:
        raise Failed(told or f"{name}: status {run.returncode}")
