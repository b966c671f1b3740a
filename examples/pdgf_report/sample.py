"""How the values of each column are distributed, in a sample of a table's rows."""

import collections
import dataclasses
import datetime
import math
import random

from pdgf_load.server import Failed
from pdgf_load.text import lines, rows

from .kinds import pointed

SHOWN = 8  # entries of a column
SHOWN_TEXTS = 3  # below a histogram
FEW = 20  # entries that are shown though the kind has no list of them
LISTED = ("pick", "dict", "list")
UNSUMMED = ("key", "ref", "number")
BARS = 30


@dataclasses.dataclass
class Bars:
    """Counts of values that follow one another."""

    low: int  # the least value
    high: int  # the greatest one
    step: int  # from a value to the next: all are some steps from the least one
    width: int  # how many steps a bar has
    counts: list
    show: object  # how a value is written


@dataclasses.dataclass
class Spread:
    """What a sample tells of a column."""

    rows: int
    nulls: int
    distinct: int
    facts: list  # pairs of a name and a value
    bars: Bars | None = None  # of numbers, of dates, and of lengths
    below: str = ""  # what the bars count by
    entries: list | None = None  # the most frequent ones, pairs of a text and its count
    examples: list | None = None  # some texts, where each stands once


@dataclasses.dataclass
class Sample:
    unit: int
    rows: int  # of the sample
    held: int  # of the table at that unit
    spreads: list  # for each column


def samples_of(schema, program, histories, declared, limit, folder):
    """A sample of each table that ever had a row: at the last unit, or at the last one at which it has a row."""
    units = collections.defaultdict(list)
    for history in histories.values():
        if any(history.held):
            units[max(unit for unit, held in enumerate(history.held) if held)].append(history.table)
    found = {}
    for unit, tables in units.items():
        texts = program.texts("snapshot", unit, folder)
        for table in tables:
            found[table.name] = sample_of(table, f"{texts}/{table.name}.tbl", schema.delimiter, unit, declared, limit)
            if found[table.name].held != histories[table.name].held[unit]:
                raise Failed(f"{table.name} has {found[table.name].held} rows at unit {unit}, and {histories[table.name].held[unit]} by the units up to it")
    return found


def sample_of(table, path, delimiter, unit, declared, limit):
    held = lines(path)
    chosen = drawn_rows(path, delimiter, held, limit)
    columns = zip(*chosen)
    spreads = [spread_of(declared[table.name, it.name], it.type, values) for it, values in zip(table.columns, columns)]
    return Sample(unit, len(chosen), held, spreads)


def drawn_rows(path, delimiter, held, limit):
    """All rows of a file, or so many that are drawn: the same ones at each call."""
    if held <= limit:
        return list(rows(path, delimiter))
    places = set(random.Random(held).sample(range(held), limit))
    return [fields for place, fields in enumerate(rows(path, delimiter)) if place in places]


def spread_of(declared, type_, values):
    there = [it for it in values if it is not None]
    counts = collections.Counter(there)
    spread = Spread(len(values), len(values) - len(there), len(counts), [])
    if counts:
        match type_.form:
            case "whole" | "fixed":
                of_numbers(spread, counts, type_.decimals, declared.source not in UNSUMMED)
            case "date":
                of_dates(spread, counts)
            case _:
                of_texts(spread, counts, declared.source)
    return spread


def of_numbers(spread, counts, decimals, is_summed):
    numbers = collections.Counter()
    for text, count in counts.items():
        numbers[scaled(text, decimals)] += count
    spread.bars = bars_of(numbers, lambda it: pointed(it, decimals))
    spread.facts = range_of(numbers, spread.bars.show)
    if is_summed:
        mean = sum(it * count for it, count in numbers.items()) / sum(numbers.values()) / 10**decimals
        spread.facts.append(("mean", f"{mean:.{max(decimals, 1)}f}"))


def of_dates(spread, counts):
    days = collections.Counter({datetime.date.fromisoformat(text).toordinal(): count for text, count in counts.items()})
    spread.bars = bars_of(days, lambda it: datetime.date.fromordinal(it).isoformat())
    spread.facts = range_of(days, spread.bars.show)


def of_texts(spread, counts, source):
    """The most frequent entries. Where they are many, and no list has them, also how long the texts are."""
    in_order = sorted(counts.items(), key=lambda it: (-it[1], it[0]))
    if source in LISTED or len(counts) <= FEW:
        spread.entries = in_order[:SHOWN]
        return
    lengths = collections.Counter()
    for text, count in counts.items():
        lengths[len(text)] += count
    spread.facts = range_of(lengths, str, "length")
    repeated = [it for it in in_order[:SHOWN_TEXTS] if it[1] > 1]
    spread.entries = repeated or None
    spread.examples = [] if repeated else [text for text, _ in in_order[:SHOWN_TEXTS]]
    if len(lengths) > 1:
        spread.bars = bars_of(lengths, str)
        spread.below = "characters"


def range_of(numbers, show, name=""):
    """The least and the greatest value, or the only one."""
    low, high = show(min(numbers)), show(max(numbers))
    return [(name or "all", low)] if low == high else [(name or "range", f"{low} to {high}")]


def scaled(text, decimals):
    """A number with a point as a whole one, of so many digits after the point."""
    whole, _, part = text.partition(".")
    return int(whole + part.ljust(decimals, "0"))


def bars_of(numbers, show):
    low, high = min(numbers), max(numbers)
    step = math.gcd(*(it - low for it in numbers)) or 1
    span = (high - low) // step + 1
    width = width_of(span)
    counts = [0] * -(-span // width)
    for it, count in numbers.items():
        counts[(it - low) // step // width] += count
    return Bars(low, high, step, width, counts, show)


def width_of(span):
    """How many steps a bar has, so that the last one lacks as few as can be."""
    least = -(-span // BARS)
    return min(range(least, min(2 * least, least + 100) + 1), key=lambda it: (-span % it / it, it))
