"""The part of the page that shows each column of a table."""

from . import charts
from .markup import cut, joined, tag
from .numbers import counted, grouped, share

LONGEST = 60  # characters of a text that are shown
HINTED = 300  # and that a pointer over it shows


def of_table(report, table):
    sample = report.samples.get(table.name)
    if sample is None:
        return joined(tag("h3", "Columns"), tag("p", "The table never has a row.", class_="facts"))
    told = f"all {counted(sample.held, 'row')}" if sample.rows == sample.held else f"{grouped(sample.rows)} of {counted(sample.held, 'row')}"
    cards = [card(report.declared[table.name, column.name], column, spread) for column, spread in zip(table.columns, sample.spreads)]
    return joined(
        tag("h3", "Columns"),
        tag("p", f"From {told} at unit {sample.unit}.", class_="facts"),
        tag("div", cards, class_="columns"),
    )


def card(declared, column, spread):
    told = " ".join(it for it in (declared.kind, cut(declared.note, 2 * LONGEST)) if it)
    if declared.changes:
        told += ", changes"
    if declared.null:
        told += f", {declared.null} of 1,000 null"
    facts = [("null", share(spread.nulls, spread.rows)), ("distinct", grouped(spread.distinct)), *spread.facts]
    return tag(
        "article",
        tag("h4", column.name),
        tag("p", told, class_="kind"),
        picture(column, spread),
        tag("dl", [tag("div", tag("dt", f"{name} "), tag("dd", value)) for name, value in facts], class_="facts"),
        data_column=column.name,
    )


def picture(column, spread):
    if not spread.distinct:
        return tag("p", "all are null", class_="none")
    parts = []
    if spread.bars:
        parts.append(charts.histogram(f"{column.name}: {'lengths' if spread.below else 'values'}", spread.bars))
    if spread.entries:
        parts.append(entries(spread))
    if spread.examples:
        parts.append(tag("ul", [tag("li", text(it), title=cut(it, HINTED)) for it in spread.examples], class_="examples"))
    return joined(parts)


def text(value):
    """A text as an entry shows it."""
    return cut(value, LONGEST) if value else tag("i", "empty")


def entries(spread):
    """The most frequent entries with their shares of the rows that aren't null, and the others together."""
    there = spread.rows - spread.nulls
    rest = there - sum(count for _, count in spread.entries)
    most = max(rest, spread.entries[0][1])
    lines = [entry(text(it), it, count, there, most) for it, count in spread.entries]
    if rest:
        lines.append(entry(tag("i", counted(spread.distinct - len(spread.entries), "other")), None, rest, there, most))
    return tag("ol", lines, class_="entries")


def entry(shown, whole, count, there, most):
    """A line with a share, and a bar that is as long as can be for the most frequent one."""
    fill = tag("span", class_="fill", style=f"width:{100 * count / most:.1f}%")
    return tag(
        "li",
        tag("span", shown, class_="entry", title=None if whole is None else cut(whole, HINTED)),
        tag("span", fill, class_="track"),
        tag("span", share(count, there), class_="percent", title=grouped(count)),
    )
