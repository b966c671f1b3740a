"""The report as one page of HTML, which needs nothing else: no script, no file and no network."""

import os

from . import charts, columns
from .diagram import diagram
from .history import parents_by_children
from .markup import joined, tag
from .numbers import counted, grouped

CHANGES = ("inserted", "updated", "deleted")
SERIES = 6  # references of which a chart shows the children
RANGES = 200  # lines of a table of numbers


def page(report):
    """The page of a report, which is what `call.Report` has."""
    with open(f"{os.path.dirname(os.path.realpath(__file__))}/page.css", encoding="utf-8") as file:
        style = file.read()
    head = joined(
        tag("meta", charset="utf-8"),
        tag("meta", name="viewport", content="width=device-width, initial-scale=1"),
        tag("title", f"{report.name}: a report"),
    )
    parts = [header(report), contents(report), overview(report), drawing(report), [of_table(report, it) for it in report.histories.values()]]
    body = tag("body", parts)
    return f"<!DOCTYPE html>\n<html lang=\"en\"><head>{head}<style>\n{style}</style></head>\n{body}</html>\n".replace("<section", "\n<section")


def header(report):
    held = sum(it.held[-1] for it in report.histories.values())
    told = f"{counted(len(report.histories), 'table')}, units 0 to {report.units}, {counted(held, 'row')} at unit {report.units}"
    if report.units < report.schema.units:
        told += f" (the schema goes to unit {report.schema.units})"
    return tag("header", tag("h1", report.name), tag("p", told, class_="lead"))


def link(name):
    return tag("a", name, href=f"#t-{name}")


def contents(report):
    entries = [("#overview", "Overview"), ("#diagram", "Diagram"), *((f"#t-{name}", name) for name in report.histories)]
    return tag("nav", tag("ul", [tag("li", tag("a", text, href=place)) for place, text in entries]), aria_label="Contents")


def overview(report):
    names = ("Table", "Refers to", "Rows at 0", f"Rows at {report.units}", "Born", "Updates", "Deletions", "Sure life", "Cost", "Longest line")
    rows = [tag("tr", [tag("th", it, scope="col", class_="left" if it == "Refers to" else None) for it in names])]
    for history in report.histories.values():
        rows.append(overview_of(report, history))
    legend = "The last three columns are what check tells: how many units a row lives at least, the cost of a row, and the bytes of the longest line."
    if any(it.table.is_detail for it in report.histories.values()):
        legend += " It tells nothing of detail tables."
    return tag("section", tag("h2", "Overview"), tag("div", tag("table", rows), class_="wide"), tag("p", legend, class_="facts"), id="overview")


def overview_of(report, history):
    parents = list(dict.fromkeys(it.parent for it in history.table.references))
    told = report.checked.get(history.table.name, ("–", "–", "–"))
    numbers = (history.held[0], history.held[-1], history.born, sum(history.updated), sum(history.deleted))
    return tag(
        "tr",
        tag("td", link(history.table.name)),
        tag("td", listed([link(it) for it in parents]), class_="list"),
        [tag("td", grouped(it)) for it in numbers],
        [tag("td", grouped(int(it)) if it.isdigit() else it) for it in told],
        data_table=history.table.name,
    )


def listed(parts):
    return joined([[", " if place else "", it] for place, it in enumerate(parts)])


def drawing(report):
    told = "An arrow goes from a reference to its table, dashed if the reference becomes null when the row goes. A kind with ? can be null."
    if any(it.table.is_detail for it in report.histories.values()):
        told += " A dashed box is a detail table."
    told += f" Each box tells the rows at unit {report.units}."
    picture = diagram(report.schema, report.declared, report.histories)
    return tag("section", tag("h2", "Diagram"), tag("p", told, class_="facts"), tag("div", picture, class_="drawing"), id="diagram")


def of_table(report, history):
    table = history.table
    pictures = [held(history), changes(history), lives(history), children(history)]
    return tag(
        "section",
        tag("h2", table.name),
        tag("p", facts(report, history), class_="facts"),
        tag("div", pictures, class_="charts"),
        numbers(history),
        children_numbers(history),
        columns.of_table(report, table),
        id=f"t-{table.name}",
    )


def facts(report, history):
    """What a table is, in a few sentences."""
    table = history.table
    parts = []
    if table.name in report.hung:
        lines = report.hung[table.name]
        parts += [f"A detail table: {lines.low} to {lines.high} lines on each row of ", link(table.references[0].parent), ". "]
    elif table.references:
        parts += ["Refers to ", listed([joined(link(it.parent), f" by {it.column}") for it in table.references]), ". "]
    children_ = sorted({it.split(".")[0] for it in history.children})
    if children_:
        parts += ["Referred to by ", listed([link(it) for it in children_]), ". "]
    return joined(parts, f"{counted(history.born, 'row')} born, {counted(history.held[-1], 'row')} at unit {report.units}.")


def figure(title, picture, *legend):
    return tag("figure", tag("figcaption", title), picture, tag("ul", legend, class_="legend") if legend else "")


def nothing(text):
    return tag("p", text, class_="none")


def entry(class_, text):
    return tag("li", text, class_=class_)


def held(history):
    label = f"{history.table.name}: rows at each unit"
    return figure("Rows at each unit", charts.line_chart(label, 0, [("held", history.held)], "unit"))


def changes(history):
    """Unit 0 is left out: it inserts all that stands there."""
    lines = [(it, getattr(history, it)[1:]) for it in CHANGES]
    if not any(any(numbers_) for _, numbers_ in lines):
        return figure("What each unit does", nothing("no unit after 0" if len(history.held) == 1 else "no unit changes a row"))
    picture = charts.line_chart(f"{history.table.name}: rows that each unit inserts, updates and deletes", 1, lines, "unit")
    return figure("What each unit does", picture, *[entry(it, it) for it in CHANGES])


def lives(history):
    bars = sorted(history.lives.items())
    if not bars:
        return figure("Lives of the rows that went", nothing("no row went"))
    label = f"{history.table.name}: for how many units the rows lived that went"
    picture = charts.bar_chart(label, bars, "lives", "units lived")
    told = f"{grouped(sum(history.lives.values()))} went, {grouped(len(history.births))} are there"
    return figure("Lives of the rows that went", picture, entry("lives", told))


def children(history):
    named = {name: parents_by_children(history, it) for name, it in history.children.items()}
    most = sorted((name for name, it in named.items() if it), key=lambda it: -named[it][-1][0])[:SERIES]
    if not most:
        return figure("Children a parent", nothing("no table refers to it" if not named else "no row refers to it"))
    label = f"{history.table.name}: how many rows refer to a row"
    picture = charts.point_chart(label, [(f"ref{place}", named[it]) for place, it in enumerate(most)], "rows that refer to a row")
    legend = [entry(f"ref{place}", f"{it}, most {grouped(named[it][-1][0])}") for place, it in enumerate(most)]
    if len(named) > len(most):
        legend.append(entry("plain", f"and {len(named) - len(most)} more"))
    return figure("Children a parent", picture, *legend)


def numbers(history):
    """The same as numbers: of each unit, or of some units together where there are many."""
    many = -(-len(history.held) // RANGES)
    lines = [tag("tr", [tag("th", it, scope="col") for it in ("Unit", "Rows", "Inserted", "Updated", "Deleted")])]
    for begin in range(0, len(history.held), many):
        end = min(begin + many, len(history.held))
        sums = [grouped(sum(getattr(history, it)[begin:end])) for it in CHANGES]
        unit = f"{begin}" if end == begin + 1 else f"{begin} to {end - 1}"
        lines.append(tag("tr", [tag("td", it) for it in (unit, grouped(history.held[end - 1]), *sums)]))
    return tag("details", tag("summary", "Numbers of each unit"), tag("div", tag("table", lines, class_="units"), class_="wide"))


def children_numbers(history):
    if not history.children:
        return ""
    lines = [tag("tr", [tag("th", it, scope="col") for it in ("Reference", "Rows", "Parents with none", "Children a parent", "Most")])]
    for name, counter in history.children.items():
        rows = sum(counter.values())
        mean = f"{rows / history.born:.2f}" if history.born else "–"
        cells = (name, grouped(rows), grouped(history.born - len(counter)), mean, grouped(max(counter.values(), default=0)))
        lines.append(tag("tr", [tag("td", it) for it in cells]))
    return tag("details", tag("summary", "Numbers of children"), tag("div", tag("table", lines, class_="children"), class_="wide"))
