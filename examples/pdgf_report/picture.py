"""The picture of four charts a table, by matplotlib."""

import logging

from .history import parents_by_children

logging.getLogger("matplotlib").setLevel(logging.ERROR)  # it tells of its caches
import matplotlib  # noqa: E402
from matplotlib.figure import Figure  # noqa: E402
from matplotlib.ticker import ScalarFormatter  # noqa: E402

COLOURS = {"inserted": "#009e73", "updated": "#e69f00", "deleted": "#d55e00"}


def draw(histories, name, units, path):
    matplotlib.rcParams.update({"svg.hashsalt": "pdgf", "svg.fonttype": "none", "font.size": 9})
    figure = Figure(figsize=(15, 0.6 + 2.6 * len(histories)), layout="constrained")
    figure.suptitle(f"{name}, units 0 to {units}", fontsize=13)
    axes = figure.subplots(len(histories), 4, squeeze=False)
    for history, row in zip(histories.values(), axes):
        draw_held(row[0], history, units)
        draw_changes(row[1], history, units)
        draw_lives(row[2], history)
        draw_children(row[3], history)
    figure.savefig(path, metadata={"Date": None} if path.endswith(".svg") else None)


def label(axis, title, below, beside):
    axis.set_title(title)
    axis.set_xlabel(below)
    axis.set_ylabel(beside)
    axis.xaxis.get_major_locator().set_params(integer=True)
    axis.set_ylim(bottom=0)
    axis.grid(alpha=0.3)


def draw_held(axis, history, units):
    axis.plot(range(units + 1), history.held, color="#0072b2", marker=".")
    label(axis, f"{history.table.name}: rows", "unit of time", "rows in the table")


def draw_changes(axis, history, units):
    """Unit 0 is left out: it inserts all that stands there."""
    for name, colour in COLOURS.items():
        axis.plot(range(1, units + 1), getattr(history, name)[1:], color=colour, marker=".", label=name)
    label(axis, f"{history.table.name}: what each unit does", "unit of time", "rows a unit")
    axis.legend()


def draw_lives(axis, history):
    lives = sorted(history.lives.items())
    axis.bar([it for it, _ in lives], [it for _, it in lives], color="#cc79a7")
    label(axis, f"{history.table.name}: lives, {sum(history.lives.values())} rows went, {len(history.births)} are there", "units lived", "rows that lived so long")
    if not lives:
        say_inside(axis, "no row went")


def draw_children(axis, history):
    few = 30
    for name, children in history.children.items():
        parents = parents_by_children(history, children) or [(0, 0)]
        axis.plot(
            [it for it, _ in parents], [it for _, it in parents], marker="o", markersize=4, linestyle=":", label=f"{name}, most {parents[-1][0]}"
        )
        if max(it for _, it in parents) > few:
            # One parent with many children is to be seen beside many with few.
            axis.set_yscale("symlog", linthresh=1)
            axis.yaxis.set_major_formatter(ScalarFormatter())
    label(axis, f"{history.table.name}: children a parent", "rows that refer to a row", "rows with so many")
    if history.children:
        axis.legend()
    else:
        say_inside(axis, "no table refers to it")


def say_inside(axis, text):
    axis.text(0.5, 0.5, text, transform=axis.transAxes, ha="center", va="center")
    axis.set_xticks([])
    axis.set_yticks([])
