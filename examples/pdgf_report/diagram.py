"""The tables and their references as a diagram: parents at the left, and an arrow from each reference to its table."""

from .charts import words
from .markup import Markup, joined, tag
from .numbers import compact

LETTER = 7.3  # the width of a letter of the boxes, in a font of one width
HEAD, LINE, PAD = 26, 17, 9
ACROSS, DOWN = 64, 22  # between boxes
WIDEST = 1500  # what is still shown whole on the page
TALLEST = 1000  # of a column of boxes, if no box is taller
DUMMY = 10  # the height of a place through which an arrow goes


class Box:
    """A table, or a place through which an arrow goes between two of them."""

    def __init__(self, table, declared, held):
        self.table, self.held = table, compact(held) if table else ""
        self.kinds = [declared[table.name, it.name].kind + ("?" if it.may_be_null else "") for it in table.columns] if table else []
        self.x = self.y = 0.0
        self.height = HEAD + LINE * len(self.kinds) + 6 if table else DUMMY
        self.width = self.letters() * LETTER + 2 * PAD if table else 0

    def letters(self):
        """How many letters the longest line has."""
        lines = zip([self.table.name, *(it.name for it in self.table.columns)], [self.held, *self.kinds])
        return max(len(name) + len(told) + 2 for name, told in lines)

    def row(self, column):
        """The height at which a column stands."""
        place = [it.name for it in self.table.columns].index(column)
        return self.y + HEAD + LINE * place + LINE / 2 + 2

    @property
    def middle(self):
        return self.y + self.height / 2


class Arrow:
    """A reference, with the boxes that it goes through: the child's, places between, the parent's."""

    def __init__(self, reference, way):
        self.reference, self.way = reference, way


def diagram(schema, declared, histories):
    boxes = {it.name: Box(it, declared, histories[it.name].held[-1]) for it in schema.tables}
    arrows = [Arrow(ref, [boxes[it.name], boxes[ref.parent]]) for it in schema.tables for ref in it.references]
    width, height = laid_out(boxes, arrows)
    return tag(
        "svg",
        [drawn_arrow(it) for it in arrows],
        [drawn_box(it) for it in boxes.values()],
        class_="diagram",
        viewBox=f"0 0 {width:.0f} {height:.0f}",
        width=f"{width:.0f}",
        height=f"{height:.0f}",
        role="group",
        aria_label="The tables, their columns and their references",
    )


def laid_out(boxes, arrows):
    """Gives each box its place, each table at the right of all its parents, or below them where they have too little room. Returns the size of all."""
    levels = {}
    for name, box in boxes.items():
        levels[name] = max([levels[it.parent] + 1 for it in box.table.references], default=0)
    columns = [[box for name, box in boxes.items() if levels[name] == level] for level in range(max(levels.values()) + 1)]
    tallest = max([TALLEST, *(it.height for it in boxes.values())])
    if width_of(columns) > WIDEST or any(height_of(it) > tallest for it in columns):
        return place(banded([part for column in columns for part in parted(column, tallest)]), [])
    lead_through(columns, arrows, levels)
    put_in_order(columns, arrows)
    return place([columns], arrows)


def width_of(columns):
    return sum(max(it.width for it in column) + ACROSS for column in columns) - ACROSS


def height_of(column):
    return sum(it.height + DOWN for it in column) - DOWN


def parted(column, tallest):
    """A column as several ones that aren't too tall."""
    parts = [[]]
    for box in column:
        if parts[-1] and height_of([*parts[-1], box]) > tallest:
            parts.append([])
        parts[-1].append(box)
    return parts


def banded(columns):
    """Columns in bands, one below the other, that aren't too wide."""
    bands = [[]]
    for column in columns:
        if bands[-1] and width_of([*bands[-1], column]) > WIDEST * 0.8:
            bands.append([])
        bands[-1].append(column)
    return bands


def lead_through(columns, arrows, levels):
    """Puts places into the columns that an arrow goes past."""
    for arrow in arrows:
        child, parent = arrow.way
        between = [Box(None, None, 0) for _ in range(levels[parent.table.name] + 1, levels[child.table.name])]
        for at, box in enumerate(between):
            columns[levels[parent.table.name] + 1 + at].append(box)
        arrow.way = [child, *reversed(between), parent]


def put_in_order(columns, arrows):
    """Orders each column by where the boxes stand with which its own are joined, so that few arrows cross."""
    joins = {}
    for arrow in arrows:
        for right, left in zip(arrow.way, arrow.way[1:]):
            joins.setdefault(id(right), []).append(left)
            joins.setdefault(id(left), []).append(right)
    for _ in range(4):
        for these, others in [*zip(columns[1:], columns), *reversed(list(zip(columns, columns[1:])))]:
            theirs = {id(it): at for at, it in enumerate(others)}
            mine = [(mean([theirs[id(box)] for box in joins.get(id(it), []) if id(box) in theirs], at), at) for at, it in enumerate(these)]
            these[:] = [these[at] for _, at in sorted(mine)]


def mean(numbers, otherwise):
    return sum(numbers) / len(numbers) if numbers else otherwise


def place(bands, arrows):
    """Gives each box of some bands its place, beside those to which these arrows go. Returns the size of all."""
    width = bottom = 0
    parents = parents_of(arrows)
    for columns in bands:
        x = 1
        top = bottom + (2 * DOWN if bottom else 1)
        for column in columns:
            widest = max(it.width for it in column)
            for box in column:
                box.width = box.width if box.table else widest
            stack(column, parents, x, top)
            x += widest + ACROSS
        level_top(columns, top)
        width = max(width, x - ACROSS)
        bottom = max(it.y + it.height for column in columns for it in column)
    return width + 1, bottom + 1


def parents_of(arrows):
    """For each box those to which its arrows go."""
    found = {}
    for arrow in arrows:
        for right, left in zip(arrow.way, arrow.way[1:]):
            found.setdefault(id(right), []).append(left)
    return found


def stack(column, parents, x, top):
    """Puts a column's boxes one below the other, beside their parents where there is room."""
    y = top
    wanted = []
    for box in column:
        wanted.append(mean([it.middle for it in parents.get(id(box), [])], y + box.height / 2) - box.height / 2)
        box.x, box.y = x, max(y, wanted[-1])
        y = box.y + box.height + DOWN
    shift = mean([box.y - it for box, it in zip(column, wanted)], 0)
    for box in column:
        box.y -= shift


def level_top(columns, top):
    """Moves a band down or up, so that its highest box is at the top."""
    highest = min(it.y for column in columns for it in column)
    for column in columns:
        for box in column:
            box.y += top - highest


def drawn_box(box):
    table = box.table
    parts = [
        tag("rect", x=f"{box.x:.1f}", y=f"{box.y:.1f}", width=f"{box.width:.1f}", height=f"{box.height:.1f}", rx=5, class_="box"),
        tag("path", d=f"M{box.x:.1f},{box.y + HEAD - 3:.1f}h{box.width:.1f}", class_="rule"),
        tag("a", words(box.x + PAD, box.y + 16, table.name, "name"), href=f"#t-{table.name}"),
        words(box.x + box.width - PAD, box.y + 16, box.held, "right soft"),
    ]
    for column, kind in zip(table.columns, box.kinds):
        y = box.row(column.name) + 4
        parts.append(words(box.x + PAD, y, column.name, "key" if column.name in table.keys else "column"))
        parts.append(words(box.x + box.width - PAD, y, kind, "right soft"))
    return tag("g", parts, class_="detail" if table.is_detail else None)


def drawn_arrow(arrow):
    child, parent = arrow.way[0], arrow.way[-1]
    end = (parent.x + parent.width, parent.row(parent.table.key))
    start = (child.x, child.row(arrow.reference.column))
    goes_left = end[0] < start[0]
    if goes_left:
        line = curve_left(start, [(it.x, it.middle, it.width) for it in arrow.way[1:-1]], end)
    else:
        line, end = bent(start, child, parent)
    head = Markup(f"M{end[0]:.1f},{end[1]:.1f}l{'9,-4.5v9' if goes_left or end[0] > parent.x else '-9,-4.5v9'}z")
    told = f"{child.table.name}.{arrow.reference.column} refers to {parent.table.name}"
    return tag(
        "g",
        tag("title", told),
        tag("path", d=line, class_="arrow" + (" weak" if arrow.reference.on_delete == "SET NULL" else "")),
        tag("path", d=head, class_="head"),
    )


def curve_left(start, between, end):
    """A line from a box to one at its left, through the places between."""
    parts, (x, y) = [f"M{start[0]:.1f},{start[1]:.1f}"], start
    for left, height, width in [*between, (end[0] + 8, end[1], 0)]:
        right = left + width
        half = (x - right) / 2
        parts.append(f"C{x - half:.1f},{y:.1f} {right + half:.1f},{height:.1f} {right:.1f},{height:.1f}")
        if width:
            parts.append(f"L{left:.1f},{height:.1f}")
        x, y = left, height
    return joined(Markup("".join(parts)))


def bent(start, child, parent):
    """A line to a box that isn't at the left: from the left side to its left side, in a bow. And where it ends."""
    end = (parent.x, parent.row(parent.table.key))
    out = min(start[0], end[0]) - ACROSS / 2
    line = f"M{start[0]:.1f},{start[1]:.1f}C{out:.1f},{start[1]:.1f} {out:.1f},{end[1]:.1f} {end[0] - 8:.1f},{end[1]:.1f}"
    return Markup(line), end
