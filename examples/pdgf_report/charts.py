"""Charts as SVG: lines, bars and points, each with its axes."""

import math

from .markup import joined, tag
from .numbers import compact, grouped, powers, ticks

WIDTH, HEIGHT = 300, 180
LEFT, RIGHT, TOP, BOTTOM = 46, 12, 10, 36
MARKED = 60  # so many points have marks of their own
POINTS = 600  # and a line so many points
BARS = 120
FEW = 30  # rows, whose count is as high as it is great


class Frame:
    """The area of a chart: from numbers to places."""

    def __init__(self, low, high, top, heights):
        self.low, self.high, self.heights = low, max(high, low + 1), heights
        self.top = heights(top) or 1

    def x(self, number):
        return LEFT + (number - self.low) / (self.high - self.low) * (WIDTH - LEFT - RIGHT)

    def y(self, number):
        return HEIGHT - BOTTOM - self.heights(number) / self.top * (HEIGHT - TOP - BOTTOM)

    def point(self, x, y):
        return f"{self.x(x):.1f},{self.y(y):.1f}"


def as_is(number):
    return number


def logarithmic(number):
    """A height by powers of ten, where 0 is at the bottom and 1 a step above it."""
    return 1 + math.log10(number) if number >= 1 else number


def svg(label, *parts, height=HEIGHT):
    return tag("svg", *parts, viewBox=f"0 0 {WIDTH} {height}", class_="chart", role="img", aria_label=label)


def words(x, y, text, class_=None):
    return tag("text", text, x=f"{x:.1f}", y=f"{y:.1f}", class_=class_)


def axes(frame, across, up, below):
    """The lines at the ticks, their numbers, and what the numbers below count."""
    parts = []
    for it in up:
        parts.append(tag("path", d=f"M{LEFT},{frame.y(it):.1f}H{WIDTH - RIGHT}", class_="grid"))
        parts.append(words(LEFT - 6, frame.y(it) + 3.5, compact(it), "right"))
    for it in across:
        parts.append(words(frame.x(it), HEIGHT - BOTTOM + 14, compact(it), "mid"))
    parts.append(words((LEFT + WIDTH - RIGHT) / 2, HEIGHT - 5, below, "mid soft"))
    return parts


def up_to(most):
    """The ticks of a height, the last one not less than the most."""
    found = ticks(0, max(most, 1), 4)
    return found if found[-1] >= most else [*found, found[-1] + found[1]]


def line_chart(label, first, lines, below):
    """Lines over units, the first unit and on: pairs of a class and its numbers."""
    up = up_to(max(max(numbers) for _, numbers in lines))
    last = first + len(lines[0][1]) - 1
    frame = Frame(first, last, up[-1], as_is)
    parts = axes(frame, ticks(first, max(last, first), 6) if last > first else [first], up, below)
    for class_, numbers in lines:
        points = thinned([(first + place, it) for place, it in enumerate(numbers)])
        parts.append(tag("path", d="M" + "L".join(frame.point(*it) for it in points), class_=f"line {class_}"))
        if len(numbers) <= MARKED:
            parts += [mark(frame, it, class_, f"{below} {it[0]}: {grouped(it[1])}") for it in points]
    return svg(label, parts)


def thinned(points):
    """At most about so many of some points: the least and the greatest of each stretch."""
    if len(points) <= POINTS:
        return points
    stretch = -(-2 * len(points) // POINTS)
    found = []
    for begin in range(0, len(points), stretch):
        part = points[begin : begin + stretch]
        found += sorted({min(part, key=lambda it: it[1]), max(part, key=lambda it: it[1]), part[-1]})
    return found


def mark(frame, point, class_, told):
    return tag("circle", tag("title", told), cx=f"{frame.x(point[0]):.1f}", cy=f"{frame.y(point[1]):.1f}", r=2.6, class_=f"mark {class_}")


def bar_chart(label, bars, class_, below):
    """Bars at whole numbers: pairs of a number and its count. Where there are many, a bar stands for some numbers together."""
    low, high = bars[0][0] - 1, bars[-1][0] + 1
    size = -(-(high - low) // BARS)
    bars = together(bars, size)
    up = up_to(max(count for _, _, count in bars))
    frame = Frame(low, high, up[-1], as_is)
    width = max(0.8, min(22, 0.8 * size * (WIDTH - LEFT - RIGHT) / (high - low)))
    parts = axes(frame, [it for it in ticks(low, high, 7) if low < it < high], up, below)
    for first, last, count in bars:
        told = f"{first}: {grouped(count)}" if first == last else f"{first} to {last}: {grouped(count)}"
        parts.append(bar(frame.x((first + last) / 2) - width / 2, frame.y(count), width, frame.y(0), class_, told))
    return svg(label, parts)


def together(bars, size):
    """So many numbers together: the first one, the last one and their count."""
    counts = {}
    for number, count in bars:
        place = (number - bars[0][0]) // size
        counts[place] = counts.get(place, 0) + count
    return [(bars[0][0] + place * size, bars[0][0] + (place + 1) * size - 1, count) for place, count in counts.items()]


def bar(x, top, width, bottom, class_, told):
    return tag(
        "rect", tag("title", told), x=f"{x:.2f}", y=f"{top:.1f}", width=f"{width:.2f}", height=f"{max(bottom - top, 0):.1f}", class_=f"bar {class_}"
    )


def point_chart(label, lines, below):
    """Points: pairs of a class and its pairs of numbers. Where there are many, heights go by powers of ten, so that one is to be seen beside them."""
    most = max(count for _, points in lines for _, count in points)
    high = max(number for _, points in lines for number, _ in points)
    up, heights = (up_to(most), as_is) if most <= FEW else (powers(most), logarithmic)
    frame = Frame(0, high, up[-1], heights)
    parts = axes(frame, ticks(0, max(high, 1), 6), up[:: 1 if len(up) <= 6 else 2], below)
    for class_, points in lines:
        points = thinned(points)
        parts.append(tag("path", d="M" + "L".join(frame.point(*it) for it in points), class_=f"line dotted {class_}"))
        if len(points) <= 2 * MARKED:
            parts += [mark(frame, it, class_, f"{it[0]}: {grouped(it[1])}") for it in points]
    return svg(label, parts)


def histogram(label, bars):
    """Bars side by side, with the least and the greatest value below."""
    left, right, top, height = 4, 4, 6, 96
    bottom = height - 18
    most = max(bars.counts)
    width = (WIDTH - left - right) / max(len(bars.counts), 3)
    parts = [tag("path", d=f"M{left},{bottom}H{WIDTH - right}", class_="grid")]
    for place, count in enumerate(bars.counts):
        if count:
            tall = max(1, (bottom - top) * count / most)
            told = f"{told_bar(bars, place)}: {grouped(count)}"
            parts.append(bar(left + place * width, bottom - tall, max(width - 1, 1), bottom, "column", told))
    return svg(label, parts, ends(bars, left, left + width * len(bars.counts), height - 5), height=height)


def told_bar(bars, place):
    low = bars.low + place * bars.width * bars.step
    high = min(low + (bars.width - 1) * bars.step, bars.high)
    return bars.show(low) if low == high else f"{bars.show(low)} to {bars.show(high)}"


def ends(bars, left, right, y):
    if bars.low == bars.high:
        return words(left, y, bars.show(bars.low))
    low, high = bars.show(bars.low), bars.show(bars.high)
    if 7 * (len(low) + len(high) + 2) > right - left:
        right = WIDTH - 4
    return joined(words(left, y, low), words(right, y, high, "right"))
