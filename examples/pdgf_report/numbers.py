"""Numbers as a reader wants them, and the ticks of an axis."""

PREFIXES = ((10**12, "T"), (10**9, "G"), (10**6, "M"), (10**3, "k"))


def grouped(number):
    return f"{number:,}"


def compact(number):
    """A number in few characters."""
    size, name = next((it for it in PREFIXES if number >= it[0]), (1, ""))
    if number < 10_000:
        return grouped(number)
    digits = f"{number / size:.{2 if number < 10 * size else 1 if number < 100 * size else 0}f}"
    return (digits.rstrip("0").rstrip(".") if "." in digits else digits) + name


def counted(number, name):
    return f"{number:,} {name}" + ("" if number == 1 else "s")


def share(part, whole):
    """A part in percent. Only nothing is 0%, and only all is 100%."""
    if part in (0, whole):
        return "100%" if part else "0%"
    percent = 100 * part / whole
    return "<0.1%" if percent < 0.05 else ">99.9%" if percent >= 99.95 else f"{percent:.1f}%"


def step_of(span, most):
    """The least step of 1, 2 or 5 times a power of ten that takes at most so many steps over a span."""
    power = 1
    while True:
        for step in (power, 2 * power, 5 * power):
            if step * most >= span:
                return step
        power *= 10


def ticks(low, high, most):
    """Whole numbers from `low` to `high`, one step apart."""
    step = step_of(high - low, most)
    return list(range(-(-low // step) * step, high + 1, step))


def powers(high):
    """The ticks of a scale of powers of ten: 0, 1, 10 and so on, up to the first one that isn't less than `high`."""
    found = [0, 1]
    while found[-1] < high:
        found.append(10 * found[-1])
    return found
