"""Markup of HTML and of SVG within it: what isn't markup is escaped, and every tag is closed."""

import html
import unicodedata

VOID = ("meta",)
UNSHOWN = ("Cc", "Cf", "Cs", "Co", "Cn", "Zl", "Zp")  # control characters, and those that would move others


class Markup(str):
    """A text that is markup already."""


def shown(text):
    """A text in which characters without a shape of their own are written as Python writes them."""
    if text.isprintable():
        return text
    return "".join(ascii(it)[1:-1] if unicodedata.category(it) in UNSHOWN else it for it in text)


def escaped(text):
    return html.escape(shown(str(text)))


def joined(*parts):
    """Some parts one after the other. A list is its parts; what is no markup is escaped."""
    return Markup("".join(joined(*it) if isinstance(it, (list, tuple)) else it if isinstance(it, Markup) else escaped(it) for it in parts))


def tag(name, /, *content, **attributes):
    """An element. `class_` stands for `class`, and a line below for the dash in a name; None leaves an attribute out."""
    marks = "".join(f' {key.rstrip("_").replace("_", "-")}="{escaped(value)}"' for key, value in attributes.items() if value is not None)
    if name in VOID:
        return Markup(f"<{name}{marks}>")
    return Markup(f"<{name}{marks}>{joined(*content)}</{name}>")


def cut(text, most):
    """A text of at most so many characters."""
    return text if len(text) <= most else text[: most - 1] + "…"
