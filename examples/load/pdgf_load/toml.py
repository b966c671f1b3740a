"""TOML 1.1, which the program reads, by Python's reader of TOML 1.0: what 1.1 adds is written in the older way first.

Those are line breaks, comments and a comma at the end in inline tables, and the escapes `\\e` and `\\xHH`. A schema has no times, of which
1.1 lets the seconds be left out.
"""

import re
import tomllib

TOKEN = re.compile(
    r'''
    (?P<lines>"""(?:\\.|[^\\])*?"""{1,3})
  | (?P<literal_lines>\'\'\'.*?\'\'\''{0,2})
  | (?P<text>"(?:\\.|[^"\\\n])*")
  | (?P<literal>'[^'\n]*')
  | (?P<comment>\#[^\n]*)
  | (?P<blank>[ \t\r\n]+)
  | (?P<mark>[][{},])
  | (?P<rest>[^]["'#{}, \t\r\n]+|.)
    ''',
    re.S | re.X,
)
ESCAPE = re.compile(r"\\(?:x([0-9A-Fa-f]{2})|e|.)|\r\n", re.S)


def loads(text):
    return tomllib.loads(older(text.removeprefix("\ufeff")))


def older(text):
    """A text of TOML 1.1 as one of TOML 1.0."""
    written, opened = [], []
    for found in TOKEN.finditer(text):
        kind, token = found.lastgroup, found[0]
        in_table = opened[-1:] == ["{"]
        if kind == "text":
            token = ESCAPE.sub(older_escape, token)
        elif kind == "lines":
            token = '"""' + ESCAPE.sub(older_escape, without_first_line_feed(token[3:]))
        elif kind == "literal_lines" and "\r\n" in token:
            token = as_basic(without_first_line_feed(token[3:-3]))
        elif in_table and kind in ("blank", "comment"):
            token = " "
        elif token in ("[", "{"):
            opened.append(token)
        elif token in ("]", "}") and opened:
            if in_table:
                drop_last_comma(written)
            opened.pop()
        written.append(token)
    return "".join(written)


def without_first_line_feed(text):
    return text[2:] if text.startswith("\r\n") else text.removeprefix("\n")


def older_escape(found):
    if found[0] == "\r\n":
        return "\\r\n"  # Python's reader takes it for a line feed
    if found[0] == r"\e":
        return r"\u001b"
    return rf"\u00{found[1]}" if found[1] else found[0]


def as_basic(text):
    return '"' + re.sub(r'["\\\x00-\x1f\x7f]', lambda found: f"\\u{ord(found[0]):04x}", text) + '"'


def drop_last_comma(written):
    place = len(written) - 1
    while place >= 0 and written[place] == " ":
        place -= 1
    if place >= 0 and written[place] == ",":
        del written[place]
