"""The elements that a page is made of: escaped text, headed parts, tables, and what is folded."""

from __future__ import annotations

import html
from collections.abc import Iterable

from . import amounts
from .inputs import printable

# Shapes of a drawing, which have no body and close themselves.
SHAPES = frozenset(("rect", "path", "line", "circle"))


def element(name: str, body: str = "", kind: str = "", **attributes: str | float) -> str:
    """An element of a page. An attribute is text, or a place, which is told to a tenth."""
    attribute_text = f' class="{kind}"' if kind else ""
    for attribute, value in attributes.items():
        shown = printable(value) if isinstance(value, str) else short_place(value)
        attribute_text += f' {attribute.rstrip("_").replace("_", "-")}="{html.escape(shown)}"'
    if name in SHAPES and not body:
        return f"<{name}{attribute_text}/>"
    return f"<{name}{attribute_text}>{body}</{name}>"


def short_place(value: float) -> str:
    """A place in a drawing, to a tenth."""
    shown = f"{value:.1f}"
    return shown[:-2] if shown.endswith(".0") else shown


def text(words: object) -> str:
    return html.escape(printable(words), quote=False)


def euros(microcents: int) -> str:
    return f"{amounts.microcents(microcents)} €"


def sentence(words: str) -> str:
    """Words with their first letter large."""
    return words[:1].upper() + words[1:]


def part(level: str, title: str, body: str, note: str = "", kind: str = "") -> str:
    """A part of a page under a heading; none without a body."""
    if not body:
        return ""
    noted = element("p", text(note), "note") if note else ""
    return element("section", element(level, title) + noted + body, f"part {kind}".rstrip()) + "\n"


def below(level: str, steps: int = 1) -> str:
    """The heading under another: h3 under h2."""
    return f"h{int(level[1]) + steps}"


def cell(body: str, kind: str = "", name: str = "td") -> str:
    return element(name, body, kind)


def row(cells: Iterable[str], kind: str = "") -> str:
    return element("tr", "".join(cells), kind)


def table(names: Iterable[str], rows: Iterable[str], kind: str = "", foot: str = "") -> str:
    """A table with its columns' names; the style knows the columns of each kind by their places."""
    head = row(cell(name, name="th") for name in names)
    body = element("thead", head) + element("tbody", "".join(rows)) + (element("tfoot", foot) if foot else "")
    return element("div", element("table", body, kind), "scroll")


def folded(summary: str, body: str, opened: bool = False) -> str:
    """A part that opens at a click."""
    made = element("summary", summary) + body
    return f"<details open>{made}</details>" if opened else element("details", made)


def facts(words: Iterable[str]) -> str:
    return element("div", "".join(element("span", text(word)) for word in words), "facts")
