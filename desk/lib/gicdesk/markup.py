"""Pieces of HTML and SVG. A plain text is escaped where it goes into a piece."""

import html
from collections.abc import Iterable


class Markup(str):
    """A text that is markup already."""


Attribute = str | int | float
EMPTY = ("br", "meta", "link", "circle", "line", "path", "polyline", "polygon", "rect")


def escaped(text: str) -> Markup:
    return text if isinstance(text, Markup) else Markup(html.escape(text, quote=False))


def joined(pieces: Iterable[str]) -> Markup:
    return Markup("".join(map(escaped, pieces)))


def attribute_text(value: Attribute) -> str:
    """The value of an attribute; coordinates to a tenth."""
    if isinstance(value, float):
        text = f"{value:.1f}".removesuffix(".0")
        return "0" if text == "-0" else text
    return html.escape(str(value))


def tag(name: str, /, *inside: str, **attributes: Attribute) -> Markup:
    """An element; `class_` is the attribute class, and `_` in other names a hyphen."""
    words = "".join(f' {key.rstrip("_").replace("_", "-")}="{attribute_text(value)}"' for key, value in attributes.items())
    if name in EMPTY and not inside:
        return Markup(f"<{name}{words}>" if name in ("br", "meta", "link") else f"<{name}{words}/>")
    return Markup(f"<{name}{words}>{joined(inside)}</{name}>")


def row(cells: Iterable[str], kind: str = "td", classes: Iterable[str] = ()) -> Markup:
    """A row of a table, with a class for each cell as far as there are any."""
    named = list(classes)
    pieces = []
    for place, cell in enumerate(cells):
        class_ = named[place] if place < len(named) else ""
        pieces.append(tag(kind, cell, class_=class_) if class_ else tag(kind, cell))
    return tag("tr", *pieces)


def table(heads: Iterable[str], rows: Iterable[Iterable[str]], classes: Iterable[str] = (), **words: str) -> Markup:
    """A table, in a box that scrolls where the page is narrow."""
    named = list(classes)
    body = joined(Markup(row(cells, "td", named) + "\n") for cells in rows)
    head = tag("thead", row(heads, "th", named))
    return tag("div", tag("table", head, "\n", tag("tbody", body), **words), class_="scroll")
