"""HTML that is put together of elements. Whatever is not an element is text, and is escaped: names and texts of packs can't become markup."""

from __future__ import annotations

import html
from collections.abc import Iterable, Sequence

#: Elements without an end.
VOID = {"meta", "link", "input"}


class Html(str):
    """Text that is HTML already."""


Child = Html | str | int | None


def escaped(child: Child) -> str:
    """A child as HTML; a character that HTML can't hold is U+FFFD."""
    if isinstance(child, Html):
        return child
    text = "" if child is None else str(child)
    held = "".join(it if it >= " " and it != "\x7f" or it in "\n\t" else "\ufffd" for it in text)
    return html.escape(held.encode("utf-8", "replace").decode("utf-8"))


def tag(element: str, /, *children: Child, **attributes: Child) -> Html:
    """An element. An attribute that is None is left out; an underscore at its end is no part of its name, others are hyphens."""
    words = "".join(f' {key.rstrip("_").replace("_", "-")}="{escaped(value)}"' for key, value in attributes.items() if value is not None)
    if element in VOID:
        return Html(f"<{element}{words}>")
    return Html(f"<{element}{words}>{''.join(map(escaped, children))}</{element}>")


def joined(parts: Iterable[Child]) -> Html:
    """Elements one after another."""
    return Html("".join(map(escaped, parts)))


def link(target: str, *children: Child) -> Html:
    """A link; what is in it alone where there is no target."""
    return tag("a", *children, href=target) if target else joined(children)


def table(heads: Sequence[str], rows: Iterable[Sequence[Child]], **attributes: Child) -> Html:
    """A table; a column whose head ends with a hash sign has numbers."""
    is_number = [it.endswith("#") for it in heads]
    head = tag("tr", *(tag("th", it.rstrip("#"), class_="n" if number else None) for it, number in zip(heads, is_number)))
    body = (tag("tr", *(tag("td", it, class_="n" if number else None) for it, number in zip(row, is_number))) for row in rows)
    return tag("table", tag("thead", head), tag("tbody", *body), **attributes)
