"""Two volumes, data sets or members side by side."""

from __future__ import annotations

import difflib
import sqlite3
from collections.abc import Iterator

from . import queries
from .markup import Child, Html, joined, link, table, tag
from .names import quantity
from .pages import View
from .picture import picture
from .queries import Place, described, name_of

#: How wide the picture of one of two volumes is.
HALF = 575
#: Texts of more lines are compared line by line, and not searched for what was put in or taken out.
MOST_LINES = 5000


def sides(view: View, first: Place, second: Place) -> str:
    """The page of two things side by side."""
    told = [described(view.connection, it) for it in (first, second)]
    names = [joined([link(view.links.place(it), found["path"], ": ", name_of(found))]) for it, found in zip((first, second), told)]
    is_volume = first.data_set is None or second.data_set is None
    hashes = [queries.row_at(view.connection, it)["said"] for it in (first, second)]
    same = hashes[0] is not None and hashes[0] == hashes[1]
    body = volumes(view, first, second) if is_volume else texts(view.connection, first, second)
    word = "They say the same." if same else "They differ."
    heads = tag("div", *(tag("div", it) for it in names), class_="two")
    return view.page("Side by side", tag("p", word, class_="same" if same else "bad"), heads, body)


def volumes(view: View, first: Place, second: Place) -> Html:
    """The pictures and the data sets of two volumes, those of one name in one row."""
    pictures = []
    held: list[dict[str, sqlite3.Row]] = []
    for place, name in ((first, "first"), (second, "second")):
        row = queries.row_at(view.connection, Place(place.volume))
        pictures.append(tag("div", picture(view.connection, row, HALF, name), class_="picture"))
        sets = view.connection.execute("SELECT * FROM data_sets WHERE volume = ? ORDER BY number", (place.volume,))
        held.append({it["name"]: it for it in sets})
    names = list(dict.fromkeys([*held[0], *held[1]]))
    rows = [set_row(view, name, [it.get(name) for it in held]) for name in names]
    return joined([tag("div", *pictures, class_="two"), table(["Data set", "First", "Second", ""], rows, class_="wide")])


def set_row(view: View, name: str, found: list[sqlite3.Row | None]) -> tuple[Child, ...]:
    """A data set of two volumes."""
    cells: list[Child] = []
    said: list[object] = []
    for it in found:
        if it is None:
            cells.append("not there")
            said.append(None)
            continue
        place = Place(it["volume"], it["number"])
        said.append(it["said"])
        cells.append(link(view.links.place(place), f"{it['organisation']} {it['format']}, {it['used']} of {quantity(it['tracks'], 'track')}"))
    same = said[0] == said[1] and said[0] is not None
    return (name, *cells, tag("span", "the same" if same else "differs", class_="same" if same else "bad"))


def texts(connection: sqlite3.Connection, first: Place, second: Place) -> Html:
    """Two texts, line by line."""
    held = [lines_at(connection, it) for it in (first, second)]
    rows = [line_row(number, left, right) for number, (left, right) in enumerate(aligned(*held), 1)]
    return table(["#", "First", "Second"], rows, class_="sides")


def line_row(number: int, left: str, right: str) -> tuple[Child, ...]:
    """A line of each text."""
    kind = None if left == right else "changed"
    return (number, tag("code", left, class_=kind), tag("code", right, class_=kind))


def lines_at(connection: sqlite3.Connection, place: Place) -> list[str]:
    """The lines of what is at a place; none where it is no text."""
    number = queries.row_at(connection, place)["text"]
    return [] if number is None else queries.text_of(connection, number).splitlines()


def aligned(left: list[str], right: list[str]) -> Iterator[tuple[str, str]]:
    """Lines beside each other: equal ones in one row."""
    if max(len(left), len(right)) > MOST_LINES:
        length = max(len(left), len(right))
        yield from zip(left + [""] * (length - len(left)), right + [""] * (length - len(right)))
        return
    for _, first, last, other_first, other_last in difflib.SequenceMatcher(None, left, right, autojunk=False).get_opcodes():
        ours, theirs = left[first:last], right[other_first:other_last]
        length = max(len(ours), len(theirs))
        yield from zip(ours + [""] * (length - len(ours)), theirs + [""] * (length - len(theirs)))
