"""The pages over a catalogue: packs, a volume, a data set, a member, what is broken, and copies. Served or written as files, they are the same."""

from __future__ import annotations

import sqlite3
from typing import Protocol

from . import queries
from .markup import Child, Html, joined, link, table, tag
from .names import quantity
from .owners import extents_of
from .picture import picture, swatch
from .program import Object
from .queries import Place, described, name_of

#: So many rows are on a page.
ROWS = 200
#: So many copies, and others of a name, are shown of one thing.
BESIDE = 20
MOST_TEXT = 400_000


class Links(Protocol):
    """Where pages are; an empty text is a page that is not there."""

    def packs(self, page: int = 0) -> str:
        """A page of the list of packs."""

    def broken(self, page: int = 0) -> str:
        """A page of the list of what is broken."""

    def copies(self, kind: str, page: int = 0) -> str:
        """A page of the copies of a kind."""

    def place(self, place: Place) -> str:
        """The page of a volume, a data set or a member."""

    def compare(self, first: Place, second: Place) -> str:
        """The page of two things side by side."""

    def search(self) -> str:
        """Where the form for a search leads."""

    def style(self) -> str:
        """The style sheet."""

    def pack(self, volume: sqlite3.Row, track: tuple[int, int] | None = None) -> str:
        """The page in the browser with the pack of a volume, at a cylinder and head."""

    def pack_fault(self, volume: sqlite3.Row) -> str:
        """Why that page does not open the pack; an empty text where it does, or where there is no such page at all."""


class View:
    """The pages of a catalogue, with their links."""

    def __init__(self, connection: sqlite3.Connection, links: Links) -> None:
        self.connection, self.links = connection, links

    def page(self, title: str, *body: Child, asked: str = "") -> str:
        """A whole page."""
        places = [("Packs", self.links.packs()), ("Broken", self.links.broken()), ("Copies", self.links.copies("member"))]
        form: Child = None
        if self.links.search():
            field = tag("input", type="search", name="q", value=asked, placeholder="SYS1.* or a word", aria_label="name or word")
            form = tag("form", field, tag("button", "Search"), action=self.links.search())
        nav = tag("nav", tag("b", "dasd catalogue"), *(link(target, name) for name, target in places), form)
        sheet = tag("link", rel="stylesheet", href=self.links.style())
        head = tag("head", tag("meta", charset="utf-8"), tag("title", title), sheet)
        return "<!doctype html>\n" + tag("html", head, tag("body", nav, tag("main", tag("h1", title), *body)), lang="en")

    def packs(self, page: int = 0) -> str:
        """The packs, and how much there is of what."""
        rows = self.connection.execute(
            """SELECT volumes.*, shown, packing, (SELECT COUNT(*) FROM data_sets WHERE volume = file) AS sets,
            (SELECT COUNT(*) FROM members WHERE volume = file) AS members FROM volumes JOIN files ON id = file ORDER BY path LIMIT ? OFFSET ?""",
            (ROWS + 1, page * ROWS),
        ).fetchall()
        heads = ["Pack", "Serial", "Owner", "Drive", "Cylinders#", "Data sets#", "Members#", "Errors#"]
        found = [
            (
                link(self.links.place(Place(it["file"])), it["shown"]),
                it["serial"],
                (it["owner"] or "").strip(),
                it["model"],
                it["cylinders"],
                it["sets"],
                it["members"],
                tag("span", it["errors"], class_="bad" if it["errors"] else None),
            )
            for it in rows[:ROWS]
        ]
        body = table(heads, found, class_="wide")
        return self.page("Packs", self.summary() if page == 0 else None, body, self.turns(self.links.packs, page, len(rows) > ROWS))

    def turns(self, target: object, page: int, has_next: bool) -> Html:
        """Links to the pages before and after this one."""
        assert callable(target)
        before = link(target(page - 1), "Previous") if page else None
        behind = link(target(page + 1), "Next") if has_next else None
        return tag("p", before, " ", behind, class_="turns") if before or behind else Html()

    def summary(self) -> Html:
        """How much there is of what."""
        it = queries.summary(self.connection)
        states = ", ".join(f"{count} {state}" for state, count in it["files"].items())
        text = f"{it['volumes']} volumes with {it['data_sets']} data sets and {it['members']} members in {it['texts']} different texts."
        return tag("p", text, f" Names: {states}. Volumes with errors: {it['volumes_with_errors']}.", class_="soft")

    def volume(self, number: int) -> str:
        """A volume: its label, its picture, its data sets and its findings."""
        it = queries.row_at(self.connection, Place(number))
        facts = [
            ("serial", it["serial"] or "no label"),
            ("owner", (it["owner"] or "").strip()),
            ("drive", f"{it['model']}, {quantity(it['cylinders'], 'cylinder')} of {it['heads']} heads"),
            ("free", "" if it["free_tracks"] is None else f"{quantity(it['free_tracks'], 'track')}, {quantity(it['free_blocks'], 'control block')}"),
            ("packed with", it["packing"]),
            ("says", it["said"].hex() if it["said"] else ""),
        ]
        names = [row[0] for row in self.connection.execute("SELECT shown FROM files WHERE of = ? ORDER BY state DESC, part, path", (number,))]
        facts += [("also", name) for name in names]
        parts = [self.facts(facts), self.opening(it), tag("div", picture(self.connection, it), class_="picture"), self.data_sets(it)]
        return self.page(it["shown"], *parts, self.findings(it), self.others(Place(number), "volume", it["said"]))

    def opening(self, volume: sqlite3.Row, track: tuple[int, int] | None = None) -> Html | None:
        """A link to the page in the browser with a pack, at a track of it; or why it does not open it."""
        target, fault = self.links.pack(volume, track), self.links.pack_fault(volume)
        if target:
            where = f" at cylinder {track[0]} head {track[1]}" if track else ""
            return tag("p", link(target, f"Open this pack{where}"), class_="open")
        return tag("p", f"This pack is not opened here: {fault}.", class_="soft") if fault else None

    def at_track(self, volume: sqlite3.Row, cylinder: int | None, head: int | None, shown: Child) -> Child:
        """What is shown of a track, with a link to it."""
        track = track_of(volume, cylinder, head)
        return link(self.links.pack(volume, track), shown) if track else shown

    @staticmethod
    def facts(facts: list[tuple[str, str]]) -> Html:
        """Names and values, except for those that are empty."""
        return tag("dl", *(joined([tag("dt", name), tag("dd", value)]) for name, value in facts if value))

    def data_sets(self, volume: sqlite3.Row) -> Html:
        """The data sets of a volume."""
        number = volume["file"]
        heads = ["", "Data set", "Org", "Recfm", "Lrecl#", "Blksz#", "Tracks#", "Used#", "Created", "Members#", "Bytes#"]
        rows = self.connection.execute(
            """SELECT *, (SELECT COUNT(*) FROM members WHERE members.volume = data_sets.volume AND data_set = data_sets.number) AS members
            FROM data_sets WHERE volume = ? ORDER BY number""",
            (number,),
        )
        found = [
            (
                swatch(it["number"]),
                link(self.links.place(Place(number, it["number"])), it["name"] or "(blanks)"),
                *(it[name] for name in ("organisation", "format", "record_length", "block_length")),
                self.at_track(volume, *first_track(it), it["tracks"]),
                *(it[name] for name in ("used", "created")),
                it["members"] or "",
                it["size"],
            )
            for it in rows
        ]
        return joined([tag("h2", "Data sets"), table(heads, found)]) if found else tag("p", "No data sets.")

    def findings(self, volume: sqlite3.Row) -> Html:
        """What is wrong with a volume."""
        number = volume["file"]
        rows = self.connection.execute("SELECT * FROM findings WHERE volume = ? ORDER BY number LIMIT ?", (number, ROWS)).fetchall()
        faults = self.connection.execute("SELECT * FROM faults WHERE file = ? ORDER BY number", (number,)).fetchall()
        found: list[tuple[Child, ...]] = []
        for it in rows:
            where = self.at_track(volume, it["cylinder"], it["head"], place_text(it))
            found.append((it["severity"], it["source"], where, it["name"], it["text"]))
        found += [("fault", it["stage"], "", "", it["text"]) for it in faults]
        notes = self.connection.execute("SELECT kind, count FROM notes WHERE volume = ? ORDER BY kind", (number,)).fetchall()
        told = ", ".join(f"{it['count']} of {it['kind']}" for it in notes)
        body = table(["Severity", "Of", "Where", "Name", "What"], found, class_="findings") if found else tag("p", "Nothing is wrong.")
        return joined([tag("h2", "Findings"), body, tag("p", f"Notes: {told}.", class_="soft") if told else None])

    def others(self, place: Place, kind: str, said: bytes | None) -> Html:
        """Where the same is said."""
        if not said:
            return Html()
        found = queries.Copies(kind, said, 0, 0, 0).places(self.connection, BESIDE + 2)
        places = [it for it in found if it != place]
        if not places:
            return joined([tag("h2", "Copies"), tag("p", "Nothing else says the same.")])
        return joined([tag("h2", "Copies"), self.listed(places, place)])

    def listed(self, places: list[Place], beside: Place | None) -> Html:
        """The first of these places, as a list."""
        more = tag("li", "and more") if len(places) > BESIDE else None
        return tag("ul", *(tag("li", self.named(it, beside)) for it in places[:BESIDE]), more)

    def named(self, place: Place, beside: Place | None = None) -> Html:
        """The name of what is at a place, with links to it, and to both side by side."""
        compare = self.links.compare(beside, place) if beside and beside != place else ""
        shown = link(self.links.place(place), queries.label_of(self.connection, place))
        return joined([shown, " ", link(compare, "side by side")]) if compare else shown

    def data_set(self, place: Place) -> str:
        """A data set: its fields, its members, or its text."""
        it, volume = queries.row_at(self.connection, place), queries.row_at(self.connection, Place(place.volume))
        rows = self.connection.execute("SELECT * FROM members WHERE volume = ? AND data_set = ? ORDER BY number", (place.volume, place.data_set))
        members = [
            (
                link(self.links.place(Place(place.volume, place.data_set, row["number"])), row["name"]),
                row["size"],
                "text" if row["text"] else "",
                "" if row["whole"] else "not whole",
            )
            for row in rows
        ]
        body = table(["Member", "Bytes#", "", ""], members) if members else self.text(it["text"])
        facts = [("organisation", it["organisation"]), ("records", f"{it['format']} {it['record_length']} in blocks of {it['block_length']}")]
        facts += [("tracks", f"{it['used']} used of {it['tracks']}"), ("created", it["created"] or ""), ("expires", it["expires"] or "")]
        parts = [self.where(place), self.facts(facts), self.opening(volume, track_of(volume, *first_track(it)))]
        return self.page(it["name"] or "(blanks)", *parts, body, self.others(place, "data set", it["said"]))

    def where(self, place: Place) -> Html:
        """The way from the packs to a place."""
        volume = queries.row_at(self.connection, Place(place.volume))
        parts = [link(self.links.place(Place(place.volume)), volume["shown"])]
        if place.member is not None:
            whole = Place(place.volume, place.data_set)
            parts += [Html(" / "), link(self.links.place(whole), name_of(described(self.connection, whole)))]
        return tag("p", *parts, class_="soft")

    def text(self, number: int | None) -> Html:
        """A text, as far as a page goes."""
        if number is None:
            return tag("p", "It is no text.", class_="soft")
        text = queries.text_of(self.connection, number)
        cut = tag("p", "The rest is left out here.", class_="soft") if len(text) > MOST_TEXT else None
        return joined([tag("pre", text[:MOST_TEXT]), cut])

    def member(self, place: Place) -> str:
        """A member: its text, its copies, and others of its name."""
        it = queries.row_at(self.connection, place)
        title = name_of(described(self.connection, place))
        size = tag("p", f"{quantity(it['size'], 'byte')}{'' if it['whole'] else ', not whole'}", class_="soft")
        alike = self.connection.execute(
            "SELECT volume, data_set, number FROM members WHERE name = ? AND said <> ? ORDER BY 1, 2, 3 LIMIT ?", (it["name"], it["said"], BESIDE + 1)
        ).fetchall()
        named: Child = None
        if alike:
            named = joined([tag("h2", "Others of this name"), self.listed([Place(*row) for row in alike], place)])
        return self.page(title, self.where(place), size, self.text(it["text"]), self.others(place, "member", it["said"]), named)

    def broken(self, page: int = 0) -> str:
        """What is broken, in the order of paths."""
        rows = list(queries.broken(self.connection, True, ROWS + 1, page * ROWS))
        found = [self.broken_row(it) for it in rows[:ROWS]]
        body = table(["File", "Severity", "Of", "Where", "Name", "What"], found, class_="findings wide")
        return self.page("Broken", body, self.turns(self.links.broken, page, len(rows) > ROWS))

    def broken_row(self, it: Object) -> tuple[Child, ...]:
        """Something that is broken, with links to its volume, and to its track there."""
        path: Child = it["path"]
        where: Child = place_text(it)
        if "volume" in it:
            volume = queries.row_at(self.connection, Place(it["volume"]))
            where = self.at_track(volume, it.get("cylinder"), it.get("head"), where)
            path = link(self.links.place(Place(it["volume"])), path)
        return path, it["severity"], it["source"], where, it.get("name", ""), it["text"]

    def copies(self, kind: str, page: int = 0) -> str:
        """Groups of copies of a kind."""
        rows = ROWS // 4
        found = queries.groups(self.connection, kind, most=rows + 1, first=page * rows)
        kinds = tag("p", *(joined([link(self.links.copies(it), f"{it}s"), " "]) for it in queries.KINDS))
        body = [self.group(it) for it in found[:rows]] or [tag("p", "There are none.")]
        return self.page(f"Copies: {kind}s", kinds, *body, self.turns(lambda at: self.links.copies(kind, at), page, len(found) > rows))

    def group(self, group: queries.Copies) -> Html:
        """A group of copies."""
        places = group.places(self.connection, BESIDE + 1)
        heads = tag("h3", f"{group.count} of {quantity(group.size, 'byte')}", f", {group.names} names" if group.names > 1 else None)
        return tag("section", heads, self.listed(places, places[0]))


def place_text(it: sqlite3.Row | Object) -> str:
    """Where on a volume something is."""
    held: Object = dict(it)
    if held.get("cylinder") is not None:
        return f"cylinder {held['cylinder']} head {held['head']}"
    return f"file {held['part']}" if held.get("part") is not None else ""


def track_of(volume: sqlite3.Row, cylinder: int | None, head: int | None) -> tuple[int, int] | None:
    """The track with these numbers, if a volume has it."""
    if cylinder is None or head is None or cylinder >= (volume["cylinders"] or 0) or head >= (volume["heads"] or 0):
        return None
    return cylinder, head


def first_track(data_set: sqlite3.Row) -> tuple[int | None, int | None]:
    """The cylinder and head at which a data set begins."""
    extents = extents_of(data_set)
    return (extents[0][0][0], extents[0][0][1]) if extents else (None, None)
