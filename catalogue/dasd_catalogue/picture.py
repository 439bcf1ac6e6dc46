"""A picture of a volume, as the page in the browser draws it (web/src/picture_tracks.mjs): each track in the colour of its data set, deeper the fuller
it is, with marks where something is wrong; and what these mean."""

from __future__ import annotations

import json
import math
import sqlite3
import zlib
from collections import defaultdict
from collections.abc import Iterator

from .layout import AXIS, LEFT, Box, Layout, lay_out
from .markup import Html, joined, tag
from .owners import NOBODY, extents_of, owners_of

# c/interface.toml: begin
CAPACITY = {2311: 3625, 2314: 7294}
# c/interface.toml: end
#: So many colours tell data sets apart; those beyond have the same colours with another hatching.
COLOURS, HATCHINGS = 8, 5
WIDTH = 1180
#: The height of a data set's name, and about how wide a letter of it is.
NAME, LETTER = 15, 6.7
#: Lines of 6 by 6 units, which are repeated.
HATCHES = (
    "M-7 7L1 -1M-1 7L7 -1M5 7L13 -1",
    "M-7 -1L1 7M-1 -1L7 7M5 -1L13 7",
    "M1 -1L1 7M4 -1L4 7",
    "M0 0h2v2h-2zM3 3h2v2h-2z",
)
#: How far apart the numbers of cylinders may be.
SPACINGS = (1, 2, 5, 10, 20, 50, 100, 200, 500, 1000, 2000, 5000, 10000)
#: What a pack that was never given a label has: no fault of its tracks.
UNLABELLED = ("no volume label", "no volume table of contents")
#: How deep the colours of the legend are.
DEPTHS = (0.2, 0.45, 0.65, 0.85, 1)
#: Hatchings are lines, the last one spots.
LOOKS = ("", "lines", "lines", "lines", "spots")
#: So many data sets are named in a legend.
MOST_NAMES = 60


def picture(connection: sqlite3.Connection, volume: sqlite3.Row, width: int = WIDTH, name: str = "picture") -> Html:
    """The picture of a volume in this width, as SVG, with its legend; a page that has several gives each a name of its own."""
    if volume["tracks"] is None or not volume["heads"] or not volume["cylinders"]:
        return tag("p", "The tracks could not be read.")
    drawn = Picture(connection, volume, width, name)
    return joined([drawn.svg(), drawn.legend()])


def swatch(number: int) -> Html:
    """What a data set is drawn with."""
    return tag("i", class_=f"swatch set-{number % COLOURS}", data_hatching=hatching_of(number) or None)


def hatching_of(number: int) -> int:
    """The hatching of a data set; 0 is none."""
    return number // COLOURS % HATCHINGS if number >= 0 else 0


class Picture:
    """The picture of one volume."""

    def __init__(self, connection: sqlite3.Connection, volume: sqlite3.Row, width: int, name: str) -> None:
        self.name = name
        self.layout: Layout = lay_out(width, volume["cylinders"], volume["heads"])
        self.sets = connection.execute("SELECT * FROM data_sets WHERE volume = ? ORDER BY number", (volume["file"],)).fetchall()
        self.findings = connection.execute(
            """SELECT severity, cylinder, head FROM findings WHERE volume = ? AND source IN ('check', 'vtoc') AND cylinder NOTNULL
            AND head NOTNULL AND (kind ISNULL OR kind NOT IN (?, ?)) ORDER BY source DESC, number""",
            (volume["file"], *UNLABELLED),
        ).fetchall()
        self.tracks: list[list[int] | None] = json.loads(zlib.decompress(volume["tracks"]))
        self.tracks += [None] * (volume["cylinders"] * volume["heads"] - len(self.tracks))
        self.capacity = CAPACITY.get(volume["model"], volume["slot_size"])
        self.owners = owners_of(self.sets, volume["heads"], volume["cylinders"])

    def svg(self) -> Html:
        """The picture."""
        it = self.layout
        parts = [self.hatches(), *self.axes(), *self.cells(), *self.labels(), *self.marks()]
        return tag("svg", *parts, viewBox=f"0 0 {it.width} {it.height}", width=it.width, height=it.height, role="img", aria_label="tracks")

    def hatches(self) -> Html:
        """The hatchings, for those that use them, and the marks."""
        wanted = {hatching_of(it["number"]) for it in self.sets} - {0}
        tiles = [
            tag("pattern", tag("path", d=lines, class_=LOOKS[kind]), id=f"{self.name}-{kind}", width=6, height=6, patternUnits="userSpaceOnUse")
            for kind, lines in enumerate(HATCHES, 1)
            if kind in wanted
        ]
        box = self.layout.mark(0, 0)
        half = min(7.0, max(box.wide, box.high) / 2 + 2.5)
        marks = {"error": square(half) + cross(half - 3), "warning": square(half)} if self.findings else {}
        return tag("defs", *tiles, *(tag("path", d=lines, id=f"{self.name}-{it}", class_=it) for it, lines in marks.items()))

    def axes(self) -> Iterator[Html]:
        """The numbers of cylinders and heads."""
        it = self.layout
        every = next((number for number in SPACINGS if number / it.per * it.cell >= 34), 20000)
        for band in range(it.bands):
            first = band * it.columns * it.per
            for cylinder in range(math.ceil(first / every) * every, min(first + it.columns * it.per, it.cylinders), every):
                yield tag("text", cylinder, x=short(LEFT + (cylinder - first) / it.per * it.cell), y=AXIS + band * it.step - 5)
            for head in range(0, it.heads, 5):
                yield tag("text", head, x=LEFT - 6, y=AXIS + band * it.step + head * it.tall + 8, class_="n")

    def cells(self) -> Iterator[Html]:
        """The tracks, those of one data set and one depth together."""
        places: dict[tuple[int, str, float], list[Box]] = defaultdict(list)
        for cylinder, head, box in self.layout.cells():
            found = places[self.look(self.shown_in(cylinder, head))]
            if found and found[-1].y == box.y and found[-1].x + found[-1].wide == box.x:
                box = Box(found[-1].x, box.y, found.pop().wide + box.wide, box.high)
            found.append(box)
        for (owner, colour, depth), found in sorted(places.items(), key=lambda it: it[0]):
            lines = "".join(f"M{short(it.x)} {it.y}h{short(it.wide)}v{it.high}h-{short(it.wide)}z" for it in found)
            title = tag("title", self.sets[owner]["name"] if owner != NOBODY else "of no data set")
            yield tag("path", title, d=lines, class_=colour, opacity=f"{depth:g}")
            if hatching_of(owner):
                yield tag("path", d=lines, fill=f"url(#{self.name}-{hatching_of(owner)})", opacity=f"{depth:g}")

    def shown_in(self, cylinder: int, head: int) -> int:
        """The track that a cell shows: of several cylinders the fullest."""
        heads, last = self.layout.heads, min(cylinder + self.layout.per, self.layout.cylinders)
        return max((it * heads + head for it in range(cylinder, last)), key=self.used)

    def used(self, track: int) -> int:
        """How many bytes of a track are used."""
        held = self.tracks[track]
        return held[0] if held else 0

    def look(self, track: int) -> tuple[int, str, float]:
        """The data set of a track, its colour, and how deep that is: faint where the track has nothing, and then by how full it is."""
        owner, held = self.owners[track], self.tracks[track] or [0, 0]
        depth = 0.42 + 0.58 * min(1.0, held[0] / self.capacity) if held[0] else 0.75 if owner == NOBODY else 0.2
        colour = f"set-{owner % COLOURS}" if owner != NOBODY else "other" if held[0] or held[1] > 1 else "bare"
        return owner, colour, round(depth, 2)

    def labels(self) -> Iterator[Html]:
        """The names of data sets, each on its largest run, where that has room for it."""
        for it in self.sets:
            box, wide = self.layout.largest_run(extents_of(it)), len(it["name"]) * LETTER + 8
            if box is None:
                continue
            is_wide = box.wide >= wide and box.high >= NAME
            if not is_wide and not (box.high >= wide and box.wide >= NAME):
                continue
            back = tag("rect", x=short(-wide / 2), y=short(-NAME / 2), width=short(wide), height=NAME, rx=3)
            place = f"translate({short(box.x + box.wide / 2)} {short(box.y + box.high / 2)}){'' if is_wide else ' rotate(-90)'}"
            yield tag("g", back, tag("text", it["name"], y="3.5"), class_="name", transform=place)

    def marks(self) -> Iterator[Html]:
        """A mark for each track with an error or a warning; the last of several is seen."""
        places: dict[Box, str] = {}
        for it in self.findings:
            if it["cylinder"] < self.layout.cylinders and it["head"] < self.layout.heads:
                box = self.layout.mark(it["cylinder"], it["head"])
                places.pop(box, None)
                places[box] = it["severity"]
        for box, severity in places.items():
            yield tag("use", href=f"#{self.name}-{severity}", x=short(box.x + box.wide / 2), y=short(box.y + box.high / 2))

    def legend(self) -> Html:
        """What colours, depths and marks mean."""
        scale = tag("span", *(tag("i", class_=f"depth-{place}") for place in range(len(DEPTHS))), class_="scale")
        names = [tag("li", swatch(it["number"]), it["name"] or "(blanks)") for it in self.sets[:MOST_NAMES]]
        left = [tag("li", f"and {len(self.sets) - MOST_NAMES} more")] if len(self.sets) > MOST_NAMES else []
        found = {it["severity"] for it in self.findings}
        marks = [tag("li", tag("i", class_=f"swatch {it}"), it) for it in ("error", "warning") if it in found]
        fixed = [tag("li", scale, "empty to full"), tag("li", tag("i", class_="swatch other"), "no data set's")]
        return tag("ul", *names, *left, *fixed, tag("li", tag("i", class_="swatch bare"), "record 0 alone"), *marks, class_="legend")


def short(number: float) -> str:
    """A number in two decimals at most."""
    return f"{round(number, 2):g}"


def square(half: float) -> str:
    """A square with round corners around the origin."""
    side = short(2 * half - 4)
    arcs = [f"a2 2 0 0 1 {it}" for it in ("2 2", "-2 2", "-2 -2", "2 -2")]
    return f"M{short(2 - half)} {short(-half)}h{side}{arcs[0]}v{side}{arcs[1]}h-{side}{arcs[2]}v-{side}{arcs[3]}z"


def cross(arm: float) -> str:
    """Two strokes through the origin."""
    near, far = short(-arm), short(arm)
    return f"M{near} {near}L{far} {far}M{far} {near}L{near} {far}"
