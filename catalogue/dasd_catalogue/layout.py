"""Where the tracks of a volume are in its picture: as in the page in the browser (web/src/picture.mjs), which the tests compare.

Cylinders go from left to right, heads from top to bottom. Where a row of cylinders would be narrower than can be seen there are several bands, one
under the other; where even those have no room a cell is for several cylinders.
"""

from __future__ import annotations

import math
from collections.abc import Iterator
from dataclasses import dataclass

#: The height of the numbers of cylinders, the width of those of heads, and the room between two bands.
AXIS, LEFT, GAP = 15, 26, 8
MOST_BANDS = 4
WANTED_CELL, MOST_CELL = 3.5, 44
#: The height of a head, by the number of bands less one: of a drive with 20 heads, and of another one.
TALL, TALLER = (9, 7, 6, 5), (13, 10, 8, 7)
#: The type of an extent that shares its cylinders with other data sets.
SHARED = 0x80


@dataclass(frozen=True)
class Box:
    """A rectangle of the picture."""

    x: float
    y: float
    wide: float
    high: float


@dataclass(frozen=True)
class Layout:
    """The picture of so many cylinders and heads: how many bands, how many columns of each, how many cylinders a column is for, how wide a column and
    how tall a head is, and how wide all of it is."""

    cylinders: int
    heads: int
    bands: int
    columns: int
    per: int
    cell: float
    tall: int
    width: int

    @property
    def step(self) -> int:
        """From a band to the next."""
        return AXIS + self.heads * self.tall + GAP

    @property
    def height(self) -> int:
        """Of all bands."""
        return self.bands * self.step - GAP + 3

    @property
    def gap(self) -> int:
        """Between two columns."""
        return 1 if self.cell >= 3 else 0

    def edge(self, column: int) -> float:
        """Where a column of a band begins: at a whole number, if columns are not too narrow."""
        place = LEFT + column * self.cell
        return place if self.cell < 1.5 else math.floor(place + 0.5)

    def cells(self) -> Iterator[tuple[int, int, Box]]:
        """The first cylinder and the head of each cell, and where it is: band by band, head by head."""
        for band in range(self.bands):
            columns = range(band * self.columns, min((band + 1) * self.columns, math.ceil(self.cylinders / self.per)))
            for head in range(self.heads):
                for column in columns:
                    yield column * self.per, head, self._box(column, head, self.gap, 0.5)

    def mark(self, cylinder: int, head: int) -> Box:
        """Where the mark of a finding is."""
        return self._box(cylinder // self.per, head, 1, 1)

    def _box(self, column: int, head: int, gap: int, least: float) -> Box:
        band, at = divmod(column, self.columns)
        x = self.edge(at)
        return Box(x, AXIS + band * self.step + head * self.tall, max(self.edge(at + 1) - x - gap, least), self.tall - 1)

    def largest_run(self, extents: list[tuple[list[int], int | None]]) -> Box | None:
        """The widest run of a data set in one band: over all heads, or over those that it has where it shares its cylinders."""
        best: Box | None = None
        for (first, head, last, last_head), kind in extents:
            upper, lower = (head, min(last_head, self.heads - 1)) if kind == SHARED else (0, self.heads - 1)
            column, end = first // self.per, min(last, self.cylinders - 1) // self.per
            while column <= end:
                band, at = divmod(column, self.columns)
                stop = min(end, (band + 1) * self.columns - 1)
                wide = (stop - column + 1) * self.cell
                if best is None or wide > best.wide:
                    best = Box(LEFT + at * self.cell, AXIS + upper * self.tall + band * self.step, wide, (lower - upper + 1) * self.tall)
                column = stop + 1
        return best


def lay_out(width: int, cylinders: int, heads: int) -> Layout:
    """The picture of a volume in this width."""
    room = max(60, width - LEFT - 2)
    bands = min(MOST_BANDS, max(1, math.ceil(cylinders * WANTED_CELL / room)), max(1, cylinders))
    columns = max(1, math.ceil(cylinders / bands))
    per = max(1, math.ceil(columns / room))
    columns = math.ceil(columns / per)
    tall = (TALL if heads == 20 else TALLER)[bands - 1]
    return Layout(cylinders, heads, bands, columns, per, min(MOST_CELL, room / columns), tall, width)
