"""The picture of a volume: the tracks of data sets that share cylinders, by the types of their extents; and that it is the page's, by its own code."""

from __future__ import annotations

import json
import os
import re
import shutil
import subprocess
import time
import unittest
from dataclasses import replace

from archive import HERE, Case, program, scanned, way
from make_packs import TOP, pack, without_label
from tools.gate.made_packs import LEFT, RIGHT, put_made

from dasd_catalogue.database import open_to_read
from dasd_catalogue.engines import Alone
from dasd_catalogue.layout import SHARED, Layout, lay_out
from dasd_catalogue.markup import Html
from dasd_catalogue.owners import NOBODY, cylinders_by_head, owners_of
from dasd_catalogue.picture import COLOURS, HATCHINGS, WIDTH, picture, short
from dasd_catalogue.scan import Wanted, scan

HEADS = 10
#: A `dasd` of an earlier version, which tells no types of extents.
EARLIER = """#!/bin/sh
{program} "$@" | sed 's/,"extent_types":[[][0-9,]*[]]//'
"""
#: Asks the page's own code for layouts, edges, and the largest runs of a data set with these extents.
ASK_PAGE = """
import { readFileSync } from 'node:fs';
const [{ layOut }, { edge, largestRun }] = await Promise.all(['picture', 'picture_tracks'].map(it => import(`${process.argv[1]}/${it}.mjs`)));
for (const { size, extents, types } of JSON.parse(readFileSync(0, 'utf8'))) {
  const [, cylinders, heads] = size, it = layOut(...size), run = largestRun({ cylinders, heads }, it, { extents, extentTypes: types });
  const { bands, columns, per, tall, step, height } = it, edges = Array.from({ length: columns + 1 }, (_, i) => edge(it, i));
  console.log(JSON.stringify([[bands, columns, per, tall, step, height], edges, run && [run.x, run.y, run.w, run.h]]));
}
"""


class Drawn(Case):
    """A volume that is drawn."""

    def svg(self) -> Html:
        """The picture of this test's only volume."""
        connection = open_to_read(str(self.database))
        self.addCleanup(connection.close)
        return picture(connection, connection.execute("SELECT * FROM volumes").fetchone())

    def drawn(self, cylinders: int) -> dict[str, list[int]]:
        """The tracks of each title in it."""
        places = {f"{short(box.x)} {box.y}": at * HEADS + head for at, head, box in lay_out(WIDTH, cylinders, HEADS).cells()}
        found: dict[str, list[int]] = {}
        for drawn, title in re.findall(r'<path d="([^"]*)"[^>]*><title>([^<]*)</title>', self.svg()):
            found.setdefault(title, []).extend(places[it] for it in re.findall(r"M([\d.]+ [\d.]+)h", drawn))
        return {title: sorted(tracks) for title, tracks in found.items()}


class Shared(Drawn):
    """A volume on which two data sets share cylinders 1 and 2."""

    def setUp(self) -> None:
        """Makes it."""
        super().setUp()
        put_made(self.folder / "pack.ckd", "shared")

    def test_each_has_its_own_heads(self) -> None:
        """As `dasd` reads them."""
        scanned(self.database, [self.folder / "pack.ckd"])
        self.assertEqual(self.rows("SELECT name, extents, extent_types FROM data_sets ORDER BY number"), [
            ("LEFT", "[[1, 0, 2, 3]]", "[128]"),
            ("RIGHT", "[[1, 4, 2, 9]]", "[128]"),
        ])  # fmt: skip
        drawn = self.drawn(4)
        self.assertEqual((drawn["LEFT"], drawn["RIGHT"]), (LEFT, RIGHT))
        self.assertEqual(sorted(sum(drawn.values(), [])), list(range(40)))

    def test_without_types_they_are_runs(self) -> None:
        """The first of two that claim a track has it."""
        earlier = self.folder / "dasd"
        earlier.write_text(EARLIER.format(program=program()), encoding="utf-8")
        earlier.chmod(0o755)
        asked = replace(way(), program=str(earlier))
        scan(Wanted(str(self.database), [os.fsencode(self.folder / "pack.ckd")], Alone(), asked, is_silent=True))
        self.assertEqual(self.rows("SELECT extent_types FROM data_sets"), [(None,), (None,)])
        drawn = self.drawn(4)
        self.assertEqual((drawn["LEFT"], drawn["RIGHT"]), (list(range(10, 24)), list(range(24, 30))))


class Marked(Drawn):
    """A volume with a broken track, and names that would be markup."""

    def test_marks_legend_and_depth(self) -> None:
        """A mark where `check` has an error; each data set by its name; a full track deeper than one with less."""
        image = pack(17)
        image.put_bytes(3, 11, b"\xff\xff")
        (self.folder / "pack.ckd").write_bytes(image.volume.bytes())
        scanned(self.database, [self.folder / "pack.ckd"])
        svg = self.svg()
        box = lay_out(WIDTH, 2, HEADS).mark(0, 3)
        self.assertEqual(re.findall(r"<use [^>]*>", svg), [f'<use href="#picture-error" x="{box.x + box.wide / 2:g}" y="{box.y + box.high / 2:g}">'])
        named = re.findall(r'<li><i class="swatch set-(\d)"></i>([^<]*)</li>', svg)
        self.assertEqual(named, [("0", "SYS1.MACLIB"), ("1", "ORDERS.SOURCE"), ("2", "ORDERS.JOBS")])
        self.assertIn('<i class="swatch error"></i>error', svg)
        # the jobs' block of 400 bytes takes 61 + 400 * 537 / 512 of the track's 3,625 (the 2841's description), the end of file after it none
        self.assertEqual(re.findall(r'class="set-2" opacity="([\d.]+)"', svg), ["0.5"])

    def test_a_new_volume_has_no_mark(self) -> None:
        """That nobody gave it a label is no fault of a track."""
        (self.folder / "pack.ckd").write_bytes(without_label(0))
        scanned(self.database, [self.folder / "pack.ckd"])
        self.assertEqual(self.rows("SELECT severity, kind FROM findings"), [("error", "no volume label")])
        self.assertNotIn("<use", self.svg())


class Tracks(unittest.TestCase):
    """The tracks of an extent."""

    def test_by_types(self) -> None:
        """One that shares its cylinders, others, one of which nothing is reported; heads that run backwards or that the drive has not."""
        wanted = {
            (SHARED, (1, 2, 3, 4)): [12, 13, 14, 22, 23, 24, 32, 33, 34],
            **{(kind, (1, 8, 2, 1)): [18, 19, 20, 21] for kind in (None, 0x01, 0x40, 0x81)},
            **{(SHARED, it): [] for it in ((1, 4, 2, 3), (2, 0, 1, 9), (1, 10, 2, 11))},
            (None, (1, 18, 3, 1)): [28, 29, 30, 31],
            (None, (2, 1, 2, 0)): [],
        }
        for (kind, extent), tracks in wanted.items():
            found = [at * HEADS + head for head, first, end in cylinders_by_head(list(extent), kind, HEADS) for at in range(first, end)]
            self.assertEqual(sorted(found), tracks, (kind, extent))

    def test_hostile_extents_take_no_time(self) -> None:
        """Three thousand data sets with sixteen extents each that claim all of 65,536 cylinders: the first has them."""
        sets = [{"number": it, "extents": json.dumps([[0, 0, 65535, 9]] * 16), "extent_types": json.dumps([SHARED] * 16)} for it in range(3000)]
        began = time.process_time()
        owners = owners_of(sets, HEADS, 65536)  # type: ignore[arg-type]
        self.assertLess(time.process_time() - began, 10)
        self.assertEqual(set(owners), {0})
        self.assertEqual(set(owners_of([], HEADS, 3)), {NOBODY})


def sizes() -> list[dict[str, object]]:
    """Widths, cylinders and heads, with the extents of a data set each."""
    found = []
    for width in (300, 575, 800, WIDTH):
        for cylinders in (1, 2, 5, 100, 203, 404, 823, 1500, 5000):
            for heads in (10, 20):
                last = cylinders - 1
                extents = [[0, 1, 0, 3], [last // 2, 0, last, heads - 1], [last // 3, 2, last // 2, 4]]
                found.append({"size": [width, cylinders, heads], "extents": extents, "types": [1, 1, SHARED]})
    return found


class AsThePage(unittest.TestCase):
    """The picture and the page's are one, by the page's own code and colours."""

    @unittest.skipUnless(shutil.which("node"), "node is not here")
    def test_layouts_are_those_of_the_page(self) -> None:
        """Bands, columns, heights, the edges of all columns, and where a name stands."""
        asked = sizes()
        line = ["node", "--input-type=module", "-e", ASK_PAGE, str(TOP / "web/src")]
        done = subprocess.run(line, input=json.dumps(asked), capture_output=True, text=True, check=True, timeout=120)
        for it, told in zip(asked, done.stdout.splitlines(), strict=True):
            layout: Layout = lay_out(*it["size"])  # type: ignore[misc]
            numbers, edges, run = json.loads(told)
            own = [layout.bands, layout.columns, layout.per, layout.tall, layout.step, layout.height]
            self.assertEqual((own, [layout.edge(at) for at in range(layout.columns + 1)]), (numbers, edges), it)
            box = layout.largest_run(list(zip(it["extents"], it["types"])))  # type: ignore[call-overload]
            self.assertEqual(box and [box.x, box.y, box.wide, box.high], run, it)

    def test_colours_are_those_of_the_page(self) -> None:
        """Each colour by its name, the hatchings of data sets, and how many there are of both."""
        page, own = ((place).read_text(encoding="utf-8") for place in (TOP / "web/src/page.css", HERE.parent / "dasd_catalogue/page.css"))
        colours = dict(re.findall(r"--([\w-]+): ([^;]+);", page))
        taken = {name: value for name, value in re.findall(r"--([\w-]+): ([^;]+);", own) if name in colours}
        self.assertLessEqual({"sheet", "ink", "other", "bare", "alarm", "caution", *(f"set-{it}" for it in range(COLOURS))}, set(taken))
        self.assertEqual({name: colours[name] for name in taken}, taken)
        swatches = re.findall(r"(?m)^\.swatch(?:\[data.*|\.error.*|\.warning.*| \{.*)$", own)
        self.assertEqual(len(swatches), HATCHINGS + 3)
        self.assertLessEqual(set(swatches), set(page.splitlines()))
        source = (TOP / "web/src/picture_tracks.mjs").read_text(encoding="utf-8")
        self.assertIn(f"COLOURS = {COLOURS};", source)
        self.assertIn(f"HATCHINGS = {HATCHINGS};", source)


if __name__ == "__main__":
    unittest.main()
