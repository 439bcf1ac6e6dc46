#!/usr/bin/env python3
"""Measures the page beside the program: measure.py OUT DASD..

How long it takes from the files' choice to the picture of a full 2314, and how long a step takes, each beside what the program DASD takes
for the same on this machine: ratios of the middle ones of several rounds, taken in turns. It wants Debian's chromium-driver and
python3-selenium."""

import pathlib
import random
import statistics
import sys
import tempfile
import time

sys.dont_write_bytecode = True
HERE = pathlib.Path(__file__).resolve().parent
sys.path[:0] = [str(HERE.parent), str(HERE.parent.parent)]

from browser import Browser
from example_pack import CYLINDERS, HEADS, blank
from native import Native
from tools.common.images import Image
from tools.common.volume_layouts import ebcdic

ROUNDS = 9
RECORDS, LENGTH = 12, 400
READING = """STORE 48 00000400
STORE 400 0700050040000006 3100050240000005 0800040800000000 0600060000000190
STORE 500 00000064000A0064000A0C
SIO 190
RUN
INT
"""


def full_pack(path: pathlib.Path) -> None:
    """A 2314 of which each track has records."""
    path.write_bytes(blank())
    image = Image(path)
    for track in range(CYLINDERS * HEADS):
        image.put_blocks(track, [(b"", ebcdic(f"TRACK {track:05}", LENGTH))] * RECORDS)
    image.save()


def seconds(work: "list[list[object]]", native: Native, deck: str = "") -> float:
    """How long the program takes for these words, one after another."""
    start = time.monotonic()
    for words in work:
        native.run(*words, deck=deck)
    return time.monotonic() - start


def shown(browser: Browser, path: pathlib.Path) -> float:
    """How long it takes from a file's choice to its picture, in seconds, by the page's clock."""
    browser.ask(
        "(globalThis.began = 0, globalThis.drawn = 0, page.view.picture.draw = (draw => function () { draw.call(this);"
        " drawn = performance.now(); })(page.view.picture.constructor.prototype.draw),"
        " document.getElementById('files').addEventListener('change', () => { began = performance.now(); }, { once: true, capture: true }))"
    )
    browser.take(path)
    browser.until(f"drawn > 0 && document.getElementById('name').textContent === '{path.name}'")
    return float(browser.ask("drawn - began")) / 1000


def stepped(browser: Browser, count: int) -> float:
    """How long a step to a place by chance takes, in seconds."""
    places = [random.Random(count + at).random() for at in range(count)]
    return (
        float(
            browser.wait_for(
                "{ const start = performance.now(); for (const at of %s) await page.deck.go(Math.round(at * page.deck.time.end)); return"
                " performance.now() - start }" % places
            )
        )
        / 1000
        / count
    )


def main() -> int:
    """Measures, and prints ratios."""
    if len(sys.argv) < 3:
        print(__doc__, file=sys.stderr)
        return 2
    out = pathlib.Path(sys.argv[1])
    with tempfile.TemporaryDirectory() as folder:
        room = pathlib.Path(folder)
        native = Native([str(pathlib.Path(it).resolve()) if pathlib.Path(it).exists() else it for it in sys.argv[2:]], room)
        full_pack(room / "full.ckd")
        browser = Browser(out / "index.html")
        looks: list[list[object]] = [
            ["list", "--json", "full.ckd"],
            ["check", "--strict", "--json", "full.ckd"],
            ["vtoc", "--json", "full.ckd"],
        ]
        pictures, natives = [], []
        for _ in range(ROUNDS):
            browser.open()
            pictures.append(shown(browser, room / "full.ckd"))
            natives.append(seconds(looks, native))
        report(
            "a picture of a full 2314 of 31,181,312 bytes, from the choice of its file",
            pictures,
            natives,
            "the program's list, check --strict and vtoc of it, with --json",
        )
        browser.ask("(page.show('deck'), page.deck.write(arguments[0]))", READING)
        browser.click("#run")
        browser.until("page.deck.time && page.deck.moment === page.deck.time.end")
        steps, runs = [], []
        for _ in range(ROUNDS):
            steps.append(stepped(browser, 20))
            runs.append(seconds([["run", "--trace", "90=full.ckd"]], native, READING))
        report("a step to a place by chance, over that pack", steps, runs, "the program's run of the whole deck over it, with --trace")
        browser.close()
    print(f"the page: {(out / 'index.html').stat().st_size:,} bytes")
    return 0


def report(what: str, ours: list[float], theirs: list[float], beside: str) -> None:
    """Prints the middle ones and their ratio."""
    one, other = statistics.median(ours), statistics.median(theirs)
    print(
        f"{what}: {one:.3f} s (best {min(ours):.3f}); {beside}: {other:.3f} s (best {min(theirs):.3f}); ratio {one / other:.1f}, of the"
        f" best {min(ours) / min(theirs):.1f}"
    )


if __name__ == "__main__":
    sys.exit(main())
