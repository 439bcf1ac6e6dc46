"""Measures what the commands of `dasd` take for a full volume, beside `cat` of the same file.

    tools/run measure/commands [--rounds N] [--cylinders N] [DASD]

The volume is a 2314 of 203 cylinders, of which each track is full: a label, a volume table of contents, a sequential data set on three
quarters of it, and on the rest a partitioned one with members of 48 blocks. Each command is run in turn, as many rounds as asked for (5),
with its output to /dev/null, in a folder of its own. Of each the least processor time counts, the system's with it, and the least
time; the most memory is that of all rounds. A Markdown table is printed, and before it what was measured.

The program is the word, or else the built one of crates/dasd_cmd; a command that it does not know is left out, with a word. It needs a C
compiler (`cc`, or what $CC names) for tools/measure/resource_use.c."""

import argparse
import os
import pathlib
import random
import shutil
import subprocess
import sys
import tempfile

from tools import TOP
from tools.common import written_labels as labels
from tools.common.images import Image
from tools.common.volume_layouts import Extents, Member, ebcdic, partition

BUILT = TOP / "crates/dasd_cmd/out/dasd_cmd"
BLOCK, RECORD = 800, 80
BLOCKS_OF_TRACK, BLOCKS_OF_MEMBER = 7, 48


def cards(chance: random.Random, blocks: int) -> list[bytes]:
    """Blocks of ten cards each."""
    return [b"".join(ebcdic(f"         LINE  {chance.randrange(10**9)}", RECORD) for _ in range(BLOCK // RECORD)) for _ in range(blocks)]


def fill_volume(image: Image) -> None:
    """Fills a volume of a 2314."""
    chance, tracks = random.Random(2314), image.tracks
    first = tracks * 3 // 4
    data = cards(chance, BLOCKS_OF_TRACK * 64)
    sequential = [(2, first - 1)]
    for track in range(2, first):
        at = track % 64 * BLOCKS_OF_TRACK
        end = [b""] if track == first - 1 else []
        image.put_blocks(track, [(b"", it) for it in data[at : at + BLOCKS_OF_TRACK - len(end)] + end])
    # A member takes its blocks, and one of 340 entries on a track of the directory.
    count = (tracks - first - 2) * 340 * BLOCKS_OF_TRACK // (340 * BLOCKS_OF_MEMBER + BLOCKS_OF_TRACK)
    members = {f"MEMB{number:03}": Member(data[number % 8 * BLOCKS_OF_MEMBER :][:BLOCKS_OF_MEMBER]) for number in range(count)}
    library = Extents(image, [(first, tracks - 1)])
    partition(library, members, count // 20 + 1)
    sets = [
        labels.DataSet("FULL.CARDS", "PS", RECORD, BLOCK, sequential, (first - 3, BLOCKS_OF_TRACK)),
        labels.DataSet("FULL.LIBRARY", "PO", RECORD, BLOCK, [(first, tracks - 1)], library.last()),
    ]
    labels.put_label(image, "FULL01", sets)


def commands(dasd: str, cylinders: int) -> list[tuple[str, list[str]]]:
    """What is measured: how the table names it, and its words."""
    every = [f"0-{cylinders - 1}", "0-19"]
    return [
        ("`cat`", ["cat", "full.ckd"]),
        ("`dasd check`", [dasd, "check", "full.ckd"]),
        ("`dasd check --strict`", [dasd, "check", "--strict", "full.ckd"]),
        ("`dasd list`", [dasd, "list", "full.ckd"]),
        ("`dasd dump` of everything", [dasd, "dump", "full.ckd", *every]),
        ("`dasd compare` with a copy", [dasd, "compare", "full.ckd", "copy.ckd"]),
        ("`sha256sum`", ["sha256sum", "full.ckd"]),
        ("`dasd hash`", [dasd, "hash", "full.ckd"]),
        ("`dasd vtoc`", [dasd, "vtoc", "full.ckd"]),
        ("`dasd extract` of the sequential data set", [dasd, "extract", "full.ckd", "FULL.CARDS"]),
        ("the same with `--text`", [dasd, "extract", "full.ckd", "FULL.CARDS", "--text"]),
        ("`dasd extract` of a member", [dasd, "extract", "full.ckd", "FULL.LIBRARY(MEMB005)"]),
        ("`dasd extract --all`", [dasd, "extract", "--all", "out", "full.ckd"]),
    ]


class Use:
    """What a command used over all rounds: least times in seconds, and most memory in megabytes."""

    def __init__(self) -> None:
        self.processor, self.passed, self.memory, self.status = float("inf"), float("inf"), 0.0, 0

    def add(self, line: str) -> None:
        """A line of resource_use."""
        processor, passed, memory, self.status = (int(it) for it in line.split())
        self.processor, self.passed = min(self.processor, processor / 1e6), min(self.passed, passed / 1e6)
        self.memory = max(self.memory, memory / 1024)


def measure(folder: pathlib.Path, given: list[tuple[str, list[str]]], rounds: int) -> dict[str, Use]:
    """Runs each command in each round."""
    uses = {name: Use() for name, _ in given}
    for _ in range(rounds):
        for name, words in given:
            shutil.rmtree(folder / "out", ignore_errors=True)
            (folder / "out").mkdir()
            measured = [str(folder / "resource_use"), *words]
            line = subprocess.run(measured, cwd=folder, check=True, stdout=subprocess.PIPE, stderr=subprocess.DEVNULL, text=True)
            uses[name].add(line.stdout)
    return uses


def print_table(uses: dict[str, Use]) -> None:
    """The table; a command that ended with status 2 is not known."""
    beside = uses["`cat`"]
    print("| Command | Processor time | Beside `cat` | Time beside `cat` | Memory |\n|---|---|---|---|---|")
    for name, use in uses.items():
        if use.status == 2:
            print(f"{name} is not known here", file=sys.stderr)
            continue
        ratios = f"{use.processor / beside.processor:.1f} | {use.passed / beside.passed:.1f}"
        print(f"| {name} | {use.processor * 1000:.0f} ms | {ratios} | {use.memory:.1f} MB |")


def main() -> int:
    parser = argparse.ArgumentParser(description=__doc__, formatter_class=argparse.RawDescriptionHelpFormatter)
    parser.add_argument("--rounds", type=int, default=5)
    parser.add_argument("--cylinders", type=int, default=203)
    parser.add_argument("dasd", nargs="?", default=str(BUILT), metavar="DASD")
    asked = parser.parse_args()
    dasd = str(pathlib.Path(asked.dasd).resolve())
    with tempfile.TemporaryDirectory() as name:
        folder = pathlib.Path(name)
        subprocess.run([os.environ.get("CC", "cc"), "-O2", "-Wall", "-o", folder / "resource_use", TOP / "tools/measure/resource_use.c"], check=True)
        path = folder / "full.ckd"
        subprocess.run([dasd, "format", path, "--model", "2314", "--cylinders", str(asked.cylinders)], check=True, stdout=subprocess.DEVNULL)
        image = Image(path)
        fill_volume(image)
        image.save()
        shutil.copy(path, folder / "copy.ckd")
        print(f"2314, {asked.cylinders} cylinders, {path.stat().st_size / 1e6:.0f} MB, {asked.rounds} rounds\n")
        uses = measure(folder, commands(dasd, asked.cylinders), asked.rounds)
    print_table(uses)
    return 0


if __name__ == "__main__":
    sys.exit(main())
