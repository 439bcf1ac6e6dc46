"""Lines of rows that spell volumes: labels, data sets, blocks and their bytes, by the layouts of tools/common.

The volume table of contents is track 1: record 1 is the block of format 4, record 2 that of format 5, and data sets follow."""
from __future__ import annotations

import re
from pathlib import Path

from conformance.suite.volumes import Record, Track
from tools.common.images import Image
from tools.common.record_forms import with_lengths
from tools.common.said_sets import Block
from tools.common.volume_layouts import Extents, Run, directory_blocks, ebcdic
from tools.common.written_labels import DATA, SHARED, DataSet, put_label

from .text import bytes_of

KEYED = re.compile(r"""((?:[^='"]|'[^']*'|"[^"]*")*)=(.*)""")

TIMES = re.compile(r"x(\d+):(.*)")


def run_of(word: str) -> Run:
    """The first and the last track of an extent, as `2-5`."""
    first, last = word.split("-")
    return int(first), int(last)


def data_set_of(words: list[str]) -> DataSet:
    """The data set of a line `set`, without its file."""
    name, organisation, form, record, block, last, *rest = words
    track, number = last.split("/")
    parts = [int(it.removeprefix("part=")) for it in rest if it.startswith("part=")]
    made = DataSet(name, organisation, int(record), int(block), [run_of(it) for it in rest if it[0].isdigit()], (int(track), int(number)), form)
    made.kind, made.volume, made.is_last = SHARED if "shared" in rest else DATA, parts[0] if parts else 1, "last" in rest
    return made


def directory_of(word: str) -> list[Block]:
    """The blocks of a directory, of a word as `dir:ALPHA=000003C0:2`."""
    _, spelled, *count = word.split(":")
    entries = [it.split("=") for it in spelled.split(",") if it]
    return directory_blocks([(ebcdic(name, 8), bytes.fromhex(rest)) for name, rest in entries], int(count[0]) if count else 1)


def block_of(word: str) -> Block:
    """Key and data of a block."""
    keyed = KEYED.fullmatch(word)
    return (bytes_of(keyed[1]), bytes_of(keyed[2])) if keyed else (b"", b"" if word == "eof" else bytes_of(word))


def blocks_of(words: list[str]) -> list[Block]:
    """The blocks of words."""
    blocks: list[Block] = []
    for word in words:
        times = TIMES.fullmatch(word)
        blocks += directory_of(word) if word.startswith("dir:") else [block_of(times[2])] * int(times[1]) if times else [block_of(word)]
    return blocks


def fill(extents: Extents, words: list[str]) -> None:
    """Puts blocks on the tracks of extents, one after another."""
    for word in words:
        if word == "turn":
            extents.turn()
        for block in blocks_of([word]) if word != "turn" else []:
            extents.append(*block)
    extents.save()


class Packs:
    """The volumes in a folder."""

    def __init__(self, folder: Path) -> None:
        self.folder = folder
        self.serials: dict[str, str] = {}
        self.sets: dict[str, list[DataSet]] = {}
        self.images: dict[str, Image] = {}

    def save(self) -> None:
        """Writes the files of the volumes that lines have changed."""
        for image in self.images.values():
            image.save()
        self.images = {}

    def makes(self, word: str, words: list[str]) -> bool:
        """Does what a line says, which `save` writes; whether it is of these."""
        if word == "label":
            self.serials[words[0]], self.sets[words[0]] = words[1], []
        elif word == "lengths":
            (self.folder / words[0]).write_bytes(with_lengths(blocks_of(words[1:])))
        elif word in ("set", "blocks", "block", "field", "key", "track", "records", "fill"):
            image = self.images.get(words[0]) or self.images.setdefault(words[0], Image(self.folder / words[0]))
            if word == "set":
                self.sets[words[0]].append(data_set_of(words[1:]))
                put_label(image, self.serials[words[0]], self.sets[words[0]])
            elif word == "fill":
                fill(Extents(image, [run_of(words[1])]), words[2:])
            elif word == "block" or word in ("field", "key"):
                self.put_block(image, word, words[1:])
            else:
                self.put_track(image, word, int(words[1]), words[2:])
        else:
            return False
        return True

    @staticmethod
    def put_track(image: Image, word: str, track: int, words: list[str]) -> None:
        """Puts blocks on a track, records with a flag, or bytes into its slot."""
        if word == "blocks":
            image.put_blocks(track, blocks_of(words))
        elif word == "track":
            image.put_bytes(track, int(words[0]), bytes_of(words[1]))
        else:
            identifiers = [bytes.fromhex(it) for it in words[1::2]]
            records = [Record(it, *block) for it, block in zip(identifiers, blocks_of(words[2::2]))]
            image.volume.write(*divmod(track, image.heads), Track(bytes.fromhex(words[0]) + image.address(track), records))

    @staticmethod
    def put_block(image: Image, word: str, words: list[str]) -> None:
        """Puts key and data of a record, or bytes of one of them."""
        place = int(words[0]), int(words[1])
        key, data = image.block(place)
        if word == "block":
            key, data = image.block((int(words[2][1]), int(words[2][3:]))) if words[2][0] == "@" else block_of(words[2])
        else:
            at, new = int(words[2]), bytes_of(words[3])
            old = key if word == "key" else data
            put = old[:at] + new + old[at + len(new):]
            key, data = (put, data) if word == "key" else (key, put)
        image.put_block(place, key, data)
