"""Has `dasd run` write volumes by channel programs, and compares what Hercules' tools read of them with what was to be written.

    tools/run gate/compare_decks [DASD]

A volume is made in memory first; then a deck writes it into a new image of `dasd format`: for each track with more than record 0, Seek,
Search Identifier Equal for record 0, and one Write Count, Key and Data after another. Each answer of the deck is looked at, and the
image must hold the same bytes as the one in memory. The volumes are, for both drives:

- one with a label and blocks of formats 4, 5, 1 and 3 (tools/common/written_labels.py), a sequential data set over five extents, and a partitioned one;
- one without any label; and those of tools/make/hercules_volumes.py, written again track by track.

`dasdls` must list the data sets as they were meant, `dasdseq` and `dasdcat` give their records and members, `dasdpdsu` unload them,
`dasdseq -abs` find the records where there is no label, and `dasdcopy` make an image in which `dasd compare` finds nothing else.

The program is the word, or else the built one of crates/dasd_cmd. It needs Debian's package hercules. Each difference is a line; the last
line is 'N compared, M differ', and the status 1 where M is not 0."""

import pathlib
import random
import sys

from tools.common import hercules_readings as readings, volume_layouts as layouts
from tools.common.images import Image
from tools.common.record_forms import cut, fixed_blocks
from tools.common.written_labels import DataSet, put_label
from tools.make import hercules_volumes as volumes

PROGRAM, ARGUMENTS, DATA = 0x400, 0x1000, 0x2000
SEEK, SEARCH, TRANSFER, WRITE = 0x07, 0x31, 0x08, 0x1D
CHAIN = 0x40
MOST_TEXT = 900_000
CYLINDERS = 3


def word(command: int, address: int, flags: int, count: int) -> bytes:
    """A channel command word."""
    return bytes([command]) + address.to_bytes(3, "big") + bytes([flags, 0]) + count.to_bytes(2, "big")


class Deck:
    """Lines of a deck, and its answers; None is one that may be any."""

    def __init__(self) -> None:
        self.lines: list[str] = []
        self.answers: list[str | None] = []
        self.size = 0

    def add(self, line: str, answer: str | None) -> None:
        self.lines.append(line)
        self.answers.append(answer)
        self.size += len(line) + 1

    def store(self, address: int, data: bytes) -> None:
        for at in range(0, len(data), 128):
            self.add(f"STORE {address + at:X} {data[at : at + 128].hex().upper()}", "STORE OK")

    def write_track(self, place: bytes, records: list[bytes]) -> None:
        """Formats a track with records, each count, key and data as they stand on it."""
        words = [word(SEEK, ARGUMENTS, CHAIN, 6), word(SEARCH, ARGUMENTS + 2, CHAIN, 5), word(TRANSFER, PROGRAM + 8, 0, 1)]
        at = DATA
        for number, record in enumerate(records, 1):
            words.append(word(WRITE, at, CHAIN if number < len(records) else 0, len(record)))
            at += len(record)
        assert PROGRAM + 8 * len(words) <= ARGUMENTS
        self.store(0x48, PROGRAM.to_bytes(4, "big"))
        self.store(PROGRAM, b"".join(words))
        self.store(ARGUMENTS, bytes(2) + place + bytes(1))
        self.store(DATA, b"".join(records))
        self.add("SIO 190", "SIO 190 CC 0")
        self.add("RUN", None)
        self.add("INT", f"INT 190 {PROGRAM + 8 * len(words):08X} 0C000000")


def decks_of(image: Image) -> list[Deck]:
    """Decks that write each track with more than record 0."""
    decks = [Deck()]
    for number in range(image.tracks):
        records = image.records(number)[1:]
        if not records:
            continue
        if decks[-1].size > MOST_TEXT:
            decks.append(Deck())
        decks[-1].write_track(image.address(number), [it.spelled() for it in records])
    return decks


class Written:
    """Volumes that `dasd run` writes in a folder, beside what they are to hold."""

    def __init__(self, comparison: readings.Comparison, dasd: str, folder: pathlib.Path):
        self.comparison, self.dasd, self.folder = comparison, dasd, folder

    def new(self, name: str, model: str, cylinders: int) -> Image:
        """A new image, which is to be filled in memory."""
        path = self.folder / f"{name}.written.ckd"
        readings.run(self.dasd, "format", path, "--model", model, "--cylinders", cylinders)
        return Image(path)

    def write(self, image: Image) -> pathlib.Path:
        """Writes by decks what the image in memory holds, and compares the answers and the bytes."""
        path, deck_path = image.path, self.folder / "deck"
        for deck in decks_of(image):
            deck_path.write_text("\n".join(deck.lines) + "\n", encoding="ascii")
            ended = readings.run(self.dasd, "run", "--deck", deck_path, f"90={path}")
            answers = ended.stdout.decode().splitlines()
            known = [given if wanted is not None else None for given, wanted in zip(answers, deck.answers)]
            self.comparison.same(f"{path.name} status and faults", (ended.returncode, ended.stderr), (0, b""), "this script")
            self.comparison.same(f"{path.name} answers", (len(answers), known), (len(deck.answers), deck.answers), "this script")
        strict = readings.run(self.dasd, "check", "--strict", path)
        self.comparison.same(f"{path.name} status of a strict check", strict.returncode, 0, "this script")
        self.comparison.holds(f"{path.name} holds other bytes than were to be written", path.read_bytes() == image.volume.bytes())
        return path

    def compare_cards(self, path: pathlib.Path, cards: bytes, found: bytes, reader: str) -> None:
        """Cards that were written, one by one, beside those that a reader finds."""
        put, read = cut(cards, 80), cut(found, 80)
        self.comparison.same(f"{path.name} number of records", len(put), len(read), reader)
        for number, pair in enumerate(zip(put, read)):
            self.comparison.same(f"{path.name} record {number}", *pair, reader)


def compare_label(written: Written, model: str) -> None:
    """A volume with a label of this script's own."""
    chance, image = random.Random(model), written.new(f"LABEL{model}", model, CYLINDERS)
    cards = volumes.numbered_cards(chance, 150 if model == "2311" else 300)
    runs = [(3, 3), (7, 8), (5, 5), (12, 12), (10, 10)]
    sequential = layouts.Extents(image, runs)
    for block in [*fixed_blocks(cards, 800), b""]:
        sequential.append(b"", block)
    sequential.save()
    members = {it: layouts.Member(cut(volumes.cards(chance, count), 400)) for it, count in (("FIRST", 7), ("SECOND", 60), ("THIRD", 1))}
    library = layouts.Extents(image, [(14, 18)])
    layouts.partition(library, members, 2)
    sets = [
        DataSet("DECK.CARDS", "PS", 80, 800, runs, sequential.last()),
        DataSet("DECK.LIBRARY", "PO", 80, 400, [(14, 18)], library.last()),
    ]
    put_label(image, "DECK01", sets)
    path = written.write(image)
    compare_list(written, path)
    compare_records(written, path, b"".join(cards), members)


def compare_list(written: Written, path: pathlib.Path) -> None:
    """The data sets of a volume with a label."""
    serial, listed = readings.list_by_dasdls(path)
    written.comparison.same(f"{path.name} serial number", "DECK01", serial, "dasdls")
    found = [(it.name, it.created, it.expires, it.organisation, it.form, it.record_length, it.block_length) for it in listed]
    days = ("1974-365", "1999-365")
    wanted = [("DECK.CARDS", *days, "PS", "FB", 80, 800), ("DECK.LIBRARY", *days, "PO", "FB", 80, 400)]
    written.comparison.same(f"{path.name} data sets", wanted, found, "dasdls")
    written.comparison.same(f"{path.name} tracks and extents", [(6, 5), (5, 1)], [(it.tracks, it.extents) for it in listed], "dasdls")
    contents = readings.run(written.dasd, "vtoc", path)
    written.comparison.same(f"{path.name} status of dasd vtoc", (contents.returncode, contents.stderr), (0, b""), "this script")


def compare_records(written: Written, path: pathlib.Path, cards: bytes, members: dict[str, layouts.Member]) -> None:
    """Each record and each member of a volume with a label, and a copy of it."""
    same = written.comparison.same
    written.compare_cards(path, cards, readings.records_by_dasdseq(path, "DECK.CARDS") or b"", "dasdseq")
    unloaded = readings.members_by_dasdpdsu(path, "DECK.LIBRARY")
    same(f"{path.name} members", sorted(members), sorted(unloaded), "dasdpdsu")
    for name, member in members.items():
        same(f"{path.name} {name}", member.data(), readings.member_by_dasdcat(path, "DECK.LIBRARY", name), "dasdcat")
        same(f"{path.name} {name}", member.data(), unloaded.get(name), "dasdpdsu")
    copied = path.with_suffix(".copied")
    readings.run("dasdcopy", "-q", "-o", "CKD", path, copied)
    compared = readings.run(written.dasd, "compare", "--tracks", path, copied)
    same(f"{path.name} beside its copy", (compared.returncode, compared.stderr), (0, b""), "dasdcopy")


def compare_without_label(written: Written, model: str) -> None:
    """A volume without any label."""
    image = written.new(f"PLAIN{model}", model, CYLINDERS)
    cards = volumes.numbered_cards(random.Random(model), 80)
    extents = layouts.Extents(image, [(4, 9)])
    for block in [*cards, b""]:
        extents.append(b"", block)
    extents.save()
    path = written.write(image)
    place = ["-lrecl", 80, "-heads", image.heads, "-abs", 0, 4, 6, "FOUND"]
    readings.run("dasdseq", path.name, *place, folder=written.folder)
    written.compare_cards(path, b"".join(cards), (written.folder / "FOUND").read_bytes(), "dasdseq -abs")


def compare_rewritten(written: Written, plan: volumes.Plan) -> None:
    """A volume of Hercules', written anew by decks."""
    plan.make(written.folder)
    original = Image(written.folder / f"{plan.name}.ckd")
    image = written.new(plan.name, plan.model, plan.cylinders)
    image.volume.slots = list(original.volume.slots)
    path = written.write(image)
    ours, theirs = (readings.run("dasdls", "-info", "-expdt", it).stdout.split(b"VOLSER=")[1] for it in (path, original.path))
    written.comparison.same(f"{path.name} listed", ours, theirs, "dasdls")
    compared = readings.run(written.dasd, "compare", "--tracks", path, original.path)
    written.comparison.same(f"{path.name} beside {original.path.name}", (compared.returncode, compared.stderr), (0, b""), "dasd compare")


def compare_all(comparison: readings.Comparison, dasd: str, folder: pathlib.Path) -> None:
    """Each volume."""
    written = Written(comparison, dasd, folder)
    for model in ("2311", "2314"):
        compare_label(written, model)
        compare_without_label(written, model)
    for plan in volumes.plans():
        compare_rewritten(written, plan)


if __name__ == "__main__":
    sys.exit(readings.compared(__doc__, compare_all))
