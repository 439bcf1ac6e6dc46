"""Puts folders by chance onto new packs with `dasd load --all`, and compares what stands there with what Python reads of the pack.

    tools/run gate/play_folders [--built FILE] [--folders N] [--seed N]

A folder has sequential data sets and libraries of forms by chance, with keys, and of libraries other names, user data and addresses in these. It is put
onto a new pack of either drive; then the pack must say the folder's text again, and have each data set and member block by block, as Python reads them
(tools/common/folder_texts.py, tools/common/said_sets.py), `dasd vtoc` must find nothing, and `dasd extract --all` must give the same files."""

import random
import subprocess
import tempfile
from dataclasses import dataclass, field
from pathlib import Path

from conformance.suite.volumes import MODELS
from tools.common.folder_texts import TEXT, folder_text
from tools.common.images import Image
from tools.common.record_forms import with_lengths
from tools.common.said_sets import Block, blocks_hash, said_by
from tools.gate.chance_files import Form, asked_for, block_by_chance, records_by_chance, same

LETTERS, BEHIND = "$#@ABXZ", "$#@AZ059"
DAYS = ("-", "1974-365", "2026-001")


@dataclass
class Folder:
    """A folder to be: the lines of its text, and the blocks of each file."""

    lines: list[str] = field(default_factory=list)
    files: dict[str, list[Block]] = field(default_factory=dict)

    def write(self, path: Path) -> None:
        """Writes it, behind lengths and keys."""
        path.mkdir()
        (path / TEXT).write_text(self.text(), encoding="ascii")
        for name, blocks in self.files.items():
            (path / name).write_bytes(with_lengths(blocks))

    def text(self) -> str:
        """Its text."""
        return "".join(it + "\n" for it in self.lines)


class Maker:
    """Makes folders by chance, for packs of a drive whose tracks have so many bytes."""

    def __init__(self, chance: random.Random, capacity: int) -> None:
        self.chance, self.capacity, self.folder = chance, capacity, Folder()

    def make(self) -> Folder:
        """A folder of a few data sets."""
        for number in range(self.chance.randint(0, 6)):
            form = records_by_chance(self.chance, self.capacity - 300)
            form = Form(form.name, form.record, min(form.block, self.capacity - 300), self.chance.choice([0, 0, 1, 8, 254]))
            if form.name in ("F", "FS") and form.record is None:
                form = Form(form.name, form.block, form.block, form.key)
            if self.chance.random() < 0.5:
                self.add_library(f"LIB{number}", form)
            else:
                self.folder.lines.append(self.line(f"SET{number}.{self.name()}", "PS", form))
                self.folder.files[self.folder.lines[-1].split()[2]] = self.blocks(form)
        return self.folder

    def line(self, name: str, organisation: str, form: Form) -> str:
        """The line of a data set."""
        days = " ".join(self.chance.choices(DAYS, k=2))
        return f"data set {name} {organisation} {form.name} {form.record_length()} {form.block} {form.key} {days}"

    def name(self) -> str:
        """A name of a member, or a part of that of a data set."""
        return self.chance.choice(LETTERS) + "".join(self.chance.choices(BEHIND, k=self.chance.randint(0, 7)))

    def blocks(self, form: Form) -> list[Block]:
        """The blocks of a file."""
        count = self.chance.choice([0, 1, 2, self.chance.randint(0, 12)])
        return [(self.chance.randbytes(form.key), block_by_chance(self.chance, form)) for _ in range(count)]

    def add_library(self, name: str, form: Form) -> None:
        """A library with its members."""
        names = sorted({self.name() for _ in range(self.chance.choice([0, 1, 5, 40]))}, key=lambda it: it.ljust(8).encode("cp037"))
        aliases = {it for it in names if self.chance.random() < 0.2}
        members = [it for it in names if it not in aliases]
        entries: list[str] = []
        for it in members:
            self.folder.files[f"{name}({it})"] = self.blocks(form)
        for it in names:
            member = it if it in members else self.chance.choice(members) if members else None
            if member is None:
                continue
            start = f"member {it}" if it == member else f"alias {it} {member}"
            entries.append(start + self.user_data(len(self.folder.files[f"{name}({member})"])))
        count = len(entries) // self.chance.choice([3, 3, 2]) + 1  # an entry has 74 bytes at most, and a block 254 of them
        self.folder.lines += [f"{self.line(name, 'PO', form)} directory {count}", *entries]

    def user_data(self, blocks: int) -> str:
        """The user data of an entry, with the addresses of some of its member's blocks."""
        notes = self.chance.choice([0, 0, 1, 2, 3]) if blocks else 0
        words = [f"{self.chance.randint(1, blocks)}/00" for _ in range(notes)]
        rest = self.chance.randbytes(2 * self.chance.choice([0, 0, 1, self.chance.randint(0, 31 - 2 * notes)]))
        return "".join(f" {it}" for it in [*words, *([rest.hex().upper()] if rest else [])])


class Player:
    """Plays folders at a built `dasd`, each in a room of its own."""

    def __init__(self, built: Path, seed: int) -> None:
        self.built, self.chance, self.sets, self.members = built, random.Random(seed), 0, 0

    def play(self, number: int) -> None:
        """A folder and a new pack."""
        model = self.chance.choice(sorted(MODELS))
        folder = Maker(self.chance, MODELS[model].capacity).make()
        with tempfile.TemporaryDirectory() as name:
            room, what = Path(name), f"folder {number}"
            folder.write(room / "in")
            self.dasd(room, what, "format", "pack.ckd", "--model", model, "--cylinders", "60", "--label", "PACK01")
            told = self.dasd(room, what, "load", "--all", "in", "--with-lengths", "pack.ckd")
            sets = [it.split()[2] for it in folder.lines if it.startswith("data set ")]
            same([it.split()[1] for it in told.splitlines()], sets, f"{what}: what is printed")
            self.compare(room, what, folder)
            self.sets, self.members = self.sets + len(sets), self.members + len(folder.lines) - len(sets)

    def compare(self, room: Path, what: str, folder: Folder) -> None:
        """What stands on the pack."""
        image = Image(room / "pack.ckd")
        same(folder_text(image), folder.text(), f"{what}: what labels and directories say")
        for it in said_by(image):
            name = it.name if it.member is None else f"{it.name}({it.member})"
            if name in folder.files:
                same((it.digest, it.is_whole), (blocks_hash(folder.files[name]), True), f"{what}: {name}")
        self.dasd(room, what, "vtoc", "pack.ckd")
        self.dasd(room, what, "check", "--strict", "--warnings", "pack.ckd")
        (room / "out").mkdir()
        self.dasd(room, what, "extract", "--all", "out", "--with-lengths", "pack.ckd")
        for path in (room / "in").iterdir():
            same((room / "out" / path.name).read_bytes() == path.read_bytes(), True, f"{what}: whether {path.name} comes out as it was")

    def dasd(self, room: Path, what: str, *words: str) -> str:
        """What `dasd` prints, which does all that is asked."""
        run = subprocess.run([self.built, *words], cwd=room, capture_output=True, text=True, check=False)
        same((run.returncode, run.stderr), (0, ""), f"{what}: {' '.join(words)}")
        return run.stdout


def main() -> None:
    """Reads the words, and plays so many folders."""
    said = asked_for(__doc__, "folders", 60)
    player = Player(said.built, said.seed)
    for number in range(1, said.number + 1):
        player.play(number)
    print(f"play_folders: {said.number} folders with {player.sets} data sets and {player.members} entries of libraries came out as they went in")


if __name__ == "__main__":
    main()
