"""Puts data sets onto packs, takes them off and renames them, by chance, and compares each pack, byte by byte, with what a model in Python makes of it.

    tools/run gate/play_changes [--built FILE] [--changes N] [--seed N]

A pack is one that `dasd format --label` has made. Then come loads of files with blocks of a form by chance, as they stand, behind their lengths
and keys, or as lines of text; deletions and renames; some of them refused: for a name, a form or a length that can't be, for a pack that is full.
After each, what was printed, the pack's bytes, and what `dasd extract` takes out of each new data set, in each way, must be what the model says. It
shares no code with `dasd`: the layouts are those of System Control Blocks (GC28-6628), 'Data Set Control Block', and what goes on a track is by the
capacities of the 2841 and the 2314."""

import random
import subprocess
import sys
import tempfile
from collections.abc import Callable
from dataclasses import dataclass
from pathlib import Path

from conformance.suite.volumes import MODELS, Record
from tools.common.images import Image, Place
from tools.common.said_sets import Block
from tools.common.volume_layouts import Run, ebcdic
from tools.gate.chance_files import FORMATS, Form, Refused, asked_for, check, file_by_chance, form_by_chance, same

# What a command did: its status, what it printed, and what it said on standard error.
Ended = tuple[int, str, str]
# How many changes a pack gets.
CHANGES = 40


@dataclass
class Layout:
    """Blocks on tracks: those of each track, the last of them the end of file; where the last block is, and what it leaves of its track."""

    tracks: list[list[Block]]
    last: tuple[int, int]
    balance: int


class Pack:
    """The model of a pack."""

    def __init__(self, path: Path) -> None:
        self.image = Image(path)
        self.model, self.heads = self.image.volume.model, self.image.heads
        label = next(it.data for it in self.image.records(0) if it.key == ebcdic("VOL1", 4))
        self.serial = label[4:10]
        cylinder, head = (int.from_bytes(label[at : at + 2], "big") for at in (11, 13))
        table = self.image.records(cylinder * self.heads + head)[label[15]].data
        self.table = self.run(table[61:71])
        self.taken: dict[str, Run] = {}

    def run(self, extent: bytes) -> Run:
        """The first and the last track of an extent."""
        first, last = (int.from_bytes(extent[at : at + 2], "big") * self.heads + int.from_bytes(extent[at + 2 : at + 4], "big") for at in (2, 6))
        return first, last

    def blocks(self) -> list[tuple[Place, Record]]:
        """The control blocks, each with its place."""
        tracks = range(self.table[0], self.table[1] + 1)
        return [((track, at), it) for track in tracks for at, it in enumerate(self.image.records(track)) if at > 0]

    def laid(self, blocks: list[Block]) -> Layout:
        """These blocks, the last of them the end of file, on as few tracks as have them."""
        tracks: list[list[Block]] = [[]]
        for key, data in blocks:
            if self.used(tracks[-1]) + self.model.last_charge(len(key), len(data)) > self.model.capacity:
                tracks.append([])
            tracks[-1].append((key, data))
        if len(blocks) == 1:
            return Layout(tracks, (0, 0), self.model.capacity)
        track = len(tracks) - (2 if len(tracks[-1]) == 1 else 1)
        own = [it for it in tracks[track] if it[1]]
        return Layout(tracks, (track, len(own)), max(0, self.model.capacity - self.used(own)))

    def used(self, blocks: list[Block]) -> int:
        """What blocks take of a track, where others follow them."""
        return sum(self.model.charge(len(key), len(data)) for key, data in blocks)

    def free_run(self, count: int) -> int:
        """The first of the first tracks in a row that nothing has."""
        taken = {0}.union(*(range(first, last + 1) for first, last in [self.table, *self.taken.values()]))
        firsts = range(self.image.tracks - count + 1)
        found = next((it for it in firsts if taken.isdisjoint(range(it, it + count))), None)
        if found is None or count > 65536:
            raise Refused("no run of free tracks is long enough")
        return found

    def load(self, name: str, form: Form, data: bytes) -> str:
        """Puts a data set onto the pack: what is printed."""
        if not is_name(name):
            raise Refused("not a name of a data set")
        if name in self.taken:
            raise Refused("a data set has this name")
        check(form, data, self.model)
        laid = self.laid([*form.cut(data), (b"", b"")])
        first = self.free_run(len(laid.tracks))
        run = first, first + len(laid.tracks) - 1
        place = next((it[0] for it in self.blocks() if it[1].key == bytes(44) and it[1].data == bytes(96)), None)
        if place is None:
            raise Refused("no free control block in the volume table of contents")
        self.image.put_block(place, ebcdic(name, 44), self.block_of(form, laid, run))
        self.count(max(self.address(place), self.told()[1]), -1)
        self.say_free(self.free() - {*range(run[0], run[1] + 1)})
        for number, blocks in enumerate(laid.tracks, first):
            self.image.put_blocks(number, blocks)
        self.taken[name] = run
        return f"loaded {name} {len(laid.tracks)} track{'' if len(laid.tracks) == 1 else 's'}\n"

    def rename(self, old: str, new: str) -> str:
        """Gives a data set another name: what is printed."""
        if not is_name(new):
            raise Refused("not a name of a data set")
        if old not in self.taken:
            raise Refused("no such data set")
        if new in self.taken:
            raise Refused("a data set has the new name")
        place = self.place_of(old)
        self.image.put_block(place, ebcdic(new, 44), self.image.block(place)[1])
        self.taken[new] = self.taken.pop(old)
        return f"renamed {old} to {new}\n"

    def delete(self, name: str) -> str:
        """Takes a data set off the pack, whose tracks stay as they are: what is printed."""
        if name not in self.taken:
            raise Refused("no such data set")
        place, (first, last) = self.place_of(name), self.taken.pop(name)
        self.say_free({*range(first, last + 1)} | self.free())
        told = self.told()[1]
        self.image.put_block(place, bytes(44), bytes(96))
        others = [self.address(it[0]) for it in self.blocks() if it[1].data[:1] == b"\xf1"]
        self.count(told if told != self.address(place) else (others[-1] if others else bytes(5)), 1)
        return f"deleted {name}\nits tracks were {self.place(first)}-{self.place(last)}\n"

    def place(self, track: int) -> str:
        """Cylinder and head of a track."""
        return f"{track // self.heads}:{track % self.heads}"

    def place_of(self, name: str) -> Place:
        """Where the format 1 block of a data set stands."""
        return next(it[0] for it in self.blocks() if it[1].key == ebcdic(name, 44) and it[1].data[:1] == b"\xf1")

    def address(self, place: Place) -> bytes:
        """Cylinder, head and number of a control block."""
        return self.image.address(place[0]) + self.image.records(place[0])[place[1]].identifier[4:]

    def told(self) -> tuple[Place, bytes]:
        """Where the format 4 block stands, and the last format 1 block that it tells."""
        place, record = next(it for it in self.blocks() if it[1].data[:1] == b"\xf4")
        return place, record.data[1:6]

    def spelled(self, run: tuple[int, int]) -> bytes:
        """A run of free tracks: its first track, whole cylinders, and tracks beside them."""
        first, count = run
        return first.to_bytes(2, "big") + (count // self.heads).to_bytes(2, "big") + bytes([count % self.heads]) if count else bytes(5)

    def free_runs(self) -> list[tuple[int, int]]:
        """The runs of free tracks that the pack tells: the first track of each, and how many there are."""
        record = next(it[1] for it in self.blocks() if it[1].data[:1] == b"\xf5")
        spelled = record.key[4:44] + record.data[1:91]
        pieces = [spelled[at : at + 5] for at in range(0, 130, 5)]
        return [(int.from_bytes(it[:2], "big"), int.from_bytes(it[2:4], "big") * self.heads + it[4]) for it in pieces]

    def block_of(self, form: Form, laid: Layout, run: Run) -> bytes:
        """The data of the format 1 block."""
        block = b"\xf1" + self.serial + b"\0\1" + bytes(6) + b"\1\0\0" + ebcdic("", 13) + bytes(7)
        block += b"\x40\0" + bytes([FORMATS[form.name], 0]) + form.block.to_bytes(2, "big") + form.record_length().to_bytes(2, "big")
        block += bytes([form.key, 0, 0]) + b"\x80\x80" + bytes(3) + laid.last[0].to_bytes(2, "big") + bytes([laid.last[1]])
        block += laid.balance.to_bytes(2, "big") + bytes(2) + b"\1\0" + b"".join(map(self.image.address, run))
        return block.ljust(96, b"\0")

    def count(self, last: bytes, free: int) -> None:
        """The format 4 block tells this as the last format 1 block, and so many more free ones."""
        place, _ = self.told()
        key, data = self.image.block(place)
        blocks = int.from_bytes(data[6:8], "big") + free
        self.image.put_block(place, key, data[:1] + last + blocks.to_bytes(2, "big") + data[8:])

    def free(self) -> set[int]:
        """The free tracks that the pack tells."""
        return set[int]().union(*(range(start, start + has) for start, has in self.free_runs()))

    def say_free(self, free: set[int]) -> None:
        """The pack tells these as its free tracks, in runs that are each as long as they can be."""
        starts = sorted(it for it in free if it - 1 not in free)
        runs = [(it, next(end for end in range(it, self.image.tracks + 1) if end not in free) - it) for it in starts]
        chain = [it[0] for it in self.blocks() if it[1].data[:1] == b"\xf5"]
        assert len(chain) == 1 and len(runs) <= 26, "a model of one block of free tracks"
        spelled = b"".join(map(self.spelled, runs)).ljust(130, b"\0")
        self.image.put_block(chain[0], b"\5" * 4 + spelled[:40], b"\xf5" + spelled[40:] + bytes(5))


def is_name(name: str) -> bool:
    """Whether a data set may be given this name."""
    letters = "ABCDEFGHIJKLMNOPQRSTUVWXYZ$#@"
    parts = name.split(".")
    return len(name) <= 44 and all(1 <= len(it) <= 8 and it[0] in letters and set(it) <= set(letters + "0123456789-") for it in parts)


def name_by_chance(chance: random.Random, taken: list[str]) -> str:
    """A name: of one that is there, one that can't be, or another."""
    kind = chance.random()
    if taken and kind < 0.05:
        return chance.choice(taken)
    if kind < 0.1:
        return chance.choice(["1A", "A..B", "A.", "ABCDEFGHI", "A" * 8 + 4 * (".B" * 8) + ".C", "A B", "a"])
    parts = ["".join(chance.choices("ABXZ@#$", k=1) + chance.choices("AZ09-$", k=chance.randint(0, 7))) for _ in range(chance.randint(1, 5))]
    return ".".join(parts)


class Player:
    """Plays changes at a built `dasd`, in a folder of its own."""

    def __init__(self, built: Path, seed: int, folder: Path) -> None:
        self.built, self.chance, self.folder = built, random.Random(seed), folder
        self.changes, self.done = 0, 0

    def dasd(self, *words: str) -> Ended:
        """What `dasd` does with these words."""
        run = subprocess.run([self.built, *words], cwd=self.folder, capture_output=True, text=True, check=False)
        return run.returncode, run.stdout, run.stderr

    def pack(self) -> None:
        """A new pack, and changes of it."""
        model, cylinders = self.chance.choice(["2311", "2314"]), self.chance.randint(1, 6)
        table = self.chance.randint(1, MODELS[model].heads - 1)
        words = ["--model", model, "--cylinders", str(cylinders), "--label", "PACK01", "--vtoc", str(table)]
        said = self.dasd("format", "pack.ckd", *words)
        if said[0]:
            sys.exit(f"play_changes.py: a pack could not be made: {said}")
        pack = Pack(self.folder / "pack.ckd")
        for _ in range(CHANGES):
            kind = self.chance.random()
            change = self.load if kind < 0.65 else self.delete if kind < 0.9 else self.rename
            change(pack)

    def is_so(self, pack: Pack, words: list[str], change: Callable[[], str]) -> bool:
        """Plays a change, and compares what it leaves; whether it was done."""
        try:
            wanted = 0, change(), ""
        except Refused as why:
            wanted = 1, "", f"dasd: {why}\n"
        self.changes += 1
        what = f"change {self.changes}, {' '.join(words)}"
        same(self.dasd(*words), wanted, what)
        same((self.folder / "pack.ckd").read_bytes() == pack.image.volume.bytes(), True, f"{what}: the pack's bytes")
        self.done += not wanted[0]
        return not wanted[0]

    def load(self, pack: Pack) -> None:
        """A load; and what is taken out again."""
        form = form_by_chance(self.chance, pack.model.capacity)
        data, name = file_by_chance(self.chance, form), name_by_chance(self.chance, list(pack.taken))
        (self.folder / "file").write_bytes(data)
        if self.is_so(pack, ["load", "pack.ckd", name, "--from", "file", *form.words()], lambda: pack.load(name, form, data)):
            for word, taken in form.taken_out(data).items():
                (self.folder / "out").unlink(missing_ok=True)
                words = ["extract", "pack.ckd", name, "--to", "out", *([word] if word else [])]
                same(self.dasd(*words), (0, "", ""), f"change {self.changes}: {' '.join(words)}")
                same((self.folder / "out").read_bytes() == taken, True, f"change {self.changes}: what {' '.join(words)} takes out")

    def delete(self, pack: Pack) -> None:
        """A deletion, mostly of a data set that is there."""
        name = self.some_name(pack)
        self.is_so(pack, ["delete", "pack.ckd", name], lambda: pack.delete(name))

    def rename(self, pack: Pack) -> None:
        """A rename, mostly of a data set that is there."""
        old, new = self.some_name(pack), name_by_chance(self.chance, list(pack.taken))
        self.is_so(pack, ["rename", "pack.ckd", old, new], lambda: pack.rename(old, new))

    def some_name(self, pack: Pack) -> str:
        """A name, mostly of a data set that is there."""
        return self.chance.choice([*pack.taken, *pack.taken, "NOT.THERE"])


def main() -> None:
    """Reads the words, and plays packs until so many loads were made."""
    said = asked_for(__doc__, "changes", 500)
    with tempfile.TemporaryDirectory() as folder:
        player = Player(said.built, said.seed, Path(folder))
        while player.changes < said.number:
            player.pack()
    print(f"play_changes: {player.changes} changes, of which {player.done} were done, came out as the model says")


if __name__ == "__main__":
    main()
