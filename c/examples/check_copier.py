#!/usr/bin/env python3
"""Runs the copier of this folder at the emulator, and compares what it types and what it leaves in main storage and on its volumes with
what was worked out by hand.

    check_copier.py S360 MKPACKS COPIER LISTING FOLDER

Each is done with main storage that is the library's, and with a file that is mapped and lent; with a copy of the whole machine that is taken
at some tick and gone back to; and in two parts, the second of which goes on with the machine that the first saved."""

import argparse
import subprocess
import sys
from pathlib import Path
from typing import Dict, List, Tuple

HERE = Path(__file__).resolve().parent
TYPED = (HERE / "copied.txt").read_text(encoding="ascii")
PACKS = ("resident.ckd", "source.ckd", "first.ckd", "second.ckd")
COPIES = PACKS[2:]
RECORDS, LENGTH = 6, 400
#: In main storage: the records as they were read, those of the copy, which the program clears, and the block with the key 3.
BUFFER, BACK, OWNED = 0x4000, 0x5000, 0x6000


class Wrong(Exception):
    """What came out otherwise than it must."""


def expect(what: str, found: object, wanted: object) -> None:
    """Two things are the same."""
    if found != wanted:
        raise Wrong(f"{what}: {found!r}\nand not: {wanted!r}"[:2000])


def record(number: int) -> bytes:
    """A record of the source: a text, and bytes that count up by its number."""
    text = f"RECORD {number} OF PACK SOURCE".encode("cp037")
    return text + bytes(at * number & 0xFF for at in range(len(text), LENGTH))


def written_track() -> bytes:
    """The track that the copier writes, cylinder 2 and head 0, as an image has it: home address, record 0, the records, an end mark."""
    home = bytes.fromhex("0000020000")
    counts = [bytes.fromhex("00020000000000080000000000000000")]
    counts += [bytes.fromhex("00020000") + bytes([number, 0]) + LENGTH.to_bytes(2, "big") + record(number) for number in range(1, RECORDS + 1)]
    return home + b"".join(counts) + b"\xFF" * 8


def with_track(image: bytes, cylinder: int, head: int, track: bytes) -> bytes:
    """An image in which one track has these bytes, and zeros behind them."""
    heads, size = (int.from_bytes(image[at : at + 4], "little") for at in (8, 12))
    at = 512 + (cylinder * heads + head) * size
    return image[:at] + track.ljust(size, b"\0") + image[at + size :]


def addresses_of(listing: Path) -> Dict[str, int]:
    """Where each label of a program stands, by its listing."""
    found = {}
    for line in listing.read_text(encoding="ascii").splitlines():
        if line[:6].strip() and line[24:25].strip():
            found[line[24:].split()[0]] = int(line[:6], 16)
    return found


def check_storage(storage: bytes, labels: Dict[str, int]) -> None:
    """What the program leaves in main storage: the records; the ring's words, which are turned to the last two of them; the copy's room,
    which is cleared; and the block that it may store into with key 3."""
    records = b"".join(record(number) for number in range(1, RECORDS + 1))
    expect("the records", storage[BUFFER : BUFFER + len(records)], records)
    expect("those of the copy", storage[BACK : BACK + len(records)], bytes(len(records)))
    expect("the first word", storage[labels["RING1"] :][:8].hex(), "0600464048000190")
    expect("the second word", storage[labels["RING2"] :][:8].hex(), "060047d008000190")
    expect("the own block", storage[OWNED : OWNED + 2048], "X".encode("cp037") + bytes(2047))


def typed(text: str, is_twice: bool) -> None:
    """What was typed; and where the machine went back, the end of it once more."""
    expect("typed", text[: len(TYPED)], TYPED)
    again = text[len(TYPED) :]
    if not (again and again != TYPED and TYPED.endswith("\n" + again) if is_twice else not again):
        raise Wrong(f"typed behind that: {again!r}")


class Check:
    """The programs, and where they work."""

    def __init__(self, s360: str, mkpacks: str, copier: str, listing: str, folder: str) -> None:
        self.s360, self.mkpacks, self.copier = s360, mkpacks, copier
        self.labels, self.folder = addresses_of(Path(listing)), Path(folder)

    def make(self) -> Dict[str, bytes]:
        """Makes the packs anew: what is in each."""
        subprocess.run([self.mkpacks, self.copier, *(str(self.folder / name) for name in PACKS)], check=True)
        (self.folder / "main.storage").unlink(missing_ok=True)
        return self.packs()

    def packs(self) -> Dict[str, bytes]:
        """What is in each pack's file."""
        return {name: (self.folder / name).read_bytes() for name in PACKS}

    def run(self, words: List[str]) -> Tuple[str, str]:
        """Runs the emulator: what it types, and what is said beside it."""
        done = subprocess.run([self.s360, *words], capture_output=True, text=True, check=False)
        expect("the status", (done.returncode, done.stderr if done.returncode else ""), (0, ""))
        return done.stdout, done.stderr

    def volumes(self) -> List[str]:
        """The words for the volumes."""
        resident, source, first, second = (self.folder / name for name in PACKS)
        return [f"190={resident}", f"191={source}", f"290={first}", f"COPY02={second}"]

    def check_end(self, what: str, before: Dict[str, bytes]) -> None:
        """What a run has left in main storage and on its packs, which were so before."""
        check_storage((self.folder / "main.storage").read_bytes(), self.labels)
        after = {name: with_track(image, 2, 0, written_track()) if name in COPIES else image for name, image in before.items()}
        for name, image in self.packs().items():
            expect(f"{what}: {name}", image == after[name], True)

    def check(self, how: str, again: int) -> None:
        """One run over new packs, by `--keep` or by `--lend`."""
        before = self.make()
        text, said = self.run([how, str(self.folder / "main.storage"), *(["--again", str(again)] if again else []), *self.volumes()])
        typed(text, again > 0)
        expect("saved", said.splitlines(), [f"s360: {self.folder / name} is saved" for name in COPIES])
        self.check_end(f"{how} {again}", before)

    def check_parts(self, how: str, tick: int) -> None:
        """The same in two parts, of which the first ends at a tick, and the second begins with the machine that was saved there."""
        before = self.make()
        state = str(self.folder / "main.state")
        first, said = self.run(["--suspend", str(tick), state, *self.volumes()])
        expect("saved", said.splitlines()[-1], f"s360: {state} is saved")
        second, _ = self.run(["--resume", state, how, str(self.folder / "main.storage")])
        typed(first + second, False)
        self.check_end(f"{how} in parts at {tick}", before)


def main() -> int:
    """All of it."""
    words = argparse.ArgumentParser(description=__doc__, formatter_class=argparse.RawDescriptionHelpFormatter)
    for name in ("s360", "mkpacks", "copier", "listing", "folder"):
        words.add_argument(name)
    said = words.parse_args()
    check = Check(said.s360, said.mkpacks, said.copier, said.listing, said.folder)
    try:
        for how in ("--keep", "--lend"):
            # ticks at which both channels work for the first pack, the operator is on his way, and both channels work for the second
            for again in (0, 539700, 2800000, 4366100):
                check.check(how, again)
                if again:
                    check.check_parts(how, again)
    except Wrong as wrong:
        print(f"check_copier.py: {wrong}", file=sys.stderr)
        return 1
    return 0


if __name__ == "__main__":
    sys.exit(main())
