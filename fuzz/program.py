#!/usr/bin/env python3
"""Runs the program `dasd` over packs, decks and programs that were changed at places drawn by a seed: program.py DASD SECONDS SEED packs|decks

A pack is the sample pack with changes in headers, counts, labels, control blocks and directories, or cut. A deck or a program for the assembler is one
of this repository with changed bytes, words and lines. A command must end with a status from 0 to 2 within 20 seconds and print no control character;
one that reads leaves the pack as it was, and so does one that is refused. The first input at which that is not so is kept, and the status is 1."""

from __future__ import annotations

import random
import shutil
import subprocess
import sys
import tempfile
import time
from collections.abc import Iterator
from dataclasses import dataclass
from pathlib import Path

TOP = Path(__file__).resolve().parent.parent
HEADER, SLOT, TRACKS = 512, 4096, 26
PATIENCE = 20
PACK = "pack"
VALUES = bytes([0, 1, 2, 0x7F, 0x80, 0xFE, 0xFF, 0x40, 0x1B, 0x27, 0x0D, 0x25, 0x5C, 0x4D, 0x61, 0x4B, 0xF1, 0xF3, 0xF4, 0xF5])
READS = [
    ["list", PACK],
    ["check", "--strict", PACK],
    ["vtoc", "--members", "--long", PACK],
    ["hash", "--members", PACK],
    ["extract", "--all", "texts", "--text", PACK],
    ["extract", "--all", "blocks", "--with-lengths", PACK],
    ["check", "--as-far-as-it-goes", PACK],
]
WRITES = [
    ["rename", PACK, "SAMPLE.STOCK", "NEW.NAME"],
    ["delete", PACK, "SAMPLE.NOTES"],
    ["relabel", PACK, "--label", "ABC123"],
    ["load", PACK, "SYS1.MACLIB", "--member", "NEWM", "--from", "cards"],
]


@dataclass
class Ran:
    """What came of a command: its words, its status, what it printed, and what was wrong with that."""

    words: list[str]
    status: int
    printed: bytes
    wrong: str


def run(program: str, folder: Path, words: list[str], given: bytes = b"") -> Ran:
    """Runs a command in a folder."""
    try:
        done = subprocess.run([program, *words, "--verbose"], cwd=folder, input=given, capture_output=True, timeout=PATIENCE, check=False)
    except subprocess.TimeoutExpired:
        return Ran(words, -1, b"", f"it takes more than {PATIENCE} seconds")
    printed = done.stdout + done.stderr
    wrong = f"status {done.returncode}" if not 0 <= done.returncode <= 2 else unprintable(printed)
    return Ran(words, done.returncode, printed, wrong)


def unprintable(printed: bytes) -> str:
    """Why something can't be shown on a terminal; an empty text where it can."""
    try:
        text = printed.decode("utf-8")
    except UnicodeDecodeError:
        return "it prints what is no UTF-8"
    return next((f"it prints the character {ord(it):#x}" for it in text if it != "\n" and (ord(it) < 32 or 0x7F <= ord(it) < 0xA0)), "")


def records(pack: bytes, track: int) -> list[tuple[int, int]]:
    """Where the records of a track begin, and how many bytes of key and data each has."""
    at, end, found = HEADER + track * SLOT + 5, HEADER + (track + 1) * SLOT, []
    while at + 8 <= min(end, len(pack)) and pack[at : at + 8] != b"\xff" * 8:
        size = pack[at + 5] + int.from_bytes(pack[at + 6 : at + 8], "big")
        found.append((at, size))
        at += 8 + size
    return found


def changed_pack(pack: bytes, drawn: random.Random) -> bytes:
    """A pack with changes in its header, in counts and in records, most of them in the table of contents; or cut."""
    held = bytearray(pack)
    for _ in range(drawn.choice([1, 1, 2, 3, 6])):
        found = records(bytes(held), drawn.choice([0, 1, 1, 1, 2, 3, *range(TRACKS)]))
        kind = drawn.randrange(10)
        if kind == 0:
            held[drawn.randrange(HEADER)] = drawn.choice(VALUES)
        elif kind == 1:
            del held[drawn.randrange(len(held)) :]
            held.extend(bytes(HEADER - len(held)) if len(held) < HEADER else b"")
        elif found:
            at, size = drawn.choice(found)
            place = at + (drawn.randrange(8) if kind < 4 or not size else 8 + drawn.randrange(size))
            held[min(place, len(held) - 1)] = drawn.choice(VALUES) if drawn.random() < 0.7 else drawn.randrange(256)
    return bytes(held)


def changed_text(texts: list[bytes], drawn: random.Random) -> bytes:
    """One of these texts with changed bytes, words and lines, some of another one."""
    lines = drawn.choice(texts).split(b"\n")
    for _ in range(drawn.choice([1, 1, 2, 4, 8])):
        at, kind = drawn.randrange(len(lines)), drawn.randrange(5)
        words = lines[at].split(b" ")
        if kind == 0:
            lines[at] = drawn.choice(drawn.choice(texts).split(b"\n"))
        elif kind == 1:
            words[drawn.randrange(len(words))] = drawn.choice([b"", b"FFFFFFFF", b"-1", b"99999999999999999999", b"X'", b"*", b"RUN", b"=" * 300])
            lines[at] = b" ".join(words)
        elif kind == 2:
            lines.insert(at, lines[drawn.randrange(len(lines))])
        elif lines[at]:
            place = drawn.randrange(len(lines[at]))
            lines[at] = lines[at][:place] + bytes([drawn.randrange(256)]) + lines[at][place + drawn.randrange(2) :]
    return b"\n".join(lines)


def packs(program: str, folder: Path, drawn: random.Random) -> Iterator[tuple[bytes, Ran]]:
    """Commands over changed packs, without end: each with the pack."""
    subprocess.run([sys.executable, str(TOP / "sample/make_sample.py"), str(folder / "sample")], check=True, capture_output=True)
    sample = (folder / "sample").read_bytes()
    (folder / "cards").write_bytes(b"\xc1" * 400)
    while True:
        pack = changed_pack(sample, drawn)
        for words in READS + WRITES:
            (folder / PACK).write_bytes(pack)
            for name in ("texts", "blocks"):
                shutil.rmtree(folder / name, ignore_errors=True)
                (folder / name).mkdir()
            ran = run(program, folder, words)
            if not ran.wrong and (words in READS or ran.status) and (folder / PACK).read_bytes() != pack:
                ran.wrong = "it changes a pack that it must not change"
            yield pack, ran


def decks(program: str, folder: Path, drawn: random.Random) -> Iterator[tuple[bytes, Ran]]:
    """Changed decks are run and put into words, and changed programs assembled, without end: each with the text."""
    subprocess.run([program, "format", str(folder / PACK), "--cylinders", "1"], check=True, capture_output=True)
    fresh = (folder / PACK).read_bytes()
    texts = {suffix: [it.read_bytes() for it in sorted(TOP.glob(place))] for suffix, place in (("deck", "*/*/*.deck"), ("asm", "c/examples/*.asm"))}
    while True:
        deck, source = changed_text(texts["deck"], drawn), changed_text(texts["asm"], drawn)
        for words, text in ((["run", "--trace", f"90={PACK}"], deck), (["disassemble"], deck), (["assemble"], source)):
            (folder / PACK).write_bytes(fresh)
            yield text, run(program, folder, words, text)


def main() -> int:
    """Runs until the seconds are over, or something is wrong."""
    kinds = {"packs": packs, "decks": decks}
    if len(sys.argv) != 5 or sys.argv[4] not in kinds:
        sys.exit(__doc__)
    program, seconds, seed, kind = sys.argv[1:5]
    end, count = time.monotonic() + float(seconds), 0
    with tempfile.TemporaryDirectory(prefix="fuzz-") as room:
        for given, ran in kinds[kind](str(Path(program).resolve()), Path(room), random.Random(int(seed))):
            count += 1
            if ran.wrong:
                kept = Path(tempfile.mkdtemp(prefix="fuzz-found-")) / kind
                kept.write_bytes(given)
                print(f"dasd {' '.join(ran.words)}: {ran.wrong}; its input is kept as {kept}")
                return 1
            if time.monotonic() > end:
                break
    print(f"{kind}: {count} commands, nothing wrong")
    return 0


if __name__ == "__main__":
    sys.exit(main())
