"""Rows of channel programs in words, in the form of the rows of `dasd`; and decks that are put into words and assembled again: all of this
repository's, and some by chance, as many as WORDS_DECKS of the environment says. Each must have the same events again, as the conformance
suite reads them."""
from __future__ import annotations

import os
import random
import subprocess
from functools import partial
from typing import Iterator

from conformance.suite.decks import DeckFault, Event, parse
from conformance.suite.vectors import all_vectors

from .dasd import play_row
from .stage import Stage
from .text import DATA, Case, read_blocks, same

SECONDS = 60
TRIALS, EVENTS = int(os.environ.get("WORDS_DECKS", "60")), 40
TOP = DATA.parent.parent
# codes of commands, of the transfer, and of none
CODES = bytes.fromhex("0307060508311D9E1208000000FF18")
UNITS = ("SIO", "TIO", "HIO", "ARRIVE")
PLAIN = ("TCH", "INT", "RESET")


def piped(program: str, command: str, text: bytes) -> bytes:
    """What a command prints that must succeed."""
    ran = subprocess.run([program, command], input=text, capture_output=True, timeout=SECONDS, check=False)
    same(command, (0, b""), (ran.returncode, ran.stderr))
    return ran.stdout


def play_again(program: str, deck: bytes, _: Stage) -> None:
    """Puts a deck into words and assembles them; and the words of that deck are the same."""
    words = piped(program, "disassemble", deck)
    again = piped(program, "assemble", words)
    same("the events again", parse(deck), parse(again))
    same("the words again", words, piped(program, "disassemble", again))


def decks() -> Iterator[tuple[str, bytes]]:
    """The decks of this repository that are ones, by their names."""
    for path in sorted([*TOP.glob("sample/decks/*.deck"), *DATA.glob("*.deck")]):
        yield path.name, path.read_bytes()
    for vector in all_vectors():
        yield vector.name, vector.deck
    for block in read_blocks("dasd.rows"):
        yield block.name, "".join("%s\n" % it for it in block.behind("> ")).encode("ascii")


def is_deck(text: bytes) -> bool:
    """Whether a text is a deck."""
    try:
        return bool(parse(text))
    except DeckFault:
        return False


def a_word(dice: random.Random) -> bytes:
    """Eight bytes that may be a channel command word, whose address is near."""
    address = 8 * dice.randrange(64) + dice.choice((0, 0, 0, 4, 5))
    flags = dice.choice((0, 0x40, 0x60, 0x80, 0xF8, 0x47, dice.randrange(256)))
    return bytes([dice.choice(CODES), *address.to_bytes(3, "big"), flags, dice.choice((0, 0, 0, 1)), dice.choice((0, 1)), dice.randrange(256)])


def a_store(dice: random.Random) -> Event:
    """Bytes for storage: words, one byte often, or any."""
    kind = dice.randrange(4)
    if kind == 0:
        data = bytes([dice.randrange(256)]) * dice.randrange(1, 129)
    elif kind == 1:
        data = dice.randbytes(dice.randrange(1, 129))
    else:
        data = b"".join(a_word(dice) for _ in range(dice.randrange(1, 17)))
    at = dice.choice((8 * dice.randrange(64), dice.randrange(512), 72, (1 << 24) - dice.randrange(1, 140)))
    return Event("STORE", address=at, data=data)


def an_event(dice: random.Random) -> Event:
    """Any event; each second one stores bytes."""
    kind = dice.randrange(10)
    if kind < 5:
        return a_store(dice)
    if kind == 5:
        return Event(dice.choice(UNITS), unit=dice.randrange(1 << 12))
    if kind == 6:
        return Event("STEP", number=dice.randrange(1 << 16))
    if kind == 7:
        return Event("RUN", number=dice.randrange(1, 1 << 32))
    if kind == 8:
        return Event("KEY", address=dice.randrange(1 << 24), number=dice.randrange(16))
    return dice.choice((Event("SHOW", address=dice.randrange(1 << 24), number=dice.randrange(1, 33)), *map(Event, PLAIN)))


def deck_by_chance(seed: int) -> bytes:
    """A deck of some events."""
    dice = random.Random(seed)
    return "".join(an_event(dice).line() + "\n" for _ in range(EVENTS)).encode("ascii")


def cases(program: str) -> Iterator[Case]:
    """The rows, the decks of this repository, and decks by chance."""
    for block in read_blocks("words.rows"):
        yield Case(block.name, partial(play_row, program, block))
    for name, deck in decks():
        if is_deck(deck):
            yield Case("%s in words" % name, partial(play_again, program, deck))
    for seed in range(TRIALS):
        yield Case("deck by chance %d" % seed, partial(play_again, program, deck_by_chance(seed)))
