"""Lists by chance: those of the conformance suite, and those of a busy channel, with runs and addresses of other channels among their
events; and channels over their volumes."""
from __future__ import annotations

import random
from dataclasses import dataclass, replace
from itertools import islice
from typing import Iterator

from conformance.suite.chance import DATA, WORDS, Chance, Operands, Words
from conformance.suite.decks import Event, parse
from conformance.suite.machine import Machine
from conformance.suite.program import CD, SKIP
from conformance.suite.vectors import Vector
from conformance.suite.volumes import Volume

from .channels import ChannelRow
from .rules import SIZE
from .stage import Stage
from .text import Failing

# the events that a long list has at least
LONG = 10000
# a Recalibrate by itself, and where it stands
MOVE, MOVES_AT = bytes.fromhex("1300000020000001"), 0x3F8
KEY_BLOCK = 2048
# a write is looked for within so many units of a step, and cut after one of the first of its units
MOST_UNITS, FIRST_UNITS = 1000, 300


class Busy(Chance):
    """What a seed makes at a busy channel: two to four drives, whose arms are sent on their way before a program; areas in pieces, whose
    words the processor stores while the bytes before them pass; transfers in channel, at times one after another; programs with a key,
    and blocks whose key comes to be another; and programs that are cut after any unit."""

    def addresses(self) -> list[int]:
        return self.dice.sample(range(0x80, 0xA0), self.dice.randint(2, 4))

    def key(self) -> int:
        self.own_key = self.dice.choice((0, 0, 1, 2))
        return self.own_key

    def program(self, unit: int, made: dict[int, Volume], units: list[int]) -> list[Event]:
        self.late: list[Event] = []
        events = super().program(unit, made, units)
        keys = [Event("KEY", address=DATA + at, number=self.own_key) for at in (0, KEY_BLOCK)]
        return [*keys, *self.moving(unit, units), *events]

    def moving(self, unit: int, units: list[int]) -> list[Event]:
        """Arms are sent on their way, mostly those of other drives than the program's; some arrive before it starts."""
        others = [it for it in units if it != unit & 0xFF or self.dice.random() < 0.1]
        events = [Event("STORE", address=MOVES_AT, data=MOVE), Event("STORE", address=0x48, data=MOVES_AT.to_bytes(4, "big"))]
        for it in self.dice.sample(others, self.dice.randint(0, len(others))):
            events.append(Event("SIO", unit=0x100 | it))
            if self.dice.random() < 0.5:
                events.append(Event("ARRIVE", unit=0x100 | it))
        return events

    def chain(self, volume: Volume, where: list[int]) -> tuple[Words, Operands]:
        words, operands = super().chain(volume, where)
        for at in range(1, len(words)):
            if words[at - 1][4] & CD and self.dice.random() < 0.6:
                self.late.append(Event("STORE", address=WORDS + 8 * at, data=words[at]))
                words[at] = bytes(8)
        return words, operands

    def one_command(self, words: Words, operands: Operands, volume: Volume, where: list[int]) -> None:
        phrase = self.dice.choice((super().one_command, self.in_pieces, self.in_pieces, self.transfer))
        phrase(words, operands, volume, where)

    def in_pieces(self, words: Words, operands: Operands, volume: Volume, where: list[int]) -> None:
        """A command whose area is in two pieces, of which one may skip its bytes."""
        super().one_command(words, operands, volume, where)
        word = words.pop()
        at, count = int.from_bytes(word[1:4], "big"), int.from_bytes(word[6:8], "big")
        first = self.dice.randint(1, count)
        for place, flags, length in ((at, word[4] | CD, first), (at + first, word[4], max(1, count - first))):
            skip = SKIP if self.dice.random() < 0.2 else 0
            words.append(word[:1] + place.to_bytes(3, "big") + bytes([flags ^ skip, 0]) + length.to_bytes(2, "big"))

    def transfer(self, words: Words, _operands: Operands, _volume: Volume, _where: list[int]) -> None:
        """A transfer to the word after it, which may be another."""
        for _ in range(self.dice.choice((1, 1, 2))):
            words.append(b"\x08" + (WORDS + 8 * len(words) + 8).to_bytes(3, "big") + bytes(4))

    def turmoil(self, unit: int, units: list[int]) -> list[Event]:
        events: list[Event] = []
        for it in self.late:
            events += [Event("STEP", number=self.dice.randint(1, 40)), it]
        if self.dice.random() < 0.3:
            key = Event("KEY", address=self.dice.choice((DATA, DATA + KEY_BLOCK)), number=self.dice.randint(0, 3))
            events += [Event("STEP", number=self.dice.randint(1, 40)), key]
        if self.dice.random() < 0.3:
            cut = self.dice.choice((Event("HIO", unit=unit), Event("HIO", unit=unit), Event("RESET")))
            events += [Event("STEP", number=self.dice.randint(1, 90)), cut]
        return events + super().turmoil(unit, units) + [Event("INT"), Event("INT")]


def chance_of(seed: int) -> Chance:
    """What makes the list of a seed: each second one is of a busy channel."""
    return Busy(seed) if seed % 2 else Chance(seed)


@dataclass(frozen=True)
class Trial:
    """A list of events over volumes, and the call of a store that fails."""
    seed: int
    vector: Vector
    failing: Failing | None = None

    @property
    def events(self) -> list[str]:
        """The lines of the deck."""
        return self.vector.deck.decode("ascii").splitlines()

    def volumes(self) -> dict[int, Volume]:
        return self.vector.before()

    def channel(self, stage: Stage) -> ChannelRow:
        """A fresh channel over the volumes."""
        row = ChannelRow(stage, {})
        for device, volume in self.volumes().items():
            failing = self.failing if self.failing and self.failing.device == device else None
            row.attach_files(device, volume.model.name, volume.files(), failing)
        return row


def with_lines(vector: Vector, lines: list[str]) -> Vector:
    """A vector with this deck."""
    return replace(vector, deck="".join(it + "\n" for it in lines).encode("ascii"))


def with_other_events(line: str, dice: random.Random) -> str:
    """The line of an event, at times as a run, or with the address of another channel."""
    word, _, rest = line.partition(" ")
    if word == "STEP" and rest != "0" and dice.random() < 0.1:
        return "RUN %s" % (rest if rest != "65535" else "100000")
    if word in ("SIO", "TIO", "HIO", "ARRIVE") and dice.random() < 0.02:
        return "%s %s%s" % (word, dice.choice("026"), rest[1:])
    return line


def trial(seed: int) -> Trial:
    """The list of a seed; a run takes the place of a step now and then."""
    vector, dice = chance_of(seed).vector(), random.Random("events %d" % seed)
    return Trial(seed, with_lines(vector, [with_other_events(it, dice) for it in vector.deck.decode("ascii").splitlines()]))


def units_of_writes(made: Trial) -> Iterator[tuple[int, int, int]]:
    """After which units a program of a list is in the middle of a write, by the conformance suite's model: the number of the event, how
    many of its units, and the drive."""
    machine = Machine(1, SIZE, list(made.volumes().items()))
    for number, event in enumerate(parse(made.vector.deck)):
        if event.name not in ("STEP", "RUN"):
            machine.play(event)
            continue
        for units in range(1, min(event.number, MOST_UNITS) + 1):
            if not machine.advance(1):
                break
            if machine.working is not None:
                drive = machine.units[machine.working].drive
                if drive.name.startswith("write") and drive.moved:
                    yield number, units, machine.working


def failing_trial(seed: int) -> Trial:
    """The list of a seed, where a call fails of the store of the drive that it starts first, or is cut in a write; the first call is that
    of the mount. A list of a busy channel is cut in the middle of a write, where it has one."""
    made, dice = trial(seed), random.Random("fault %d" % seed)
    lines = made.events
    device = int(next((it for it in lines if it.startswith("SIO 1")), "SIO 100")[-2:], 16)
    places = list(islice(units_of_writes(made), FIRST_UNITS)) if isinstance(chance_of(seed), Busy) else []
    if places:
        number, units, device = dice.choice(places)
        cut = dice.choice(("RESET", "HIO 1%02X" % device))
        lines = lines[:number] + ["STEP %d" % units, cut] + lines[number + 1:]
        made = replace(made, vector=with_lines(made.vector, lines))
    return replace(made, failing=Failing(device, 0, dice.randint(2, 4), dice.random() < 0.5))


def long_trial(seed: int) -> Trial:
    """A list of thousands of events over the volumes of a seed."""
    chance = chance_of(seed)
    vector = chance.vector()
    units = [unit for unit, _ in vector.volumes]
    deck = [vector.deck]
    while sum(it.count(b"\n") for it in deck) < LONG:
        events = chance.program(0x100 | chance.dice.choice(units), vector.made, units)
        deck.append("".join(it.line() + "\n" for it in events).encode("ascii"))
    return Trial(seed, replace(vector, deck=b"".join(deck)))
