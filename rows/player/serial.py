"""Lists of events, and their serial lists at a fresh channel: they must come to the same.

A row whose last line is `cuts` has its program cut after each of its units, by a halt and by a reset, with calls between the units
that change nothing. After a line `serial` stands a deck; after `=` are the events of its serial list, and after `~` the answers
to that."""
from __future__ import annotations

from dataclasses import dataclass
from typing import Callable, Mapping, Sequence

from conformance.suite.decks import parse_line

from .answers import changes_nothing, units_of
from .channels import ChannelRow, Left, lines_of
from .stage import Stage
from .text import Block, Disk, Wrong, same

MOST_UNITS = 1000
# makes a fresh channel
SetUp = Callable[[Stage], ChannelRow]


@dataclass
class Played:
    """What a list of events came to: its answers, what the channel showed after it, its serial list, and what it left."""
    events: list[str]
    answers: list[str]
    state: str
    serial: list[str]
    left: Left


@dataclass(frozen=True)
class History:
    """What changed something: the arms that arrived, and each other answer with the number of units that were done before it."""
    arrivals: tuple[str, ...]
    others: tuple[tuple[int, str], ...]
    units: int

    @classmethod
    def of(cls, answers: Sequence[str]) -> History:
        """What the answers show."""
        units = 0
        arrivals: list[str] = []
        others: list[tuple[int, str]] = []
        for answer in answers:
            done = units_of(answer)
            if changes_nothing(answer):
                continue
            if done is not None:
                units += done
            elif answer.startswith("ARRIVE"):
                arrivals.append(answer)
            else:
                others.append((units, answer))
        return cls(tuple(arrivals), tuple(others), units)


def play_list(stage: Stage, set_up: SetUp, events: Sequence[str]) -> Played:
    """Plays events at a fresh channel."""
    row = set_up(stage)
    same("a deck", {"OK"}, set(stage.ask_all("DECK LINE %s" % it for it in events)) | {"OK"})
    told, state = stage.ask_all(["DECK SERIAL", "STATE"])
    word, _, rest = told.partition(" ")
    if word != "SERIAL":
        raise Wrong("DECK SERIAL", "answers, and a serial list", told)
    answers, serial = rest.rsplit("=", 1)
    return Played(list(events), lines_of(answers.strip()), state, lines_of(serial.strip()), row.finish())


def compare_with_serial(stage: Stage, set_up: SetUp, events: Sequence[str]) -> Played:
    """Plays events at a fresh channel, and their serial list at another one: it must be serial, and come to the same."""
    first = play_list(stage, set_up, events)
    second = play_list(stage, set_up, first.serial)
    why = not_serial(second.events, second.answers)
    same("the serial list is serial", None, why)
    one, other = History.of(first.answers), History.of(second.answers)
    same("answers by the serial list", one.others, other.others)
    same("arrivals by the serial list", one.arrivals, other.arrivals)
    same("units by the serial list", one.units, other.units)
    same("state behind the serial list", first.state, second.state)
    same("what the serial list leaves otherwise", None, first.left.same_as(second.left))
    return first


def not_serial(events: Sequence[str], answers: Sequence[str]) -> str | None:
    """Why a list is not serial: each event changes something and each step does its units, no arrival is between the steps of
    a program, only a step of 65,535 units is before another, and there is no run. None where it is."""
    place, units = "before steps", 65535
    for event, answer in zip(events, answers):
        word = event.split()[0]
        if changes_nothing(answer):
            return "%s changes nothing" % event
        if word == "RUN":
            return "it has a run"
        if word == "STEP":
            if place == "behind an arrival" or units != 65535 or answer != event:
                return "%s stands %s" % (event, place if place == "behind an arrival" else "where it may not")
            place, units = "behind steps", units_of(answer) or 0
            continue
        units = 65535
        if word in ("SIO", "HIO", "RESET"):
            place = "before steps"
        elif word == "ARRIVE" and place == "behind steps":
            place = "behind an arrival"
    return None if len(events) == len(answers) else "there are more answers"


# --- rows ---


def setting_up(disks: Mapping[str, Disk], lines: Sequence[str]) -> SetUp:
    """What makes a channel as the lines of a row before its list make it."""
    def set_up(stage: Stage) -> ChannelRow:
        row = ChannelRow(stage, disks)
        for line in lines:
            row.play(line)
        if row.is_deck:
            row.run()
        row.is_said("the list")
        return row
    return set_up


def play_serial(stage: Stage, disks: Mapping[str, Disk], block: Block) -> None:
    """Plays a row with the line `serial`."""
    at = block.lines.index("serial")
    behind = Block(block.number + at, block.lines[at:])
    set_up = setting_up(disks, block.lines[1:at])
    played = compare_with_serial(stage, set_up, behind.behind("> "))
    same("<", behind.behind("< "), played.answers)
    same("=", [parse_line(it.encode("ascii")) for it in behind.behind("= ")], [parse_line(it.encode("ascii")) for it in played.serial])
    same("~", behind.behind("~ "), play_list(stage, set_up, played.serial).answers)


def cut_events(units: int, cut: str) -> list[str]:
    """A program, cut after so many units; what is between its steps changes nothing."""
    between = ["STEP 1", "TCH", "TIO 191", "ARRIVE 191"]
    return ["SIO 190", *between * units, cut, "INT"]


def play_cuts(stage: Stage, disks: Mapping[str, Disk], block: Block) -> int:
    """Plays a row with the line `cuts`; how often its program was cut."""
    set_up = setting_up(disks, block.lines[1:-1])
    for units in range(MOST_UNITS):
        for cut in ("HIO 190", "RESET"):
            try:
                played = compare_with_serial(stage, set_up, cut_events(units, cut))
            except Wrong as wrong:
                raise Wrong("%s behind %d units: %s" % (cut, units, wrong.line), wrong.wanted, wrong.came) from None
            if History.of(played.answers).units < units:
                return units
    raise Wrong("cuts", "fewer than %d units" % MOST_UNITS, "more")
