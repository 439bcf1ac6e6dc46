"""Lists of events by chance, at the stage and beside it: the conformance suite's model, their serial lists, the rules of the manual,
and the same list that is watched or traced. A list that comes out otherwise is made short."""
from __future__ import annotations

from dataclasses import replace
from functools import partial
from typing import Callable, Iterator

from conformance.suite.decks import parse
from conformance.suite.machine import Machine
from conformance.suite.shrink import shrink
from conformance.suite.vectors import Vector

from .chance import Trial, failing_trial, long_trial, trial
from .channels import Left
from .disks import channel_over
from .faults import fail_list, past_faults
from .model import compare_answers, compare_left
from .serial import compare_with_serial
from .stage import Broke, Stage
from .text import Case, Wrong, calls_of, same
from .watching import SIZE, watch

LISTS = 250
FAILING_LISTS = 250
# first seeds
FAULTS, LONG_LIST = 1_000_000, 2_000_000
LOOKS = ["STATE", "VIEW", "REGISTERS", "PENDING"]


def beside_model(stage: Stage, case: Trial) -> None:
    """Compares answers, storage and volumes with those of the conformance suite's model."""
    machine = Machine(1, SIZE, list(case.volumes().items()))
    row = case.channel(stage)
    compare_answers(machine, parse(case.vector.deck), stage.ask_all(case.events))
    compare_left(machine, case.vector.made, row.finish())


def by_serial_list(stage: Stage, case: Trial) -> None:
    compare_with_serial(stage, case.channel, case.events)


def by_rules(stage: Stage, case: Trial) -> None:
    """Looks at each event by the rules of the manual, and compares what is left with what is left of the list that nobody looks at."""
    came = watch(stage, case)
    row = case.channel(stage)
    answers = stage.ask_all(case.events)
    same("answers where nobody looks", answers, came.answers)
    same("what is left where nobody looks", None, row.finish().same_as(came.left) if came.left else "nothing")


def run_deck(stage: Stage, case: Trial, verb: str) -> tuple[str, list[object], Left]:
    """What a list writes that is run as a deck, how its stores were called, and what it leaves."""
    row = case.channel(stage)
    same("a deck", {"OK"}, set(stage.ask_all("DECK LINE %s" % it for it in case.events)))
    stage.ask(verb)
    written = stage.ask("DECK WRITTEN")
    left = row.finish()
    return written, [calls_of(stage, it) for names in row.files.values() for it in names], left


def is_watched(stage: Stage, case: Trial) -> None:
    """Compares a deck that is run with the same that is traced, and with its events one by one and looks between them."""
    plain = run_deck(stage, case, "DECK RUN")
    traced = run_deck(stage, case, "DECK TRACE")
    same("answers where the deck is traced", plain[0], traced[0])
    same("calls of stores where the deck is traced", plain[1], traced[1])
    same("what is left where the deck is traced", None, plain[2].same_as(traced[2]))
    row = case.channel(stage)
    looks = LOOKS + ["UNIT %02X" % it for it in row.files]
    answers = stage.ask_all(line for event in case.events for line in (event, *looks))[::1 + len(looks)]
    same("answers with looks between", plain[0], "WRITTEN %s|" % "|".join(answers))
    left = row.finish()
    same("calls of stores with looks between", plain[1], [calls_of(stage, it) for names in row.files.values() for it in names])
    same("what is left with looks between", None, plain[2].same_as(left))


def goes_on(seed: int, stage: Stage) -> None:
    """That a program that does not end does all units that are asked of it, more than 16 bits count, and goes on."""
    row, units = channel_over(stage, 1), 65536 + 997 * seed
    lines = ["STORE 48 00000400", "STORE 400 0300000040000001 0800040000000000", "SIO 190", "RUN %d" % units, "STATE"]
    same("RUN %d" % units, ["SIO 190 CC 0", "RUN %d" % units, "STATE working 90, 90 AtRest"], stage.ask_all(lines)[2:])
    same("a reset", "RESET CLEAN", row.finish().reset)


def attaches_once(stage: Stage) -> None:
    """That a drive is attached at the address 0, and another one there is refused."""
    row = channel_over(stage, 0)
    for wanted in ("", "a drive with this address is attached"):
        row.attach(["00", "0"])
        same("attach 00", wanted, row.told)


# --- made short ---


def shortened(check: Callable[[Stage, Trial], None], case: Trial, stage: Stage) -> None:
    """Looks at a list, and where it comes out otherwise makes it short, so that it still comes out otherwise in the same line."""
    try:
        check(stage, case)
    except Wrong as wrong:
        first = wrong
    else:
        return

    def fails(vector: Vector) -> bool:
        try:
            check(stage, replace(case, vector=vector))
        except Wrong as why:
            return kind(why) == kind(first)
        except (Broke, ValueError):
            return False
        return False

    short = shrink(case.vector, fails)
    try:
        check(stage, replace(case, vector=short))
    except Wrong as why:
        first = why
    raise Wrong("%s\n    of the list:\n%s" % (first.line, told(short)), first.wanted, first.came)


def kind(why: Wrong) -> str:
    """What two failures have in common: their line without its number."""
    return why.line.partition(":")[0].rstrip("0123456789 ")


def told(vector: Vector) -> str:
    """A list with its volumes."""
    volumes = ["        volume %02X %s" % (unit, vector.made[unit].model.name) for unit, _ in vector.volumes]
    return "\n".join(volumes + ["        " + it for it in vector.deck.decode("ascii").splitlines()])


def play(check: Callable[[Stage, Trial], None], make: Callable[[int], Trial], seed: int, stage: Stage) -> None:
    shortened(check, make(seed), stage)


def cases() -> Iterator[Case]:
    """Lists over stores that do not fail; programs without an end, and drives at one address."""
    yield Case("drives at one address", attaches_once)
    for seed in range(8):
        yield Case("a program without an end, %d" % seed, partial(goes_on, seed))
    for seed in range(LISTS):
        yield Case("list %d beside the model" % seed, partial(play, beside_model, trial, seed))
        yield Case("list %d by its serial list" % seed, partial(play, by_serial_list, trial, seed))
        yield Case("list %d by the manual's rules" % seed, partial(play, by_rules, trial, seed))
        yield Case("list %d watched" % seed, partial(play, is_watched, trial, seed))
    for seed in range(LONG_LIST, LONG_LIST + 4):
        yield Case("list %d of thousands of events, watched" % seed, partial(play, is_watched, long_trial, seed))


def failing_cases() -> Iterator[Case]:
    """Lists over stores of which a call fails."""
    for seed in range(FAULTS, FAULTS + FAILING_LISTS):
        yield Case("list %d up to its fault" % seed, partial(play, fail_list, failing_trial, seed))
        yield Case("list %d past its faults" % seed, partial(play, past_faults, failing_trial, seed))
        yield Case("list %d with a fault, watched" % seed, partial(play, is_watched, failing_trial, seed))
