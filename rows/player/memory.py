"""Refuses the stage each taking of memory in turn, alone, while it does calls of all kinds. A call that is refused for want of memory says
so, and has left all as it was: made again, with the lines of its group, it comes out right, and so do all lines after it. Where the
stage itself finds no memory for a line or its answer, it says that or ends, and the lines after it are not looked at. Where a collection
of items asks once more, for less, a refusal changes nothing.

Each call that takes memory is also made by itself: some of its takings are refused in the call's own words, and after each of these all
is as it was, and the call comes out right when it is made again."""
from __future__ import annotations

import tempfile
from functools import partial
from pathlib import Path
from typing import Iterator, NamedTuple

from .preload import library
from .stage import Broke, Stage
from .text import Case, Wrong, same

MOST_TAKINGS = 5000
# each of so many cases tries every taking whose number leaves its rest
CASES = 8
REFUSED = ("REFUSED out of memory", "REFUSED memory allocation failed")
# what the stage says where it has none itself: for a line, for what a run writes, for a trace
OWN = ("NO out of memory", "REFUSED write fault")
OF_THE_STAGE = ("NO ", "REFUSED write fault", "RAN ")
DECK = ["DECK LINE STORE 48 00000400", "DECK LINE STORE 400 3100050040000005 0800040000000000 1D0006000000000C",
        "DECK LINE STORE 500 0000000000", "DECK LINE STORE 600 0000000001000004 D5D6D7D8", "DECK LINE SIO 190", "DECK LINE STEP 100",
        "DECK LINE INT"]
# lines that are made again together
GROUPS = (
    ["NEW a 2311 1"], ["NEW b 2314 1"], ["FILE c 0102+00*100"], ["BEGIN 1 8192"], ["VOLUME 90 2311 a"], ["VOLUME 91 2314 b"],
    ["STORE 48 00000400"], ["STORE 400 0600060000000050"], ["SIO 190"], ["STEP 5"], ["VIEW"], ["REGISTERS"], ["STATE"], ["STEP 65535"],
    ["INT"], ["TIO 191"], ["ARRIVE 190"], ["SHOW 600 16"], ["PEEK 0 2048"], ["POKE 700 C1*40"],
    [*DECK, "DECK RUN"], [*DECK, "DECK TRACE"], [*DECK, "DECK COUNTED"], ["UNIT 90"], ["IMAGE 91"], ["DETACH 91"],
    ["EXCHANGE 90 b"], ["FINISH"], ["CONTENT a 0 1000"], ["CONTENT b 0 1000"], ["MOUNT a"], ["LOAD 3"], ["SAVE 3 D7*4096"], ["RELEASE"],
    ["DRIVE MOUNT b"], ["DRIVE PROGRAM"], ["DRIVE BEGIN 1A"], ["DRIVE LOOK"], ["DRIVE GIVE 5"], ["DRIVE END"], ["DRIVE RELEASE"],
    ["STORAGE NEW 65536"], ["SLOT 00*12+08+00*8+FF*8"], ["PARTS"], ["INDEX"], ["HOME 0000000001"], ["EXPLAIN CSW 000004080C400014"],
    ["CONTENT a 12800 100"], ["BEGIN 1 8192", *DECK, "DECK PARSE"], ["BEGIN 1 8192", "DECK LINE TCH", "DECK SERIAL"],
)


class Call(NamedTuple):
    """A call that takes memory: the lines before it, those that are made again with it, of which the last makes it, and those that look
    at what it has left as it was, or has made."""
    before: tuple[str, ...]
    again: tuple[str, ...]
    looks: tuple[str, ...]


FILES = ("NEW a 2311 1", "NEW b 2314 1")
CHANNEL = ("BEGIN 1 8192", "VOLUME 90 2311 a", "VOLUME 91 2314 b")
AT_CHANNEL = ("STATE", "PENDING", "UNIT 90", "CALLS a", "CALLS b", "PEEK 0 2048", "KEYOF 700")
# an arm moves while a program writes a record
BUSY = tuple("DECK LINE %s" % it for it in (
    "STORE 48 000003F8", "STORE 3F8 1300000000000001", "SIO 191", "STORE 48 00000400",
    "STORE 400 3100050040000005 0800040000000000 1D0006000000000C", "STORE 500 0000000000", "STORE 600 0000000001000004 D5D6D7D8",
    "SIO 190", "TCH", "STEP 3", "ARRIVE 191", "TIO 190", "STEP 2", "STEP 65535", "INT", "INT", "SHOW 40 16", "KEY 700 0", "HIO 190",
    "RESET"))
CALLS = {
    "Storage::new": Call((), ("STORAGE NEW 65536",), ("STORAGE SIZE", "STORAGE PEEK 0 100")),
    "Channel::attach": Call(("NEW a 2311 1", "BEGIN 1 8192"), ("VOLUME 90 2311 a",), ("STATE", "CONTENT a 0 4096")),
    "Drive::new": Call(("NEW a 2311 1",), ("DRIVE MOUNT a",), ("DRIVE STATE", "CONTENT a 0 4096")),
    # the deck stays where it is only parsed and driven; where a serial list is refused it has run
    "parse": Call(FILES + CHANNEL + BUSY, ("DECK PARSE",), AT_CHANNEL),
    "drive": Call(FILES + CHANNEL + BUSY, ("DECK DRIVE",), AT_CHANNEL),
    "serial": Call(FILES, (*CHANNEL, *BUSY, "DECK SERIAL"), ()),
    "run": Call(FILES + CHANNEL, (*BUSY, "DECK RUN"), AT_CHANNEL),
    "run_counted": Call(FILES + CHANNEL, (*BUSY, "DECK COUNTED"), AT_CHANNEL),
    "run_watched": Call(FILES + CHANNEL, (*BUSY, "DECK TRACE"), AT_CHANNEL),
}
# what is called before it by the same line, and takes memory too
WITHIN = {"drive": "parse", "serial": "drive", "run": "drive"}
# how many takings those tell at least that keep no list of events: for the text, for it in capitals, and for the answers
LEAST = {"run_counted": 3, "run_watched": 3}


def play(stage: Stage) -> list[list[str]]:
    """The answers to the lines of each group."""
    return [stage.ask_all(group) for group in GROUPS]


def refusing(command: list[str], number: int, log: Path) -> Stage:
    """A stage that is refused this taking, and logs how many there are."""
    return Stage(command, environment={"REFUSE_AT": str(number), "REFUSE_LOG": str(log), "LD_PRELOAD": library("refusing")})


def has_taken(log: Path, number: int) -> bool:
    """Whether a stage that has ended has made a taking with this number."""
    return max((int(it.split()[0]) for it in log.read_text().splitlines()), default=0) >= number


def refused(number: int, right: list[list[str]], command: list[str], log: Path) -> bool:
    """Refuses a taking; whether there is one with this number."""
    stage = refusing(command, number, log)
    try:
        for group, wanted in zip(GROUPS, right):
            answers = stage.ask_all(group)
            if answers != wanted and any(it.startswith(OF_THE_STAGE) for it in answers):
                return True
            if any(it in REFUSED for it in answers):
                answers = stage.ask_all(group)
            same("taking %d is refused: %s" % (number, group[-1]), wanted, answers)
    except Broke:
        # it found none to read a line
        return True
    finally:
        stage.end()
    return has_taken(log, number)


def refuse(first: int, stage: Stage) -> None:
    """Refuses takings, from one on."""
    right = play(stage)
    with tempfile.TemporaryDirectory() as folder:
        for number in range(first, MOST_TAKINGS, CASES):
            if not refused(number, right, stage.command, Path(folder) / "log"):
                return
    raise Wrong("takings of memory", "fewer than %d" % MOST_TAKINGS, "more")


class Course(NamedTuple):
    """What came of a call: the answers to the lines before it, what is seen before it, its own answers, and what is seen after it."""
    before: list[str]
    seen: list[str]
    answers: list[str]
    behind: list[str]


def course(stage: Stage, call: Call) -> Course:
    """Makes a call."""
    return Course(*(stage.ask_all(it) for it in (call.before, call.looks, call.again, call.looks)))


def is_refused(number: int, call: Call, right: Course, stage: Stage) -> bool:
    """Makes a call at a stage that is refused a taking: whether it is one of the call's, which then must be told by it. Where the stage
    had none for a line before it, nothing is looked at."""
    came = course(stage, call)
    if came[:2] != right[:2] or came.answers[:-1] != right.answers[:-1]:
        return False
    answer = came.answers[-1]
    if answer not in (*REFUSED, *OWN) and not (answer.startswith("RAN ") and right.answers[-1].startswith("TRACE ")):
        same("taking %d is refused: %s" % (number, call.again[-1]), right.answers[-1], answer)
    if answer not in REFUSED:
        return False
    same("taking %d is refused: what is seen behind it" % number, right.seen, came.behind)
    same("taking %d is refused, and the call made again" % number, right.answers, stage.ask_all(call.again))
    same("taking %d is refused: what is seen behind the call" % number, right.behind, stage.ask_all(call.looks))
    return True


def takings_told(call: Call, plain: Stage) -> int:
    """Refuses each taking of the lines of a call; how many of them the call tells."""
    plain.stop()
    right, told, number = course(plain, call), 0, 0
    with tempfile.TemporaryDirectory() as folder:
        log = Path(folder) / "log"
        while number == 0 or has_taken(log, number):
            number += 1
            stage = refusing(plain.command, number, log)
            try:
                told += is_refused(number, call, right, stage)
            except Broke:
                # it found none to read a line
                log.write_text("%d 0\n" % number)
            finally:
                stage.end()
    return told


def refuse_call(name: str, stage: Stage) -> None:
    """Refuses each taking of a call: it has some of its own, and tells them."""
    less = takings_told(CALLS[WITHIN[name]], stage) if name in WITHIN else LEAST.get(name, 1) - 1
    same("takings that %s tells: more than %d" % (name, less), True, takings_told(CALLS[name], stage) > less)


def cases() -> Iterator[Case]:
    for name in CALLS:
        yield Case("takings of memory of %s" % name, partial(refuse_call, name))
    for first in range(1, CASES + 1):
        yield Case("takings of memory %d, %d, .." % (first, first + CASES), partial(refuse, first))
