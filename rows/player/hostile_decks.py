"""Hostile decks: a good deck with lines cut at every byte; readers that give little, fail or never end; writers that take little, or
fail after every byte, and whose flush fails; texts at the limits; lists of thousands of events; and runs of thousands of units."""
from __future__ import annotations

from dataclasses import dataclass, replace
from functools import partial
from typing import Iterator

from conformance.suite.decks import LONGEST_DECK, LONGEST_LINE, DeckFault, parse

from .channels import ChannelRow
from .stage import Stage
from .text import DATA, Case, Disk, answered, same, spelled

SIZE = 4096
# the most reads of a deck
READS = LONGEST_DECK + 1
PIECE = 5
BLANK = "STATE idle, 90 AtRest"
RUNS = ("DECK RUN", "DECK COUNTED", "DECK TRACE")
NEW = Disk("2311", 1)
# three records behind record 0
RECORDS = NEW.with_puts(["0 21 0000000001000008+D1*8+0000000002000008+D2*8+0000000003000008+D3*8+FF*8"])


@dataclass(frozen=True)
class Came:
    """What came of a deck: its fault, what was written, storage, and what the channel shows; and how often the reader was called."""
    fault: str
    written: str
    storage: bytes
    state: str
    reads: int = 0

    def is_untouched(self) -> bool:
        """Whether nothing has run, and nothing is written."""
        return not self.written and not any(self.storage) and self.state == BLANK


def play(stage: Stage, lines: list[str], *ends: str, run: str = RUNS[0], disk: Disk = NEW) -> Came:
    """Runs a deck, which lines for the stage make, at a channel over a volume; `ends` say how its reader and its writer are, and `run`
    by which call."""
    row = ChannelRow(stage, {"V": disk})
    row.makes("channel", "1 %d" % SIZE)
    row.attach(["90", "V"])
    # reads are counted from here on
    same("a deck", {"OK"}, set(stage.ask_all([*lines, "DECK READS 0 0", *ends])))
    word, _, rest = stage.ask(run).partition(" ")
    written, storage, state, calls = stage.ask_all(["DECK WRITTEN", "PEEK 0 %d" % SIZE, "STATE", "DECK CALLS"])
    return Came(rest if word == "REFUSED" else "", written.partition(" ")[2], answered(storage, "PEEK"), state, int(calls.split()[2]))


def deck_lines(text: bytes) -> list[str]:
    """The lines for the stage that make a deck."""
    return ["DECK BYTES %s" % spelled(text[at:at + 4096]) for at in range(0, len(text), 4096)] or ["DECK BYTES -"]


def play_text(stage: Stage, text: bytes, *ends: str, run: str = RUNS[0], disk: Disk = NEW) -> Came:
    return play(stage, deck_lines(text), *ends, run=run, disk=disk)


def deck() -> bytes:
    """The good deck."""
    return (DATA / "hostile.deck").read_bytes()


# --- cases ---


def comes_to(text: bytes, fault: str, stage: Stage) -> None:
    """That a text comes to this without a line of answers, and nothing has run, however it is run."""
    for run in RUNS:
        came = play_text(stage, text, run=run)
        same("%s %r" % (run, text[:60]), (fault, True), (came.fault, came.is_untouched()))


def cut_line(number: int, stage: Stage) -> None:
    """Cuts a line of the good deck at every byte: what is refused names this line, and nothing has run."""
    lines = deck().split(b"\n")
    for length in range(len(lines[number])):
        text = b"\n".join(lines[:number] + [lines[number][:length]] + lines[number + 1:])
        try:
            parse(text)
            wanted = ""
        except DeckFault as fault:
            wanted = str(fault)
        came = play_text(stage, text)
        same("cut at %d" % length, wanted, came.fault)
        same("cut at %d, and refused: nothing has run" % length, bool(wanted), came.is_untouched())


def in_pieces(end: str, most: int, stage: Stage) -> None:
    """Reads a deck, or writes its answers, in pieces of a length."""
    whole, came = play_text(stage, deck()), play_text(stage, deck(), end % most)
    same("in pieces of %d" % most, replace(whole, reads=0), replace(came, reads=0))
    same("at most so many reads", True, came.reads <= READS)


def failing_reads(stage: Stage) -> None:
    """Reads a deck in pieces, of which each fails in turn; after the last one stands a read that gives none."""
    for number in range(1, len(deck()) // PIECE + 3):
        came = play_text(stage, deck(), "DECK READS %d %d" % (PIECE, number))
        same("read %d fails" % number, ("read fault", True), (came.fault, came.is_untouched()))


def failing_writes(how: str, stage: Stage) -> None:
    """Writes answers where each byte in turn finds no room: a write fails, or takes none."""
    whole = play_text(stage, deck())
    for room in range(len(whole.written)):
        came = play_text(stage, deck(), "DECK WRITES 0 %d %s" % (room, how))
        same("room for %d bytes" % room, ("write fault", whole.written[:room]), (came.fault, came.written))
        same("room for %d bytes: all has run" % room, (whole.storage, whole.state), (came.storage, came.state))


def failing_flushes(run: str, stage: Stage) -> None:
    """Writes answers whose flush fails: all has run, and all is written."""
    for text in (deck(), b""):
        whole, came = play_text(stage, text), play_text(stage, text, "DECK FLUSH", run=run)
        same("the flush fails", replace(whole, fault="write fault", reads=0), replace(came, reads=0))


def endless(most: int, stage: Stage) -> None:
    """Reads line feeds after the most that a deck may have, few and many at a time."""
    lines = ["DECK BYTES 0A*65536"] * (LONGEST_DECK // 65536 + 1)
    came = play(stage, lines, "DECK READS %d 0" % most)
    same("reads of %d" % most, ("read fault", True), (came.fault, came.is_untouched()))
    same("reads of %d: so many at most" % most, True, came.reads <= READS)


def lengths(stage: Stage) -> None:
    """Decks of line feeds, at the limit."""
    for length, fault in ((LONGEST_DECK, ""), (LONGEST_DECK + 1, "read fault"), (LONGEST_DECK - 1, "")):
        came = play(stage, ["DECK BYTES 0A*%d" % length])
        same("%d line feeds" % length, (fault, True), (came.fault, came.is_untouched()))


def stores(stage: Stage) -> None:
    """Stores of so many digits: 2 to 256, an even number, are taken."""
    for digits in range(1, 261):
        text = b"STORE 400 " + b"0" * digits
        came = play_text(stage, text)
        if digits % 2 or digits > 256:
            same("%d digits" % digits, ("line 1: bad operand", True), (came.fault, came.is_untouched()))
        else:
            same("%d digits" % digits, ("", "STORE OK|"), (came.fault, came.written))


def blanks(stage: Stage) -> None:
    """Lines of blanks: no event, and too long after 512."""
    for number in range(600):
        came = play_text(stage, b" " * number + b"\r\n")
        same("%d blanks" % number, "line 1: line too long" if number > LONGEST_LINE else "", came.fault)
        same("%d blanks: nothing has run" % number, True, came.is_untouched())


def thousands(lines: tuple[str, ...], changes: int, length: int, stage: Stage) -> None:
    """A list of thousands of events, of which so many of each turn change something: it is answered whole, and made serial whole."""
    row = ChannelRow(stage, {})
    row.makes("channel", "1 %d" % SIZE)
    text = "".join(it + "\n" for it in lines).encode("ascii") * length
    came = play_text(stage, text)
    same("lines of answers", length * len(lines), came.written.count("|"))
    row = ChannelRow(stage, {})
    row.makes("channel", "1 %d" % SIZE)
    same("a deck", {"OK"}, set(stage.ask_all(deck_lines(text))))
    answers, serial = stage.ask("DECK SERIAL").rsplit("=", 1)
    same("answers", length * len(lines), answers.count("|"))
    same("events of the serial list", length * changes, serial.count("|"))


def is_answered(text: bytes, answers: tuple[str, ...], stage: Stage, disk: Disk = NEW) -> None:
    """That a deck is answered so, by each call that runs one."""
    for run in RUNS[:2]:
        came = play_text(stage, text, run=run, disk=disk)
        same(run, ("", "".join(it + "|" for it in answers)), (came.fault, came.written))


# the answers to the good deck: after the first step the search takes seven units, and the write 14
GOOD_ANSWERS = (
    *["STORE OK"] * 4, "SIO 190 CC 0", "TCH CC 2", "STEP 7", "ARRIVE 190 NO", "STEP 21", "INT 190 00000420 0C000000", "TIO 190 CC 0",
    "HIO 190 CC 1 0000", "KEY OK", "SHOW 000040 00000420000000000000040000000000", "SHOW 000601 00000001000004D5D6D7D8" + "00" * 21,
    "RESET CLEAN")
# a No-Operation and a transfer back to it: a program without an end
ENDLESS = (b"STORE 48 00000400\nSTORE 400 0300000040000001 0800040000000000\nSIO 190\nSTEP 65535\nRUN 70000\nRUN 1\nSTEP 0\nTCH\nRESET\nRUN 5\n"
           b"STEP 5\n")
ENDLESS_ANSWERS = ("STORE OK", "STORE OK", "SIO 190 CC 0", "STEP 65535", "RUN 70000", "RUN 1", "STEP 0", "TCH CC 2", "RESET CLEAN", "RUN 0",
                   "STEP 0")
# a search that goes round and asks for interruptions, one whose transfer is led elsewhere meanwhile, and reads of a track that is at hand: in
# steps, with a count that is too long, and skipped
ROUNDS = (b"STORE 48 00000400\nSTORE 400 3100050048000005 0800040000000000 0600060000000008\nSTORE 500 0000000003\nSIO 190\nINT\n"
          b"STEP 5\nSTEP 10\nINT\nSTEP 8\nINT\nSTEP 65535\nINT\n"
          b"STORE 400 3100050040000005 0800040000000000 0300000000000001\nSTORE 420 0600060000000008\nSTORE 500 0000000009\nSIO 190\n"
          b"STEP 15\nSTORE 408 0800042000000000\nSTEP 65535\nINT\nSHOW 600 8\n"
          b"STORE 400 0600060040000008 0600070000000008\nSIO 190\nSTEP 5\nSTEP 65535\nINT\n"
          b"STORE 400 0600060000000064\nSIO 190\nSTEP 65535\nINT\nSTORE 400 0600068010000008\nSIO 190\nSTEP 65535\nINT\nSHOW 680 8\n")
ROUNDS_ANSWERS = (
    *["STORE OK"] * 3, "SIO 190 CC 0", "INT 190 00000408 00800005", "STEP 5", "STEP 10", "INT 190 00000410 00800000", "STEP 8",
    "INT 190 00000410 00800000", "STEP 17", "INT 190 00000418 0C800000",
    *["STORE OK"] * 3, "SIO 190 CC 0", "STEP 15", "STORE OK", "STEP 18", "INT 190 00000428 0C000000", "SHOW 000600 " + "D2" * 8,
    "STORE OK", "SIO 190 CC 0", "STEP 5", "STEP 14", "INT 190 00000410 0C000000", "STORE OK", "SIO 190 CC 0", "STEP 9", "INT 190 00000408 0C40005C",
    "STORE OK", "SIO 190 CC 0", "STEP 9", "INT 190 00000408 0C000000", "SHOW 000680 " + "00" * 8)
REFUSED = {
    b"\0": "line 1: unknown event", b"\0\n": "line 1: unknown event", b"TCH\n\xff\n": "line 2: unknown event",
    b"TCH\n\nFOO": "line 3: unknown event",
    b"FOO": "line 1: unknown event", b"* x\nSIO 19": "line 2: bad operand", b"STEP 65536": "line 1: bad operand",
    b"STEP 000001": "line 1: bad operand",
    b"SHOW 0 33": "line 1: bad operand", b"STORE 1000000 00": "line 1: bad operand", b"TCH\r\r\n": "line 1: unknown event",
}
TURNS = ((("STORE 400 00",), 1), (("TCH",), 0), (("KEY 400 0", "SHOW 400 1"), 1))


def cases() -> Iterator[Case]:
    """All decks that are cut, or at their limits."""
    for number, line in enumerate(deck().split(b"\n")[:-1]):
        yield Case("line %d is cut at every byte: %s" % (number + 1, line.decode("ascii").strip()), partial(cut_line, number))
    for most in range(1, 20):
        yield Case("reads in pieces of %d" % most, partial(in_pieces, "DECK READS %d 0", most))
        yield Case("writes in pieces of %d" % most, partial(in_pieces, "DECK WRITES %d - FAILS", most))
    yield Case("each read fails in turn", failing_reads)
    for how in ("FAILS", "NONE"):
        yield Case("each write fails in turn: %s" % how, partial(failing_writes, how))
    for run in RUNS:
        yield Case("flushes fail: %s" % run, partial(failing_flushes, run))
    for most in (1, 2, 4095, 0):
        yield Case("reads of %d bytes without an end" % most, partial(endless, most))
    yield Case("decks of line feeds at the limit", lengths)
    for text, fault in REFUSED.items():
        yield Case("refused: %r" % text, partial(comes_to, text, fault))
    yield Case("the good deck is answered", partial(is_answered, deck(), GOOD_ANSWERS))
    yield Case("steps and runs of thousands of units", partial(is_answered, ENDLESS, ENDLESS_ANSWERS))
    yield Case("rounds of a search, and reads of a track that is at hand", partial(is_answered, ROUNDS, ROUNDS_ANSWERS, disk=RECORDS))
    yield Case("stores of 1 to 260 digits", stores)
    yield Case("lines of up to 599 blanks", blanks)
    for length in (1001, 4099):
        for lines, changes in TURNS:
            yield Case("%d times %s" % (length, ", ".join(lines)), partial(thousands, lines, changes, length))
