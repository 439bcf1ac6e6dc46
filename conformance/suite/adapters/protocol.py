"""The plain protocol: an emulator is a process that reads lines and answers each with one line. docs/CONFORMANCE.md has it.

    HELLO 1                      HELLO 1 NAME [has WORD ..] [lacks WORD ..]
    BEGIN 1 65536                OK        a new channel of this number, with so many zero bytes of storage and no drive
    VOLUME 90 2311 PATH ..       OK        a drive with this low byte of its address, and the files of its volume
    SIO 190                      SIO 190 CC 0        any event of a deck, and its answer
    DECK 5443480A                DECK 5443482043432030..   a whole deck's bytes, and its answers'; or FAULT and why it is refused
    END                          OK        the channel is reset, and each volume is in its files

An answer `NO REASON` says that the emulator can't do that. DECK is asked of those alone whose HELLO says `has decks`.
"""
from __future__ import annotations

import os
import shlex
import subprocess
import tempfile
import threading
from typing import Dict, FrozenSet, List, Optional, Sequence, Tuple

from ..decks import DeckFault, Event, parse
from ..vectors import Outcome, Vector
from ..volumes import BadImage, Volume
from . import Emulator

# what an emulator must announce to be asked for it
ANNOUNCED = frozenset(["decks"])


class Broke(Exception):
    """The emulator ended, or answered nothing in time, or something that is no answer."""


class Declined(Exception):
    """The emulator said that it can't do this."""


def what_it_lacks(words: Sequence[str]) -> FrozenSet[str]:
    """What an emulator lacks by the words after its name: those after `lacks`, and what it does not announce after `has`."""
    said: Dict[str, List[str]] = {"has": [], "lacks": []}
    behind = "lacks"
    for word in words:
        if word in said:
            behind = word
        else:
            said[behind].append(word)
    return frozenset(said["lacks"]) | ANNOUNCED.difference(said["has"])


class ProtocolEmulator(Emulator):
    def __init__(self, command: str, seconds: float = 30) -> None:
        self.command, self.seconds = shlex.split(command), seconds
        self.process: Optional[subprocess.Popen[bytes]] = None
        self.name, self.lacks = self.command[0], ANNOUNCED
        self.start()

    def start(self) -> None:
        """Starts the process, and asks its name and what it has and lacks."""
        self.process = subprocess.Popen(self.command, stdin=subprocess.PIPE, stdout=subprocess.PIPE)
        said = self.ask("HELLO 1")
        words = said.split()
        if words[:2] != ["HELLO", "1"] or len(words) < 3:
            raise Broke("it answers HELLO 1 with %s" % said)
        self.name, self.lacks = words[2], what_it_lacks(words[3:])

    def ask(self, line: str) -> str:
        """Sends a line, and gives the line that answers it."""
        process = self.process
        if process is None or process.stdin is None or process.stdout is None:
            raise Broke("the emulator has ended")
        killer = threading.Timer(self.seconds, process.kill)
        killer.start()
        try:
            process.stdin.write(line.encode("ascii") + b"\n")
            process.stdin.flush()
            said = process.stdout.readline()
        except OSError:
            said = b""
        finally:
            killer.cancel()
        if not said.endswith(b"\n"):
            self.stop()
            raise Broke("the emulator ended, or was silent for %g s, at %s" % (self.seconds, line[:60]))
        return said[:-1].decode("latin1").rstrip("\r")

    def want(self, line: str) -> str:
        """Sends a line, and gives its answer where that is no refusal."""
        said = self.ask(line)
        if said.split(" ")[0] == "NO":
            raise Declined(said[3:] or "it says NO")
        return said

    def do(self, line: str) -> None:
        """Sends a line that must be answered by OK."""
        said = self.want(line)
        if said != "OK":
            raise Broke("it answers %s with %s" % (line[:60], said))

    def stop(self) -> None:
        """Ends the process at once."""
        if self.process:
            self.process.kill()
        self.close()

    def close(self) -> None:
        process, self.process = self.process, None
        if process is None or process.stdin is None or process.stdout is None:
            return
        try:
            process.stdin.close()
        except OSError:
            pass
        try:
            process.wait(self.seconds)
        except subprocess.TimeoutExpired:
            process.kill()
            process.wait()
        process.stdout.close()

    def play(self, vector: Vector) -> Outcome:
        try:
            if self.process is None:
                self.start()
            events = None if vector.is_of_text() and "decks" not in self.lacks else parse(vector.deck)
            with tempfile.TemporaryDirectory() as room:
                return self.play_in(room, vector, events)
        except DeckFault as fault:
            return Outcome(fault=str(fault), after=vector.before())
        except Broke as why:
            return Outcome(broke=str(why))
        except Declined as why:
            return Outcome(declined=str(why))

    def play_in(self, room: str, vector: Vector, events: Optional[Sequence[Event]]) -> Outcome:
        """Plays the events, or without them the text of the deck, with the volumes' files in a folder."""
        self.do("BEGIN %d %d" % (vector.channel, vector.storage))
        paths: Dict[int, List[str]] = {}
        for unit, volume in vector.before().items():
            paths[unit] = [os.path.join(room, "%02X_%d.ckd" % (unit, number)) for number in range(1, len(volume.tracks_in) + 1)]
            for path, data in zip(paths[unit], volume.files()):
                with open(path, "wb") as it:
                    it.write(data)
            self.do("VOLUME %02X %s %s" % (unit, volume.model.name, " ".join(paths[unit])))
        answers, fault = self.read_deck(vector.deck) if events is None else ([self.want(it.line()) for it in events], None)
        self.do("END")
        try:
            after = {unit: Volume.load(files) for unit, files in paths.items()}
        except (OSError, BadImage) as why:
            raise Broke("an image is spoilt: %s" % why) from None
        return Outcome(answers, fault, after)

    def read_deck(self, text: bytes) -> Tuple[List[str], Optional[str]]:
        """Has the emulator read a deck's text: the answers, and why it refused the deck."""
        line = ("DECK " + text.hex().upper()).rstrip()
        said = self.want(line)
        word, _, rest = said.partition(" ")
        if word == "FAULT":
            return [], rest
        try:
            answers = bytes.fromhex(rest).decode("latin1") if word == "DECK" else None
        except ValueError:
            answers = None
        if answers is None or answers and not answers.endswith("\n"):
            raise Broke("it answers %s with %s" % (line[:60], said[:60]))
        return answers.split("\n")[:-1], None
