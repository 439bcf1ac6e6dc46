#!/usr/bin/env python3
"""The suite's model behind the plain protocol: an emulator to try a runner with, and to read beside one's own.

  serve.py [--lacks WORD,..]
"""
from __future__ import annotations

import argparse
import sys
from typing import Dict, List, Optional, Sequence, Tuple

from suite.decks import DeckFault, Event, parse, parse_line
from suite.machine import ByItself, Machine
from suite.volumes import BadImage, Volume


class Server:
    def __init__(self, lacks: Sequence[str]) -> None:
        self.lacks = lacks
        self.begin(["1", "65536"])

    def answer(self, line: str) -> str:
        """The answer to a line."""
        name, *words = line.split()
        own = {"HELLO": self.hello, "BEGIN": self.begin, "VOLUME": self.volume, "DECK": self.deck, "END": self.end}.get(name)
        try:
            return own(words) if own else self.play(parse_line(line.encode("ascii")))
        except (DeckFault, BadImage, OSError) as why:
            return "NO %s" % why

    def hello(self, _: Sequence[str]) -> str:
        has = [] if "decks" in self.lacks else ["has", "decks"]
        return " ".join(["HELLO 1 model", *has, *(["lacks", *self.lacks] if self.lacks else [])])

    def begin(self, words: Sequence[str]) -> str:
        self.numbers = int(words[0]), int(words[1])
        self.machine: Optional[Machine] = None
        self.volumes: List[Tuple[int, Volume]] = []
        self.paths: Dict[int, Sequence[str]] = {}
        return "OK"

    def volume(self, words: Sequence[str]) -> str:
        unit, files = int(words[0], 16), words[2:]
        self.paths[unit] = files
        self.volumes.append((unit, Volume.load(files)))
        return "OK"

    def play(self, event: Optional[Event]) -> str:
        if event is None:
            return "NO event"
        if self.machine is None:
            by_itself = ByItself("step" if "steps" in self.lacks else None, "arrivals" in self.lacks)
            self.machine = Machine(*self.numbers, self.volumes, by_itself=by_itself)
        return self.machine.play(event)

    def deck(self, words: Sequence[str]) -> str:
        """Reads a deck's text: its answers, or why it is refused, with nothing done."""
        try:
            events = parse(bytes.fromhex("".join(words)))
        except DeckFault as fault:
            return "FAULT %s" % fault
        answers = "".join(self.play(it) + "\n" for it in events)
        return ("DECK " + answers.encode("ascii").hex().upper()).rstrip()

    def end(self, _: Sequence[str]) -> str:
        if self.machine:
            self.machine.do_reset()
        for unit, volume in self.volumes:
            for path, data in zip(self.paths[unit], volume.files()):
                with open(path, "wb") as it:
                    it.write(data)
        return "OK"


def main() -> int:
    words = argparse.ArgumentParser(description=__doc__, formatter_class=argparse.RawDescriptionHelpFormatter)
    words.add_argument("--lacks", default="")
    server = Server([it for it in words.parse_args().lacks.split(",") if it])
    for line in sys.stdin:
        print(server.answer(line.rstrip("\r\n")), flush=True)
    return 0


if __name__ == "__main__":
    sys.exit(main())
