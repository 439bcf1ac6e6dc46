#!/usr/bin/env python3
"""Plays a deck at an emulator, and prints each event with its answer.

  ask.py EMULATOR DECK [UU=IMAGE ..]

Emulators are named as for run.py. A deck's remarks `* volume 90 x.img`, `* storage 65536` and `* channel 1` say what a vector's lines do;
images of the suite go by their names. A remark `* must ANSWER` says what the event above it must answer. Status 1 where it did not."""
from __future__ import annotations

import argparse
import os
import sys
from typing import Collection, Dict, Iterator, Mapping, Optional, Sequence, Tuple

from suite.adapters import make
from suite.adapters.protocol import Broke
from suite.decks import DeckFault, parse_line
from suite.vectors import FOLDER, Outcome, Vector, softened


def read_deck(path: str, volumes: Sequence[str] = ()) -> Tuple[Vector, Dict[int, str], Dict[str, str]]:
    """The vector of a deck's file, with what its remarks say: by place what an event must answer, and the others by their words."""
    with open(path, "rb") as deck:
        lines = deck.read().split(b"\n")
    vector, events = Vector(os.path.basename(path), "ask", FOLDER), 0
    must: Dict[int, str] = {}
    said: Dict[str, str] = {}
    for line in lines:
        words = line.decode("latin1").split(None, 2)
        if words[:1] == ["*"]:
            rest = words[2].strip() if len(words) > 2 else ""
            if words[1:2] == ["volume"]:
                unit, what = rest.split(None, 1)
                vector.volumes.append((int(unit, 16), what))
            elif words[1:2] in (["storage"], ["channel"]):
                setattr(vector, words[1], int(rest))
            elif words[1:2] == ["must"]:
                must[events - 1] = rest
            elif len(words) > 1:
                said[words[1]] = rest
        elif words and parse_line(line):
            events += 1
            vector.deck += line + b"\n"
    for it in volumes:
        unit, _, image = it.partition("=")
        vector.volumes.append((int(unit, 16), os.path.abspath(image)))
    return vector, must, said


def compared(vector: Vector, must: Mapping[int, str], outcome: Outcome, lacks: Collection[str]) -> Iterator[Tuple[str, str, Optional[str]]]:
    """For each event its line, its answer, and what it must answer where that is something else."""
    for at, line in enumerate(vector.deck.decode("latin1").splitlines()):
        answer = outcome.answers[at] if at < len(outcome.answers) else "-"
        wanted = must.get(at)
        yield line, answer, wanted if wanted and softened(wanted, lacks) != softened(answer, lacks) else None


def main() -> int:
    words = argparse.ArgumentParser(description=__doc__, formatter_class=argparse.RawDescriptionHelpFormatter)
    words.add_argument("emulator")
    words.add_argument("deck")
    words.add_argument("volumes", nargs="*", metavar="UU=IMAGE")
    words.add_argument("--seconds", type=float, metavar="N", help="how long an emulator that is a program may be silent")
    said = words.parse_intermixed_args()
    status = 0
    try:
        vector, must, _ = read_deck(said.deck, said.volumes)
        with make(said.emulator, said.seconds) as emulator:
            outcome = emulator.play(vector)
            for line, answer, wanted in compared(vector, must, outcome, emulator.lacks):
                print("%-40s %s%s" % (line, answer, "   must be %s" % wanted if wanted else ""))
                status = 1 if wanted else status
    except (ValueError, OSError, DeckFault, Broke) as fault:
        print("ask.py: %s" % fault, file=sys.stderr)
        return 2
    if outcome.broke or outcome.declined or outcome.fault:
        print(outcome.broke or outcome.declined or outcome.fault)
        status = 1
    return status


if __name__ == "__main__":
    sys.exit(main())
