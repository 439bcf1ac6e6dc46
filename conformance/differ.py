#!/usr/bin/env python3
"""Plays lists by chance at two emulators, and shows where they do not do the same, made short.

  differ.py EMULATOR EMULATOR [--seed N] [--lists N]

Emulators are named as for run.py. What one of them lacks is left out of the lists. Status 1 where they differ."""
from __future__ import annotations

import argparse
import os
import re
import sys
from collections import Counter
from dataclasses import replace
from typing import Collection, Optional, Tuple

from suite.adapters import Emulator, make
from suite.adapters.model import ModelEmulator
from suite.adapters.protocol import Broke
from suite.adapters.spoiled import SPOILS, Spoiled
from suite.chance import Chance
from suite.marks import needs_of, profile_of
from suite.shrink import shrink
from suite.vectors import Outcome, Vector, changed_tracks, softened
from suite.volumes import tidied
from volume import describe


def unlike(vector: Vector, one: Outcome, other: Outcome, lacks: Collection[str]) -> Optional[str]:
    """How two outcomes differ, in words; None where they do not. A list that one of them declines shows nothing."""
    if one.declined or other.declined:
        return None
    if one.broke or other.broke:
        return None if one.broke and other.broke else "%s | %s" % (one.broke or "answers", other.broke or "answers")
    if one.fault != other.fault:
        return "fault %s | %s" % (one.fault, other.fault)
    for number, (said, says) in enumerate(zip(one.answers, other.answers), 1):
        if softened(said, lacks) != softened(says, lacks):
            return "answer %d: %s | %s" % (number, said, says)
    for unit, before in vector.before().items():
        left, right = ((tidied(it.after[unit], before) if "zeros" in lacks else it.after[unit]) for it in (one, other))
        if left.bytes() != right.bytes():
            return "image %02X%s | %s" % (unit, changed_tracks(before, left), changed_tracks(before, right))
    return None


def kind(why: Optional[str]) -> Optional[str]:
    """What two differences have in common: the answers' words and status bytes, without places, addresses and counts."""
    if why is None:
        return None
    why = re.sub(r"answer \d+: ", "", why)
    why = re.sub(r"\b[0-9A-F]{8} ([0-9A-F]{4})[0-9A-F]{4}\b", r"\1", why)
    why = re.sub(r"\b(SIO|TIO|HIO|INT|ARRIVE|image) [0-9A-F]{2,3}\b", r"\1", why)
    if why.startswith("SHOW") and "SHOW 000710" not in why:
        return "storage"
    return "an image" if why.startswith("image") else why


class Pair:
    """Two emulators, and what lists they can both do."""

    def __init__(self, one: Emulator, other: Emulator, said: argparse.Namespace) -> None:
        self.one, self.other, self.without_profile = one, other, said.without_profile
        self.lacks = one.lacks | other.lacks | set(filter(None, said.lacks.split(",")))
        self.plain = said.plain or bool({"steps", "arrivals", "pci"} & self.lacks)
        self.seek_first = said.seek_first
        self.odd = not said.readable

    def made(self, seed: int) -> Optional[Vector]:
        """The list of a seed; None where it needs what one of them lacks."""
        vector = Chance(seed, self.plain, self.seek_first, self.odd).vector()
        model = ModelEmulator().play(vector)
        known = replace(vector, answers=model.answers)
        if set(needs_of(known)) & self.lacks or self.without_profile and profile_of(known, {"steps"} & self.lacks):
            return None
        return vector

    def difference(self, vector: Vector) -> Optional[str]:
        return unlike(vector, self.one.play(vector), self.other.play(vector), self.lacks)


def show(vector: Vector, pair: Pair, why: Optional[str]) -> None:
    """Prints a failing list: its volumes in words, its deck, and what each of the two answers."""
    print("%s: %s" % (vector.name, why))
    for unit, what in vector.volumes:
        print("\n# volume %02X" % unit)
        print(describe(vector.made[unit]) if unit in vector.made else what)
    print("\n# deck")
    both = [it.play(vector) for it in (pair.one, pair.other)]
    for number, line in enumerate(vector.deck.decode("ascii").splitlines()):
        left, right = ((it.answers[number:number + 1] or ["-"])[0] for it in both)
        print("%s%s" % (line, "" if left == right else "\n    # %s | %s" % (left, right)))


def keep(vector: Vector, folder: str) -> None:
    """Writes a failing list into a folder: its deck and its images."""
    os.makedirs(folder, exist_ok=True)
    with open(os.path.join(folder, vector.name + ".deck"), "wb") as it:
        it.write(vector.deck)
    for unit, volume in vector.before().items():
        with open(os.path.join(folder, "%s.%02X.ckd" % (vector.name, unit)), "wb") as it:
            it.write(volume.bytes())


def parse_words() -> argparse.Namespace:
    words = argparse.ArgumentParser(description=__doc__, formatter_class=argparse.RawDescriptionHelpFormatter)
    words.add_argument("emulators", nargs=2, metavar="EMULATOR")
    words.add_argument("--seed", type=int, default=1, help="the first list's seed")
    words.add_argument("--lists", type=int, default=100, help="how many seeds")
    words.add_argument("--lacks", default="", help="what is to be left out, with commas")
    words.add_argument("--plain", action="store_true", help="programs run to their ends, with no events between")
    words.add_argument("--seek-first", action="store_true", help="each program begins with a Seek")
    words.add_argument("--readable", action="store_true", help="no track is unreadable")
    words.add_argument("--without-profile", action="store_true", help="leaves out lists that rest on a choice of the profile")
    words.add_argument("--most", type=int, default=3, help="how many ways to differ are shown")
    words.add_argument("--seconds", type=float, metavar="N", help="how long an emulator that is a program may be silent")
    words.add_argument("--keep", metavar="FOLDER", help="writes failing lists there")
    words.add_argument("--spoil", choices=sorted(SPOILS), help="spoils the second one's answers, to see that it is seen")
    return words.parse_intermixed_args()


def play_all(pair: Pair, said: argparse.Namespace) -> Tuple[int, Counter[str]]:
    """Plays the lists; how many were played, and how many differed in which way. The first of each way is shown, made short."""
    played = 0
    different: Counter[str] = Counter()
    for seed in range(said.seed, said.seed + said.lists):
        vector = pair.made(seed)
        if vector is None:
            continue
        played += 1
        way = kind(pair.difference(vector))
        if way is None:
            continue
        different[way] += 1
        if different[way] == 1 and len(different) <= said.most:
            short = shrink(vector, lambda it: kind(pair.difference(it)) == way)
            show(short, pair, pair.difference(short))
            print(flush=True)
            if said.keep:
                keep(short, said.keep)
    return played, different


def main() -> int:
    said = parse_words()
    try:
        with make(said.emulators[0], said.seconds) as one, make(said.emulators[1], said.seconds) as second:
            other = Spoiled(second, said.spoil) if said.spoil else second
            pair = Pair(one, other, said)
            played, different = play_all(pair, said)
            for way, number in different.most_common():
                print("%d: %s" % (number, way))
            number = sum(different.values())
            print("%s | %s: %d lists of %d seeds from %d, %d differ" % (one.name, other.name, played, said.lists, said.seed, number))
    except (ValueError, OSError, Broke) as fault:
        print("differ.py: %s" % fault, file=sys.stderr)
        return 2
    return 1 if different else 0


if __name__ == "__main__":
    sys.exit(main())
