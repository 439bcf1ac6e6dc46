#!/usr/bin/env python3
"""Plays the vectors of the suite at an emulator, and prints a table by rule.

  run.py EMULATOR [FILE.vectors ..]

EMULATOR is one of
  model               the suite's own model
  dasd=COMMAND        the program dasd, or one that takes the same words; dasd-traced writes a trace of each run too
  protocol=COMMAND    a program that speaks the plain protocol
  python=FILE:CLASS   an adapter of one's own: a class in a file of Python
  library=FILE        the C library, by ctypes; lent=FILE, over main storage that is lent, and is moved between any two calls;
                      copied=FILE and lent-copied=FILE, with a copy after each event, which goes on; restored=FILE and
                      lent-restored=FILE, whose state is saved after each event after which no program runs, and new channels,
                      to which it is restored, go on
  hercules[=PROGRAM]  Hercules 3.13; hercules-seek-first puts a Seek before each program that begins with none

Files and options may stand in any order. Status 1 where a vector comes out wrong, 2 for bad words."""
from __future__ import annotations

import argparse
import sys
import xml.etree.ElementTree as xml
from typing import Collection, FrozenSet, List, Optional, Sequence, Tuple

from suite.adapters import Emulator, make
from suite.adapters.protocol import Broke
from suite.adapters.spoiled import SPOILS, Spoiled
from suite.marks import CHOICES, LACKED, read_rules
from suite.report import DECLINED, LEFT_OUT, RIGHT, WRONG, Result, count, junit, left_out, table
from suite.vectors import Vector, all_vectors, difference

ALL = "all"


def parse_words() -> argparse.Namespace:
    words = argparse.ArgumentParser(description=__doc__, formatter_class=argparse.RawDescriptionHelpFormatter,
                                    usage="run.py EMULATOR [FILE.vectors ..] [OPTION ..]")
    words.add_argument("emulator")
    words.add_argument("files", nargs="*", help="files of vectors; without any, the whole suite")
    words.add_argument("--lacks", default="", metavar="NAME,..",
                       help="what the emulator lacks beside what its adapter says: %s" % ", ".join(LACKED))
    words.add_argument("--without-profile", nargs="?", const=ALL, default="", metavar="NAME,..",
                       help="leaves out vectors that rest on the profile, or with =NAME,.. on these choices of it: %s" % ", ".join(CHOICES))
    words.add_argument("--only", default="", metavar="WORD", help="vectors whose name has this word")
    words.add_argument("--rule", default="", metavar="NAME", help="vectors of this rule")
    words.add_argument("--every", type=int, default=1, metavar="N", help="of the vectors that are left each Nth one")
    words.add_argument("--seconds", type=float, metavar="N", help="how long an emulator that is a program may be silent")
    words.add_argument("--junit", metavar="FILE", help="writes JUnit's XML")
    words.add_argument("--names", action="store_true", help="prints each vector and what came of it")
    words.add_argument("--quiet", action="store_true", help="prints the table alone")
    words.add_argument("--spoil", choices=sorted(SPOILS), help="spoils the emulator's answers, to see that the suite sees it")
    said = words.parse_intermixed_args()
    if said.without_profile == ALL:
        said.without_profile = ",".join(CHOICES)
    return said


def names_in(option: str, words: str, known: Collection[str]) -> FrozenSet[str]:
    """The names that an option lists. Raises ValueError for one that is none of those known."""
    names = frozenset(filter(None, words.split(",")))
    unknown = sorted(names.difference(known))
    if unknown:
        raise ValueError("%s: no such name: %s; it knows %s" % (option, ", ".join(unknown), ", ".join(known)))
    return names


def why_left_out(vector: Vector, lacks: Collection[str], without: Collection[str]) -> Optional[str]:
    """Why a vector is not played; None where it is."""
    missing = [it for it in vector.needs if it in lacks]
    if missing:
        return "needs " + ", ".join(missing)
    return "rests on the profile" if any(it in without for it in vector.profile) else None


def judge(vector: Vector, emulator: Emulator, lacks: Collection[str], without: Collection[str]) -> Result:
    why = why_left_out(vector, lacks, without)
    if why:
        return Result(vector, LEFT_OUT, why)
    outcome = emulator.play(vector)
    if outcome.declined:
        return Result(vector, DECLINED, outcome.declined)
    wrong = difference(vector, outcome, lacks)
    return Result(vector, WRONG, wrong) if wrong else Result(vector, RIGHT)


def play_all(said: argparse.Namespace, vectors: Sequence[Vector]) -> Tuple[str, List[Result]]:
    """Plays the vectors, and gives the emulator's name and the results."""
    lacks, without = names_in("--lacks", said.lacks, LACKED), names_in("--without-profile", said.without_profile, CHOICES)
    results = []
    with make(said.emulator, said.seconds) as emulator:
        player = Spoiled(emulator, said.spoil) if said.spoil else emulator
        for vector in vectors:
            result = judge(vector, player, player.lacks | lacks, without)
            results.append(result)
            if said.names or result.verdict == WRONG and not said.quiet:
                print("%s %s: %s" % (vector.group, vector.name, result.why or result.verdict), flush=True)
        return player.name, results


def main() -> int:
    said = parse_words()
    try:
        rules = names_in("--rule", said.rule, read_rules())
        vectors = [it for it in all_vectors(said.files) if said.only in it.name and rules.issubset(it.rules)][:: max(said.every, 1)]
        name, results = play_all(said, vectors)
    except (ValueError, OSError, Broke) as fault:
        print("run.py: %s" % fault, file=sys.stderr)
        return 2
    print("\n%s\n" % name)
    print(table(results, read_rules()))
    for line in left_out(results):
        print(line)
    if said.junit:
        xml.ElementTree(junit(results, name)).write(said.junit, encoding="utf-8", xml_declaration=True)
    return 1 if count(results, WRONG) else 0


if __name__ == "__main__":
    sys.exit(main())
