#!/usr/bin/env python3
"""Plays the rows of the suites at a built stage, and says of each that comes out wrong what a person needs.

    rows/play.py [STAGE] [--dasd DASD [--dasd-alone]] [--only NAME] [--show] [SUITE ..]

STAGE is the program of crates/test_stage, and DASD the program `dasd`, for the suites that play it: without STAGE these alone are played. Without
SUITE all are played, several at a time. With --only those rows alone whose name has this text, and with --show each line and its answer too. The last
line is 'N rows played, M wrong', and the status 1 where M is not 0.
"""
from __future__ import annotations

import argparse
import os
import subprocess
import sys
import time
from concurrent.futures import ProcessPoolExecutor, as_completed
from contextlib import nullcontext
from dataclasses import dataclass
from pathlib import Path

sys.dont_write_bytecode = True
TOP = Path(__file__).resolve().parent.parent
sys.path.insert(0, str(TOP))
sys.path.insert(0, str(TOP / "rows"))

from player.preload import compiled  # noqa: E402
from player.stage import Broke, Stage  # noqa: E402
from player.suites import SUITES, Programs, cases_of  # noqa: E402
from player.text import Skipped, Wrong  # noqa: E402

# a suite is played in so many parts
PARTS = 8
# how long a stage may be silent, also that of a slow compiler on a machine that does much beside
SECONDS = 600


@dataclass(frozen=True)
class Part:
    """A part of a suite: each case whose number leaves this rest; and how it is played."""
    suite: str
    rest: int
    of: int
    programs: Programs
    only: str = ""
    shows: bool = False
    first: bool = False
    seconds: float = SECONDS


@dataclass
class Result:
    """What came of a part: how many cases were played, the texts of those that were wrong, and the seconds that it took."""
    suite: str
    played: int
    wrong: list[str]
    seconds: float


def play_part(part: Part) -> Result:
    """Plays a part of a suite at a stage of its own, which is started anew where it has ended."""
    began, played = time.monotonic(), 0
    wrong: list[str] = []
    stage = Stage([part.programs.stage], part.seconds, part.shows)
    for number, case in enumerate(cases_of(part.suite, part.programs)):
        if number % part.of != part.rest or part.only not in case.name:
            continue
        played += 1
        try:
            case.play(stage)
        except Wrong as why:
            wrong.append(told(part, case.name, "at:     %s\n    wanted: %s\n    got:    %s" % (why.line, why.wanted, why.came)))
        except Skipped as why:
            print("%s: skipped: %s" % (case.name, why))
        except (Broke, AssertionError, ValueError, LookupError, OSError, subprocess.TimeoutExpired) as why:
            wrong.append(told(part, case.name, "%s: %s" % (type(why).__name__, why)))
        if wrong and part.first:
            break
    stage.stop()
    return Result(part.suite, played, wrong, time.monotonic() - began)


def play_all(parts: list[Part], processes: int, first: bool) -> list[Result]:
    """Plays parts, several at a time; with `first` no further one is begun once a row has come out wrong."""
    results = []
    with ProcessPoolExecutor(processes) as pool:
        for played in as_completed([pool.submit(play_part, it) for it in parts]):
            results.append(played.result())
            if first and results[-1].wrong:
                pool.shutdown(wait=False, cancel_futures=True)
                break
    return results


def told(part: Part, name: str, text: str) -> str:
    """What is printed of a row that came out wrong."""
    dasd = " --dasd %s" % part.programs.dasd if part.programs.dasd else ""
    quoted = "'%s'" % name.replace("'", "'\\''")
    command = "rows/play.py %s%s --show --only %s %s" % (part.programs.stage, dasd, quoted, part.suite)
    return "%s: %s\n    %s\n    alone:  %s" % (part.suite, name, text, command)


def parse_words() -> argparse.Namespace:
    """The words of the command."""
    words = argparse.ArgumentParser(description=__doc__, formatter_class=argparse.RawDescriptionHelpFormatter)
    words.add_argument("stage", metavar="STAGE", nargs="?", default="")
    words.add_argument("suites", nargs="*", metavar="SUITE", help=", ".join(SUITES))
    words.add_argument("--dasd", metavar="DASD", default="", help="the program dasd")
    words.add_argument("--dasd-alone", action="store_true", help="of the suites those that play that program")
    words.add_argument("--only", default="", metavar="NAME", help="rows whose name has this text")
    words.add_argument("--show", action="store_true", help="prints each line and its answer")
    words.add_argument("--first", action="store_true", help="stops at the first row that comes out wrong")
    words.add_argument("--seconds", type=float, default=SECONDS, help="how long the stage may be silent")
    words.add_argument("--processes", type=int, default=os.cpu_count() or 1)
    said = words.parse_intermixed_args()
    if said.stage in SUITES:
        said.stage, said.suites = "", [said.stage, *said.suites]
    if not said.stage and not said.dasd:
        words.error("it wants a stage, or --dasd")
    return said


def played_by(programs: Programs, dasd_alone: bool) -> list[str]:
    """The suites that these programs can play, or of them those of `dasd`."""
    return [name for name, it in SUITES.items() if not it.is_asked_for and (programs.dasd if it.wants_dasd else not dasd_alone)]


def main() -> int:
    said = parse_words()
    programs = Programs(str(Path(said.stage).resolve()) if said.stage else "", str(Path(said.dasd).resolve()) if said.dasd else "")
    unknown = [it for it in said.suites if it not in SUITES]
    if unknown:
        sys.exit("play.py: no such suite: %s" % ", ".join(unknown))
    suites = said.suites or played_by(programs, said.dasd_alone or not said.stage)
    alone = bool(said.only) or said.show
    parts = [Part(suite, rest, 1 if alone else PARTS, programs, said.only, said.show, said.first, said.seconds)
             for rest in range(1 if alone else PARTS) for suite in suites]
    with compiled() if any(SUITES[it].wants_libraries for it in suites) else nullcontext():
        results = play_all(parts, 1 if alone else said.processes, said.first)
    for suite in suites:
        own = [it for it in results if it.suite == suite]
        for text in (text for it in own for text in it.wrong):
            print(text)
        seconds = sum(it.seconds for it in own)
        print("%s: %d rows played, %d wrong, %.1f s" % (suite, sum(it.played for it in own), sum(len(it.wrong) for it in own), seconds))
    played, wrong = sum(it.played for it in results), sum(len(it.wrong) for it in results)
    print("%d rows played, %d wrong" % (played, wrong))
    return 1 if wrong or not played else 0


if __name__ == "__main__":
    sys.exit(main())
