#!/usr/bin/env python3
"""Writes docs/HERCULES.md: each deck of hercules/ is played, with Hercules' own drives and with each module of adapters/hercules, and what
Hercules answers stands beside what it must. The counts of whole runs are taken from results/.

  hercules_page.py MODULES > ../docs/HERCULES.md

MODULES is the folder with hdtdasd.so and hdtchan.so."""
from __future__ import annotations

import os
import sys
from typing import List, Optional, Sequence
from urllib.parse import quote

from ask import compared, read_deck
from suite.adapters import Emulator
from suite.adapters.hercules import HerculesEmulator
from suite.vectors import HERE

RESULTS = os.path.join(HERE, "results")
WITH_MODULE = os.path.join(os.path.dirname(HERE), "adapters", "hercules", "tests", "with_module")
MODULES = ("hdtdasd", "hdtchan")
# What run.py printed of whole runs.
RUNS = {
    "as they are": "hercules-3.13.txt",
    "with a Seek before each program": "hercules-3.13-seek-first.txt",
    "as they are, with the drives of `hdtdasd`": "hercules-3.13-hdtdasd.txt",
    "as they are, with the channels of `hdtchan`": "hercules-3.13-hdtchan.txt",
}
SUMS = ("on manuals alone", "on the profile too", "all")

HEAD = """# What Hercules 3.13 does differently

Hercules 3.13 (Debian's package `hercules`, 3.13-7) beside this suite's vectors. Each difference comes from a run:
`conformance/ask.py hercules DECK` shows it again, and the page in the browser has both answers. `conformance/hercules_page.py` writes this page.

A small supervisor in System/370 mode issues the instructions of a deck and keeps each result. Storage and images are compared afterwards
(`conformance/suite/adapters/hercules.py`). A step waits until the program's interruption pends. Left out are units, arrivals, a reset in the
middle, storage of another size, and images in several files.

The volume is the suite's `x.img` at 190 unless another is named. Only an event with different results has two answers. `must` is what this
suite's vectors say, and a choice of the suite is named as one. `Guests` says what an operating system notices. Sense bytes 2 to 5 are not
compared.
"""

ALIKE = """
## What is alike

With a Seek before each program these come out right: data chaining of reads and updates, skipping, transfers, searches, reads of every kind and
where they leave the track, unit exception, updates, formatting writes that fit, seeks (except for sense bytes), Read IPL, and images with other
track sizes. Images that Hercules wrote are the same track by track. It keeps the bytes after a track's end mark.

## Lists by chance

`conformance/differ.py model hercules --plain --seek-first --readable --without-profile --lists 700` plays lists by chance whose programs each
begin with a Seek, and which rest on no choice of this suite. Of 700 seeds 81 made such a list, and 44 came out differently, each by one of the
facts 8, 11, 12, 16, 17, 25, 28, 32, 33 and 34.

## With the modules of this repository

| | Hercules alone | With `hdtdasd` | With `hdtchan` |
|---|---|---|---|
| Vectors right, of those that can be asked | 67 of 330 | 254 of 330 | 330 of 330 |
| Random lists that differ | 44 of 81 | not counted | 0 of 35 |
| The worked utility by IPL | waits for ever, since no device end comes after a seek | `DONE` | `DONE` |
| The copier of two channels | not run | not run | `DONE` in 100 of 100 runs, with `arms` |

What `hdtdasd` does not change is Hercules' channel. Fact 7 asks for an arm that takes time, and `hdtchan` was asked without the option `arms`.

No vector asks the following, and it is no part of this project's rules. `adapters/hercules/tests/supervisor.py` tests it with `hdtchan`:

- SIOF is executed as SIO and CLRIO as TIO, as by a channel without these functions. HDV leaves the program of another drive alone, with condition
  code 2. CLRCH resets the channel and its drives. STIDC stores zeros, a selector channel of no model. HDV, CLRCH and STIDC are from memory of the
  System/370 manual.
- The channel address word and the channel status word are in the processor's prefixed page. In EC mode an interruption waits for the channel's bit in
  control register 2.
- Reference bits are set for the words of a program and the areas that they name, and change bits for the areas into which a command reads and may
  store by the key. They are set when the program starts, and again when its words may have changed.

Instructions within Start I/O and the device's thread for a channel program, by callgrind (`adapters/hercules/tests/measure.py`). A guest starts each
program by SIO and asks by TIO. Between brackets is the ratio to Hercules alone:

<!-- adapters/hercules/tests/measure: begin -->

| Program | Hercules alone | With `hdtdasd` | With `hdtchan` |
|---|---|---|---|
| Search ID for the last of 20 records, read it | 19,844 | 19,381 (0.98) | 5,918 (0.30) |
| Search Key over the 400 of a cylinder, read the last | 383,217 | 426,258 (1.11) | 78,819 (0.21) |
| the first record, read | 4,892 | 4,447 (0.91) | 5,027 (1.03) |
| a record of each of two cylinders | 8,508 | 9,894 (1.16) | 9,463 (1.11) |
| 20 times Read Count, Key and Data | 21,432 | 16,235 (0.76) | 11,685 (0.55) |
| the first record, updated | 5,067 | 5,771 (1.14) | 6,506 (1.28) |
| 20 records formatted | 20,287 | 23,238 (1.15) | 22,049 (1.09) |

<!-- adapters/hercules/tests/measure: end -->
"""


def section(number: int, path: str, emulator: Emulator) -> str:
    """A fact: its deck, and both answers."""
    vector, must, said = read_deck(path)
    outcome = emulator.play(vector)
    name = os.path.basename(path)
    volume = vector.volumes[0][1]
    lines = ["## %d. %s" % (number, said["title"]), ""]
    if volume != "x.img":
        lines += ["Volume: `%s`." % volume, ""]
    lines.append("```")
    for line, answer, wanted in compared(vector, must, outcome, emulator.lacks):
        lines.append(("%-26s %s" % (line, note(line, answer, wanted, outcome.broke))).rstrip())
    lines += ["```", ""]
    if outcome.broke:
        lines += ["%s." % outcome.broke, ""]
    shown = "- `conformance/hercules/%s`%s." % (name, by_vectors(said["vectors"].split()))
    run = "[Run it](../try/#deck=%s)." % quote(said["title"], safe="")
    lines += ["- Manuals: %s." % said["manual"], "- Guests: %s." % said["matters"], shown + " " + run, ""]
    return "\n".join(lines)


def remains(path: str, emulator: Emulator) -> bool:
    """Whether an emulator answers a deck otherwise than it must."""
    vector, must, _ = read_deck(path)
    outcome = emulator.play(vector)
    return bool(outcome.broke) or any(wanted for _, _, wanted in compared(vector, must, outcome, emulator.lacks))


def doors(paths: Sequence[str], modules: str) -> str:
    """A table of the facts: where each remains."""
    with HerculesEmulator() as emulator:
        remain = {"Hercules alone": [remains(it, emulator) for it in paths]}
    for name in MODULES:
        os.environ["MODULE"] = os.path.abspath(os.path.join(modules, name + ".so"))
        with HerculesEmulator(WITH_MODULE) as emulator:
            remain["With `%s`" % name] = [remains(it, emulator) for it in paths]
    out = ["", "## Facts by door", "", "[adapters/hercules](../adapters/hercules/README.md) has two modules for the same, unmodified Hercules: "
           "`hdtdasd` has drives, under Hercules'", "channel, and `hdtchan` whole channels.", "", "<!-- conformance/doors: begin -->", "",
           "| Fact | %s |" % " | ".join(remain), "|---" * (len(remain) + 1) + "|"]
    for at, path in enumerate(paths):
        out.append("| %d. %s | %s |" % (at + 1, read_deck(path)[2]["title"], " | ".join("differs" if it[at] else "as it must" for it in remain.values())))
    return "\n".join([*out, "", "<!-- conformance/doors: end -->", "", ""])


def note(line: str, answer: str, wanted: Optional[str], broke: Optional[str]) -> str:
    """What stands behind an event: its answer, or both where they differ."""
    if wanted:
        return "must be %s" % wanted if broke else "Hercules %s   must be %s" % (answer, wanted)
    return "" if broke or line.startswith(("STORE", "KEY", "STEP")) else answer


def by_vectors(names: Sequence[str]) -> str:
    """The vectors that show a fact too; '-' where none does."""
    return "" if names == ["-"] else ", vector%s %s" % ("s" if len(names) > 1 else "", ", ".join("`%s`" % it for it in names))


def sums(path: str) -> List[List[str]]:
    """The last rows of what run.py printed: their names and their numbers."""
    with open(path, encoding="utf-8") as text:
        lines = [line for line in text if line.startswith(SUMS)]
    return [[name, *line[len(name):].split()] for name, line in zip(SUMS, lines)]


def results() -> str:
    """The counts of whole runs, and where they stand rule by rule."""
    out = ["", "## Results of the whole suite", "",
           "Left out are vectors that can't be asked in this way. Declined are those that name the supervisor's storage. A vector",
           "is wrong with its first difference, and many vectors show the same fact again.", "",
           "<!-- conformance/results: begin -->", "",
           "| Programs | Vectors | In all | Right | Wrong | Left out | Declined |", "|---|---|---|---|---|---|---|"]
    for title, name in RUNS.items():
        out += ["| %s | %s |" % (title, " | ".join(row)) for row in sums(os.path.join(RESULTS, name))]
    links = ", ".join("[%s](../conformance/results/%s)" % (it, it) for it in RUNS.values())
    return "\n".join([*out, "", "<!-- conformance/results: end -->", "", "Rule by rule: %s." % links])


def main() -> int:
    if len(sys.argv) != 2:
        print(__doc__, file=sys.stderr)
        return 2
    folder = os.path.join(HERE, "hercules")
    paths = [os.path.join(folder, it) for it in sorted(os.listdir(folder))]
    with HerculesEmulator() as emulator:
        facts = [section(number, it, emulator) for number, it in enumerate(paths, 1)]
    print(HEAD + doors(paths, sys.argv[1]))
    print("\n".join(facts), end="")
    print(ALIKE, end="")
    print(results())
    return 0


if __name__ == "__main__":
    sys.exit(main())
