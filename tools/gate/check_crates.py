"""Checks the line around the machine in crates.txt.

- crates.txt has two parts, the machine and the program and its volumes, and in each part groups of crates.
- A crate uses only crates of the repository that are on the lines above it, so the machine uses nothing of the second part.

Prints what is wrong; the last line is 'N crates and what they use looked at, M wrong', and the status 1 where M is not 0.
"""

import sys
from collections.abc import Iterator
from dataclasses import dataclass

from tools import TOP
from tools.gate import told

PARTS = ["The machine", "The program and its volumes"]


@dataclass(frozen=True)
class Crate:
    """A crate: the part and the group that it is in, and all libraries that it uses."""

    name: str
    part: str
    group: str
    uses: tuple[str, ...]


def crates_of(text: str) -> Iterator[Crate]:
    """The crates of crates.txt, in order."""
    part = group = ""
    for line in text.splitlines():
        if line.startswith("## "):
            part = line.removeprefix("## ")
        elif line.startswith("# "):
            group = line.removeprefix("# ")
        elif line:
            name, _, uses = line.partition(":")
            yield Crate(name.split()[0], part, group, tuple(uses.split()))


def faults_of(crates: list[Crate]) -> Iterator[str]:
    """What is wrong."""
    names = [crate.name for crate in crates]
    for at, crate in enumerate(crates):
        if crate.part not in PARTS:
            yield f"crates.txt: {crate.name} is in no part"
        yield from (f"crates.txt: {crate.name} uses {used}, which is not above it" for used in crate.uses if used in names[at:])


def main() -> int:
    """Checks the file."""
    crates = list(crates_of((TOP / "crates.txt").read_text(encoding="utf-8")))
    return told(faults_of(crates), f"{len(crates)} crates and what they use looked at")


if __name__ == "__main__":
    sys.exit(main())
