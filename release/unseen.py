"""The committed list of the branches that the tests in C do not see, release/unseen_branches.txt.

A heading is a class and a reason; after it, indented, are lines of a kind, a function and places of its conditional jumps. The kinds are those
`never reached`, and those `unnoticed` when they are inverted. The classes: `a`, nothing can reach it; `b`, the result is the same either way; `c`, a case is
missing."""

import re
from collections import defaultdict
from itertools import groupby
from pathlib import Path

LIST = Path(__file__).resolve().parent / "unseen_branches.txt"
NO_REASON = "c No reason yet"
UNREACHED, UNNOTICED = "never reached", "unnoticed"
LINE = re.compile(r"  (never reached|unnoticed) (\S+) ([\d -]+)")
# A kind, and the name of a branch.
Unseen = tuple[str, str]


def read_list() -> dict[Unseen, str]:
    """The heading of each branch of the list."""
    found, heading = {}, ""
    for text in LIST.read_text(encoding="utf-8").splitlines() if LIST.exists() else []:
        line = LINE.fullmatch(text)
        if line:
            for first, _, last in (it.partition("-") for it in line[3].split()):
                found.update({(line[1], f"{line[2]} {place}"): heading for place in range(int(first), int(last or first) + 1)})
        elif text[:2] in ("a ", "b ", "c "):
            heading = text
    return found


def runs_of(places: list[int]) -> str:
    """Numbers, those that follow each other as `3-7`."""
    runs = []
    for _, group in groupby(enumerate(sorted(places)), lambda it: it[1] - it[0]):
        found = [it for _, it in group]
        runs.append(str(found[0]) if len(found) == 1 else f"{found[0]}-{found[-1]}")
    return " ".join(runs)


def write_list(unseen: dict[Unseen, str]) -> None:
    """Writes the list."""
    places: defaultdict[str, defaultdict[tuple[str, str], list[int]]] = defaultdict(lambda: defaultdict(list))
    for (kind, name), heading in unseen.items():
        function, place = name.rsplit(" ", 1)
        places[heading][kind, function].append(int(place))
    top = ["# What the tests in C do not see of the conditional jumps of libdasd for x86-64. `release/turn_branches.py --write` makes it again."]
    lines = [f"{heading}\n" + "\n".join(f"  {kind} {function} {runs_of(places[heading][kind, function])}" for kind, function in sorted(places[heading]))
             for heading in sorted(places)]  # fmt: skip
    LIST.write_text("\n\n".join([*top, *lines]) + "\n", encoding="utf-8")


def counts_of(unseen: dict[Unseen, str]) -> str:
    """How many there are of each kind and class."""
    kinds = sorted({(kind, heading[0]) for (kind, _), heading in unseen.items()})
    return ", ".join(f"{sum((kind, heading[0]) == it for (kind, _), heading in unseen.items())} {it[0]} ({it[1]})" for it in kinds)
