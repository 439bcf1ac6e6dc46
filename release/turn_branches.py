#!/usr/bin/env python3
"""Inverts conditional jumps of the compiled library, one at a time, and reports which the tests in C notice.

    release/turn_branches.py LIBRARY.s [--count 200 | --all] [--in FUNCTION] [--quick] [--check | --write]

LIBRARY.s is the text for x86-64. Of its conditional jumps that any test reaches, as cover_branches.py finds them, COUNT are taken in a random order, always
the same. The programs of branches.py are linked once; a jump is inverted by one bit in the file of each program that reaches it, and these are run until
one ends otherwise. Each is printed with its name, its condition, and what notices it. --quick leaves out the runs of more than a second. --check compares
what is never reached or unnoticed with the list of unseen.py, and ends with status 1 where a branch is not in it. --write makes that list again: a branch
keeps its reason, and one that was not inverted stays. So it is seen how sharp the tests are, not whether the code is right. A branch takes about a second
of processor time, with --quick half of that."""

import argparse
import hashlib
import struct
import subprocess
import sys
import tempfile
from collections import Counter
from pathlib import Path

from branches import PROGRAMS, Branch, branches_of, build_objects, link, ran
from cover_branches import ways_of
from unseen import NO_REASON, UNNOTICED, UNREACHED, Unseen, counts_of, read_list, write_list

LONG = {"refused copies", "vectors moved"}
NOTHING = "nothing"
WAIT = 60  # seconds for a program that waits for ever


def labelled(lines: list[str], branches: list[Branch]) -> str:
    """The text with a symbol at each branch, which changes no code."""
    at = {it.line: number for number, it in enumerate(branches)}
    return "\n".join(f"branch_{at[number]}:\n{line}" if number in at else line for number, line in enumerate(lines)) + "\n"


def places_of(program: Path) -> dict[int, int]:
    """For each branch where its jump is in the file of a program."""
    held = program.read_bytes()
    (table,), (size, count) = struct.unpack_from("<Q", held, 32), struct.unpack_from("<HH", held, 54)
    loaded = [struct.unpack_from("<II6Q", held, table + number * size) for number in range(count)]
    found = {}
    for line in subprocess.run(["nm", str(program)], capture_output=True, text=True, check=True).stdout.splitlines():
        name = line.split()[-1]
        if name.startswith("branch_") and name[7:].isdigit():
            address = int(line.split()[0], 16)
            (offset,) = [it[2] + address - it[3] for it in loaded if it[0] == 1 and it[3] <= address < it[3] + it[5]]
            found[int(name[7:])] = offset + (held[offset] == 0x0F)
            assert held[found[int(name[7:])]] >> 4 == (8 if held[offset] == 0x0F else 7)
    return found


class Turned:
    """The programs, each with its file and the places of the branches in it."""

    def __init__(self, folder: Path, text: str, is_quick: bool) -> None:
        build_objects(folder)
        link(folder, text, "turned")
        self.folder, self.is_quick = folder, is_quick
        self.places = {it: places_of(folder / f"turned {it}") for it in PROGRAMS}

    def invert(self, program: str, number: int) -> None:
        """Changes a jump of a program to its opposite, or back."""
        with open(self.folder / f"turned {program}", "r+b") as file:
            file.seek(self.places[program][number])
            held = file.read(1)[0]
            file.seek(-1, 1)
            file.write(bytes([held ^ 1]))

    def ends(self, program: str, words: tuple[str, ...]) -> str:
        """How a run of a program ends: nothing where it passes."""
        try:
            status = ran(self.folder, f"turned {program}", words, stderr=subprocess.DEVNULL, timeout=WAIT)
        except subprocess.TimeoutExpired:
            return "time"
        return "" if not status else "wrong" if status > 0 else f"signal {-status}"

    def first_to_see(self, number: int, reaching: list[str]) -> str:
        """Which program ends otherwise with this branch inverted, and how."""
        for program in reaching:
            if self.is_quick and program in LONG:
                continue
            self.invert(program, number)
            try:
                for words in PROGRAMS[program].runs[: 1 if self.is_quick else None]:
                    how = self.ends(program, words)
                    if how:
                        return f"{program}: {how}"
            finally:
                self.invert(program, number)
        return NOTHING


def arguments() -> argparse.Namespace:
    """The words of the command line."""
    parser = argparse.ArgumentParser(description=__doc__, formatter_class=argparse.RawDescriptionHelpFormatter)
    parser.add_argument("text", type=Path, metavar="LIBRARY.s")
    many = parser.add_mutually_exclusive_group()
    many.add_argument("--count", type=int, default=200)
    many.add_argument("--all", action="store_const", const=None, dest="count")
    parser.add_argument("--in", dest="function", default="", help="only branches of functions whose name has this text in it")
    parser.add_argument("--quick", action="store_true")
    done = parser.add_mutually_exclusive_group()
    done.add_argument("--check", action="store_true")
    done.add_argument("--write", action="store_true")
    return parser.parse_args()


def invert_all(lines: list[str], branches: list[Branch], chosen: list[tuple[int, list[str]]], is_quick: bool) -> dict[str, str]:
    """What notices each of these branches: by the branch's name."""
    found = {}
    with tempfile.TemporaryDirectory() as name:
        turned = Turned(Path(name), labelled(lines, branches), is_quick)
        for number, reaching in chosen:
            branch = branches[number]
            found[branch.name] = what = turned.first_to_see(number, reaching)
            print(f"{branch.name}: line {branch.line + 1}, j{branch.condition}: {what}", flush=True)
    return found


def is_listed(unseen: set[Unseen], tried: set[str], reached: set[str], is_written: bool) -> bool:
    """Compares what is not seen with the list, or writes it."""
    listed = read_list()
    if is_written:
        kept = {it for it in listed if it[0] == UNNOTICED and it[1] in reached - tried}
        write_list({it: listed.get(it, NO_REASON) for it in unseen | kept})
    new = sorted(unseen - set(listed))
    for kind, name in new:
        print(f"not in the list: {kind}: {name}")
    print(f"{len(new)} are not in the list; it has {counts_of(read_list())}")
    return is_written or not new


def drawn(name: str) -> bytes:
    """What puts branches in a random order, in which each keeps its place whichever others there are."""
    return hashlib.sha256(name.encode()).digest()


def main() -> int:
    options = arguments()
    lines = options.text.read_text(encoding="utf-8").splitlines()
    branches = branches_of(lines)
    ways = ways_of(lines, branches)
    known = [(number, who) for number, (it, _, who) in enumerate(ways) if who and options.function in it.function]
    chosen = sorted(known, key=lambda it: drawn(branches[it[0]].name))[: options.count]
    what = invert_all(lines, branches, chosen, options.quick)
    for how, count in sorted(Counter(what.values()).items()):
        print(f"{count:>5} {how}")
    print(f"{len(branches)} branches, {sum(not who for _, _, who in ways)} never reached")
    print(f"{len(what)} of {len(known)} that are reached inverted, {sum(it != NOTHING for it in what.values())} noticed")
    if not (options.check or options.write):
        return 0
    unseen = {(UNREACHED, it.name) for it, _, who in ways if not who} | {(UNNOTICED, name) for name, it in what.items() if it == NOTHING}
    return 0 if is_listed(unseen, set(what), {it.name for it, _, who in ways if who}, options.write) else 1


if __name__ == "__main__":
    sys.exit(main())
