#!/usr/bin/env python3
"""Reports which conditional jumps of the compiled library the tests in C never reach, and which they only ever take one way.

    release/cover_branches.py LIBRARY.s

LIBRARY.s is the text for x86-64. After each of its conditional jumps, on either way, a byte is set; the programs of branches.py are run
over that text, and leave these bytes in a file. Each branch that was not taken both ways is printed with its name, its line, and the way
that was never gone; the last line counts them."""

import os
import sys
import tempfile
from collections import Counter
from pathlib import Path

from branches import JUMP, PROGRAMS, Branch, branches_of, build_objects, link, ran

# Adds the bytes to the file COVERED when a program ends.
KEEPER = """#include <stdio.h>
#include <stdlib.h>
extern unsigned char branch_bytes[], branch_end[];
__attribute__((destructor)) static void keep(void) {
    FILE *file = fopen(getenv("COVERED"), "ab");
    if (file) fwrite(branch_bytes, 1, (size_t)(branch_end - branch_bytes), file), fclose(file);
}
"""
WAYS = {(0, 0): "never reached", (0, 1): "always taken", (1, 0): "never taken"}


def marked(lines: list[str], branches: list[Branch]) -> str:
    """The text with a byte set after each branch: `mov` leaves the flags as they are."""
    numbers = {branch.line: number for number, branch in enumerate(branches)}
    made = []
    for at, line in enumerate(lines):
        if at not in numbers:
            made.append(line)
            continue
        number, jump = numbers[at], JUMP.match(line)
        assert jump is not None
        made += [
            f"\tj{jump[1]}\t.Ltaken_{number}",
            f"\tmovb\t$1, branch_bytes+{2 * number}(%rip)",
            f"\tjmp\t.Lpassed_{number}",
            f".Ltaken_{number}:",
            f"\tmovb\t$1, branch_bytes+{2 * number + 1}(%rip)",
            f"\tjmp\t{jump[2]}",
            f".Lpassed_{number}:",
        ]
    room = f"\t.bss\n\t.globl\tbranch_bytes, branch_end\nbranch_bytes:\n\t.zero\t{2 * len(branches)}\nbranch_end:\n\t.byte\t0\n"
    return "\n".join([*made, room])


def covered(text: str, count: int) -> dict[str, bytes]:
    """What each program leaves: two bytes for each branch. The text as it is has to pass."""
    found = {}
    with tempfile.TemporaryDirectory() as name:
        folder = Path(name)
        build_objects(folder)
        (folder / "keeper.c").write_text(KEEPER, encoding="utf-8")
        link(folder, text, "marked", ["keeper.c"])
        for it, program in PROGRAMS.items():
            for words in program.runs:
                how = os.environ | {"COVERED": str(folder / f"{it}.covered")}
                if ran(folder, f"marked {it}", words, env=how):
                    sys.exit(f"cover_branches.py: {it} does not pass")
            left = (folder / f"{it}.covered").read_bytes()
            assert left and len(left) % (2 * count) == 0
            found[it] = bytes(max(left[at :: 2 * count]) for at in range(2 * count))
    return found


def ways_of(lines: list[str], branches: list[Branch]) -> list[tuple[Branch, str, list[str]]]:
    """Each branch with the way that was never gone, or `both ways`; and the programs that reach it."""
    left = covered(marked(lines, branches), len(branches))
    found = []
    for number, branch in enumerate(branches):
        pairs = {it: (held[2 * number], held[2 * number + 1]) for it, held in left.items()}
        both = max(passed for passed, _ in pairs.values()), max(taken for _, taken in pairs.values())
        found.append((branch, WAYS.get(both, "both ways"), [it for it, pair in pairs.items() if any(pair)]))
    return found


def main() -> None:
    if len(sys.argv) != 2 or sys.argv[1].startswith("-"):
        sys.exit(__doc__)
    lines = Path(sys.argv[1]).read_text(encoding="utf-8").splitlines()
    ways: Counter[str] = Counter()
    for branch, way, _ in ways_of(lines, branches_of(lines)):
        ways[way] += 1
        if way != "both ways":
            print(f"{branch.name}: line {branch.line + 1}, j{branch.condition}: {way}")
    print(f"{ways.total()} branches: {', '.join(f'{count} {way}' for way, count in ways.most_common())}")


if __name__ == "__main__":
    main()
