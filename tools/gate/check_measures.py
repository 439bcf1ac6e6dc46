"""Counts what this repository keeps small, and names the worst place of each.

    tools/run gate/check_measures

Of Rattle's code: parameters of a function, `self` too; its lines; lines of a file; functions of a crate. Of clauses: columns. Of proofs:
columns, and binders of a lemma, its premises counted. Of the definitions of the machine (`s360_*`, `ckd_*`): those without a sentence. Of
the product: functions without a clause about their result (docs/ASSUMPTIONS.md).

Each measure has a limit, and how many places may be over it, which are those that stand today: the number may fall, and is then written
down here. The status is 1 where it has risen, or fell and stands here as it was."""

import re
import sys
from collections import Counter
from collections.abc import Callable, Iterable, Iterator
from dataclasses import dataclass
from pathlib import Path

from tools import TOP
from tools.make import assumptions

OPENS, CLOSES = "([{<", ")]}>"


@dataclass(frozen=True)
class Found:
    """How much there is of something, and where."""

    amount: int
    where: str


@dataclass(frozen=True)
class Measure:
    """What is counted, up to what it is well, and how many places are over that."""

    name: str
    limit: int
    over: int


def files(pattern: str) -> Iterator[tuple[str, str]]:
    """The files of the crates with such a path, and their texts."""
    for path in sorted((TOP / "crates").glob(pattern)):
        yield str(path.relative_to(TOP)), path.read_text(encoding="utf-8")


def line_of(text: str, at: int) -> int:
    """The number of the line of a place in a text."""
    return text.count("\n", 0, at) + 1


def closing(text: str, at: int) -> int:
    """Behind the bracket that closes the one at this place. An arrow closes nothing."""
    depth = 0
    for i in range(at, len(text)):
        if text[i] in OPENS:
            depth += 1
        elif text[i] in CLOSES and text[i - 1] not in "-=":
            depth -= 1
            if not depth:
                return i + 1
    return len(text)


def parts(text: str, mark: str) -> list[str]:
    """A text, taken apart at each mark that stands in no bracket."""
    found, depth, begun = [], 0, 0
    for i, it in enumerate(text):
        if it in OPENS:
            depth += 1
        elif it in CLOSES and text[i - 1] not in "-=":
            depth -= 1
        elif it == mark and not depth:
            found.append(text[begun:i])
            begun = i + 1
    return [it.strip() for it in [*found, text[begun:]] if it.strip()]


def without_comments(text: str) -> str:
    """Rattle's code with blanks for its comments."""
    return re.sub(r"//[^\n]*", lambda it: " " * len(it[0]), text)


@dataclass(frozen=True)
class Function:
    """A function: how many parameters and lines it has, and where it stands."""

    parameters: int
    lines: int
    where: str


def functions(path: str, text: str) -> Iterator[Function]:
    """The functions of a file of code."""
    code = without_comments(text)
    for it in re.finditer(r"(?m)^ *(?:pub(?:\([a-z]+\))? |unsafe |const |extern \"C\" )*fn (\w+)", code):
        opens = closing(code, it.end()) if code[it.end()] == "<" else it.end()
        ends = closing(code, opens)
        body = re.compile(r"(?m)^( *)\{$|;$").search(code, ends)
        last = code.find(f"\n{body[1]}}}", body.end()) if body and body[1] is not None else ends
        yield Function(len(parts(code[opens + 1 : ends - 1], ",")), code.count("\n", it.start(), last) + 1, f"{path}:{line_of(code, it.start())} {it[1]}")


def body_lines(path: str, text: str) -> Iterator[Found]:
    """How many lines stand between the braces of each function of a file."""
    lines = text.split("\n")
    for i, line in enumerate(lines):
        if re.fullmatch(r" *\{", line):
            indent = line[:-1]
            ends = next((n for n in range(i + 1, len(lines)) if lines[n] == f"{indent}}}"), i)
            yield Found(ends - i - 1, f"{path}:{i + 1}")


def proof_lines(path: str, text: str, begins: str = "") -> Iterator[Found]:
    """The columns of each line of a proof, or of those lines that begin so."""
    return (Found(len(line), f"{path}:{number}") for number, line in enumerate(text.split("\n"), 1) if re.match(begins, line))


def clauses(path: str, text: str) -> Iterator[Found]:
    """The columns of each line of a clause."""
    return proof_lines(path, text, r" *(ensures|requires|ghost (?!use))")


# What is declared at the left edge, with its type, which goes on in lines that are indented.
DECLARED = re.compile(r"(?m)^((?:abbrev |pub )*)([^\s:=]+) : ((?:.*)(?:\n[ \t]+.*)*)")


def binders(kind: str) -> int:
    """How many binders a type has, its premises counted; that a number is less than another opens no bracket."""
    count = 0
    for it in parts(kind.replace("→", "\0").replace("<", " "), "\0")[:-1]:
        names = re.findall(r"[({]([^():{}]+) : ", it) if it[0] in "({" else []
        count += sum(len(of.split()) for of in names) or 1
    return count


def lemmas(path: str, text: str) -> Iterator[Found]:
    """The binders of each lemma of a file."""
    for it in DECLARED.finditer(text):
        yield Found(binders(it[3].split("\n" + it[2] + " ")[0]), f"{path}:{line_of(text, it.start())} {it[2]}")


def unsaid(path: str, text: str) -> Iterator[Found]:
    """The definitions and records that others see and over which no sentence stands."""
    lines = text.split("\n")
    for i, line in enumerate(lines):
        it = re.match(r"(?:abbrev |record |data )*pub (?:record |data |abbrev )*([^\s:=]+) .*:", line)
        it = it or re.match(r"pub record (\S+)", line)
        if it and not line.startswith("pub mod"):
            yield Found(0 if i and lines[i - 1].startswith("--") else 1, f"{path}:{i + 1} {it[1]}")


def all_of(pattern: str, count: Callable[[str, str], Iterator[Found]]) -> list[Found]:
    """What a count finds in all files of such paths."""
    return [it for path, text in files(pattern) for it in count(path, text)]


def of_functions() -> dict[str, list[Found]]:
    """The measures of functions, of files and of crates."""
    known = [it for path, text in files("*/src/**/*.rt") for it in functions(path, text)]
    crates = Counter(it.where.split("/")[1] for it in known)
    return {
        "parameters of a function": [Found(it.parameters, it.where) for it in known],
        "lines of a function's body": all_of("*/src/**/*.rt", body_lines),
        "lines of a file": [Found(text.count("\n"), path) for path, text in files("*/src/**/*.rt")],
        "functions of a crate": [Found(count, f"crates/{name}") for name, count in crates.items()],
    }


def places() -> dict[str, list[Found]]:
    """All places, by their measure."""
    machine = [it for pattern in ("s360_*", "ckd_*") for it in all_of(f"{pattern}/specs/**/*.antt", unsaid)]
    return of_functions() | {
        "columns of a clause": all_of("*/src/**/*.rt", clauses),
        "columns of a line of a proof": all_of("*/proofs/**/*.antt", proof_lines),
        "binders of a lemma": all_of("*/proofs/**/*.antt", lemmas),
        "definitions of the machine without a sentence": machine,
        "functions without a clause": [Found(1, it.where) for known in assumptions.functions_of_crates().values() for it in assumptions.bare(known)],
    }


MEASURES = (
    Measure("parameters of a function", 5, 1),
    Measure("lines of a function's body", 40, 0),
    Measure("lines of a file", 500, 0),
    Measure("functions of a crate", 100, 0),
    Measure("columns of a clause", 160, 0),
    Measure("columns of a line of a proof", 140, 0),
    Measure("binders of a lemma", 12, 0),
    Measure("definitions of the machine without a sentence", 0, 0),
    Measure("functions without a clause", 0, 473),
)


def told(measure: Measure, known: Iterable[Found]) -> bool:
    """Prints the row of a measure, and answers whether its number is the one that stands here."""
    over = [it for it in known if it.amount > measure.limit]
    worst = max(over, key=lambda it: it.amount, default=None)
    at = f"{worst.amount}: {worst.where}" if worst else "-"
    print(f"| {measure.name} | {measure.limit} | {len(over)} | {at} |")
    if len(over) != measure.over:
        print(f"check_measures: {measure.name}: {len(over)} over the limit, and {measure.over} stand in {Path(__file__).name}")
    return len(over) == measure.over


def main() -> int:
    print("| Measure | Limit | Over it | The worst |", "|---|---|---|---|", sep="\n")
    known = places()
    wrong = [it for it in MEASURES if not told(it, known[it.name])]
    print(f"check_measures: {len(MEASURES)} measures, {len(wrong)} wrong")
    return 1 if wrong else 0


if __name__ == "__main__":
    sys.exit(main())
