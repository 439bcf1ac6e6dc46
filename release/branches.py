"""The conditional jumps of the compiled library, and the tests in C that run over it: what turn_branches.py and cover_branches.py have in common.

A branch is named by its function and its place among the conditional jumps of that function, so that the name holds until the code there changes.
Functions of one name, for several types, are numbered."""

import re
import resource
import subprocess
from collections import defaultdict
from collections.abc import Sequence
from dataclasses import dataclass
from functools import partial
from pathlib import Path
from typing import Any

HERE = Path(__file__).resolve().parent
TOP = HERE.parent
TESTS = TOP / "c" / "tests"
VECTORS = str(TOP / "conformance" / "vectors")
PAIRS = ("o no", "b ae", "e ne", "be a", "s ns", "p np", "l ge", "le g")
OPPOSITE = {one: other for pair in PAIRS for one, other in (pair.split(), reversed(pair.split()))}
JUMP = re.compile(r"\tj(\w+)\t(\S+)")
NAMED = re.compile(r'"?([^\s".][^"]*)"?:(?:\s.*)?')
MOVED = ["-D_POSIX_C_SOURCE=200809L", "-include", str(TESTS / "moved.h")]
HASHES = re.compile(r"(_[0-9a-f]{16}_)?\.[0-9a-f]{7}$")


@dataclass(frozen=True)
class Program:
    """A program over the library: its sources in c/tests, the words of each run, its seconds of processor time, whether memory is refused to it, and
    whether its main storage is lent, at another place in each call."""

    sources: tuple[str, ...]
    runs: tuple[tuple[str, ...], ...] = ((),)
    seconds: int = 1
    is_refused: bool = False
    is_moved: bool = False

    def parts(self) -> dict[Path, list[str]]:
        """Its sources with those of memory, each with its words for the compiler."""
        words = ["-DHEAP"] if self.is_refused else MOVED if self.is_moved else []
        parts = {TESTS / f"{it}.c": words for it in self.sources}
        return parts | {TESTS / "heap.c" if self.is_refused else TOP / "c" / "heap.c": words} | ({TESTS / "moved.c": []} if self.is_moved else {})


OF_VECTORS = (VECTORS,), (VECTORS, "copies"), (VECTORS, "restores")
ROWS = TOP / "rows" / "data"
OF_TRACES = ((str(ROWS / "traces.rows"),),)
OF_ROWS = ((str(ROWS / "programs.rows"), str(ROWS / "channel.rows")),)
# In the order in which they are run: those first that end first.
PROGRAMS: dict[str, Program] = {
    "calls": Program(("test",)),
    "volumes": Program(("volumes",), is_refused=True),
    **{it: Program((it,)) for it in ("several", "lent", "watched", "sized", "asked", "searches", "until", "changed")},
    "several moved": Program(("several",), is_moved=True),
    "copies": Program(("copies",), seconds=3),
    "rows": Program(("rows", "deck"), OF_ROWS, seconds=3),
    "rows moved": Program(("rows", "deck"), OF_ROWS, seconds=3, is_moved=True),
    "traces": Program(("traces", "deck"), OF_TRACES),
    "traces moved": Program(("traces", "deck"), OF_TRACES, is_moved=True),
    "refusals": Program(("test",), is_refused=True),
    "vectors": Program(("vectors", "deck", "sha256"), OF_VECTORS, 5),
    "vectors moved": Program(("vectors", "deck", "sha256"), OF_VECTORS, 5, is_moved=True),
    "refused copies": Program(("copies",), seconds=3, is_refused=True),
    "states": Program(("states",), seconds=10),
}


@dataclass(frozen=True)
class Branch:
    """A conditional jump: its line in the text, from 0, its function, its place there, from 1, and its condition."""

    line: int
    function: str
    place: int
    condition: str

    @property
    def name(self) -> str:
        """What it is called in a list."""
        return f"{self.function} {self.place}"


def branches_of(lines: list[str]) -> list[Branch]:
    """All conditional jumps of a text."""
    jumps: defaultdict[str, list[tuple[int, str]]] = defaultdict(list)
    function = ""
    for number, line in enumerate(lines):
        named, jump = NAMED.fullmatch(line), JUMP.match(line)
        if named:
            function = named[1]
        elif jump and jump[1] in OPPOSITE:
            jumps[function].append((number, jump[1]))
    alike: defaultdict[str, list[str]] = defaultdict(list)
    for it in jumps:
        alike[HASHES.sub("", it)].append(it)
    found = []
    for name, functions in alike.items():
        # no order of the text and no hash, which a change elsewhere moves
        functions.sort(key=lambda it: [condition for _, condition in jumps[it]])
        for which, it in enumerate(functions, 1):
            called = name if len(functions) == 1 else f"{name}#{which}"
            found += [Branch(line, called, place, condition) for place, (line, condition) in enumerate(jumps[it], 1)]
    return sorted(found, key=lambda it: it.line)


def build_objects(folder: Path) -> None:
    """Compiles what is the same for all: the objects of each program, in a folder of its name."""
    for name, program in PROGRAMS.items():
        (folder / name).mkdir()
        for source, words in program.parts().items():
            subprocess.run(["cc", "-O1", *words, "-c", "-o", str(folder / name / f"{source.stem}.o"), str(source)], check=True)


def link(folder: Path, text: str, name: str, more: Sequence[str] = ()) -> None:
    """Assembles a text of the library, and links each program with it: NAME and its name."""
    (folder / f"{name}.s").write_text(text, encoding="utf-8")
    subprocess.run(["as", "-o", f"{name}.o", f"{name}.s"], cwd=folder, check=True)
    for program in PROGRAMS:
        parts = sorted(str(it) for it in (folder / program).glob("*.o"))
        subprocess.run(["cc", "-o", f"{name} {program}", *parts, f"{name}.o", *more], cwd=folder, check=True)


def ran(folder: Path, name: str, words: Sequence[str], **more: Any) -> int:
    """Runs a program that `link` made; its status."""
    limits = partial(limit, PROGRAMS[name.split(" ", 1)[1]].seconds)
    return subprocess.run([f"./{name}", *words], cwd=folder, stdout=subprocess.DEVNULL, check=False, preexec_fn=limits, **more).returncode


def limit(seconds: int) -> None:
    """Of a program that is run: so much processor time and memory, and no core file."""
    resource.setrlimit(resource.RLIMIT_CPU, (seconds, seconds))
    resource.setrlimit(resource.RLIMIT_AS, (4 << 30, 4 << 30))
    resource.setrlimit(resource.RLIMIT_CORE, (0, 0))
