"""Traces which bytes of lent main storage the compiled library loads and stores, and shows that it does so once.

    tools/run measure/lent_loads [--every N]

The suite's vectors are played over lent storage by lent_loads.c, linked with libdasd.a, which `make` builds of the text in compiled/, under
valgrind's lackey, which names each load and each store that is executed. Each run of units is done twice: by units, each in a call of its own,
and in one call. Looked at is:

    - in a call for one unit, and in an instruction's, no byte of storage is loaded twice, and none is stored twice;
    - in one call for a whole run no byte is loaded or stored more often than in the same units one by one.

So a byte that another thread changes meanwhile is found old or new, and not both. Counted apart are the words of a search and of the transfer
that leads back to it, and the search's argument: the library looks at them ahead, whether several rounds can pass at once, and fetches them
then as ever. It is a trace of what the vectors execute, and no proof. Copies are made here byte by byte: memcpy of a C library may move some
bytes twice, and what it leaves of each is one of its values.
The last line is 'N vectors, U units, M bytes loaded, K stored, A looked at ahead, F findings'. The status is 1 where F is not 0."""

import argparse
import re
import subprocess
import sys
import tempfile
from collections import Counter
from collections.abc import Iterator
from dataclasses import dataclass, field
from pathlib import Path

from conformance.suite.decks import DeckFault, Event, parse
from conformance.suite.vectors import Vector, all_vectors
from tools import TOP

LETTERS = {"SIO": "I", "TIO": "T", "HIO": "H", "ARRIVE": "R", "INT": "W", "RESET": "Z"}
WORD, TRANSFER = 8, 8
STORAGE, END_OF_STORAGE, MARKS = 0x20000000000, 0x20001000000, 0x20003000000
CALL, UNIT, RUN, END, VECTOR = range(5)
TRACED = r"^ [LSM] 2000[0-3]"


@dataclass
class Segment:
    """What is loaded and stored in a call, or in the calls of a run, by byte."""

    kind: int
    loads: Counter[int] = field(default_factory=Counter)
    stores: Counter[int] = field(default_factory=Counter)


def line_of(event: Event) -> str | None:
    """An event for lent_loads.c; None where it needs no storage."""
    if event.name in ("STEP", "RUN"):
        return f"P{min(event.number, 65535)}"
    if event.name == "STORE":
        return f"S{event.address:X} {event.data.hex()}"
    if event.name == "KEY":
        return f"K{event.address:X} {event.number:X}"
    letter = LETTERS.get(event.name)
    return None if letter is None else f"{letter}{event.unit:X}"


def lines_of(vector: Vector, folder: Path) -> list[str]:
    """The lines of a vector; none, where it has no deck, or a volume of several files."""
    try:
        events = parse(vector.deck)
    except DeckFault:
        return []
    lines = [f"N{vector.storage} {vector.channel}"]
    for unit, volume in vector.before().items():
        files = volume.files()
        if len(files) > 1:
            return []
        path = folder / f"{vector.name}.{unit:02X}"
        path.write_bytes(files[0])
        lines.append(f"A{unit:X} {path}")
    return lines + [it for it in map(line_of, events) if it]


def ahead_of(vector: Vector) -> set[int]:
    """The bytes of each search that a transfer behind it leads back to, of that transfer, and of the search's argument."""
    memory, found = bytearray(vector.storage + 2 * WORD), set[int]()
    for event in parse(vector.deck):
        end = event.address + len(event.data)
        if event.name != "STORE" or end > vector.storage:
            continue
        memory[event.address : end] = event.data
        for at in range(max(0, event.address // WORD - 2) * WORD, end, WORD):
            search, transfer = memory[at : at + WORD], memory[at + WORD : at + 2 * WORD]
            if transfer[0] & 15 == TRANSFER and int.from_bytes(transfer[1:4], "big") == at and search[0] & 3 == 1:
                argument = int.from_bytes(search[1:4], "big")
                found.update(range(at, at + 2 * WORD), range(argument, argument + int.from_bytes(search[6:8], "big")))
    return found


def trace(program: Path, way: str, lines: list[str]) -> Iterator[Segment]:
    """The calls in their order, after a segment for each vector; each run of units is a segment of its own before those of its units."""
    words = f"valgrind --tool=lackey --trace-mem=yes --log-fd=1 {program} {way} 2> /dev/null | LC_ALL=C grep -E '{TRACED}'"
    with subprocess.Popen(["sh", "-c", words], stdin=subprocess.PIPE, stdout=subprocess.PIPE, text=True) as ran:
        assert ran.stdin and ran.stdout
        ran.stdin.write("".join(it + "\n" for it in lines))
        ran.stdin.close()
        now: Segment | None = None
        for text in ran.stdout:
            kind, number, length = re.split("[ ,]", text.strip())
            at = int(number, 16)
            if at >= MARKS:
                if now:
                    yield now
                now = None if at == MARKS + 16 * END else Segment((at - MARKS) // 16)
            elif now and at < END_OF_STORAGE:
                for byte in range(at - STORAGE, at - STORAGE + int(length)):
                    now.loads[byte] += kind in "LM"
                    now.stores[byte] += kind in "SM"


def runs_of(segments: list[Segment]) -> list[Segment]:
    """Each run, as the sum of its calls, and each instruction."""
    runs: list[Segment] = []
    for it in segments:
        if it.kind == UNIT:
            runs[-1].loads += it.loads
            runs[-1].stores += it.stores
        else:
            runs.append(Segment(it.kind, Counter(it.loads), Counter(it.stores)))
    return runs


def findings(units: list[Segment], whole: list[Segment]) -> Iterator[tuple[int, str]]:
    """What is not as it is to be: of which byte, and what."""
    for segment in units:
        for what, counted in (("loaded", segment.loads), ("stored", segment.stores)):
            for at, times in counted.items():
                if times > 1:
                    yield at, f"{what} {times} times in a {'unit' if segment.kind == UNIT else 'call'}"
    for one, other in zip(runs_of(units), runs_of(whole), strict=True):
        for what, few, many in (("loaded", one.loads, other.loads), ("stored", one.stores, other.stores)):
            for at in many - few:
                yield at, f"{what} {many[at]} times in a whole run, and {few[at]} times by units"


def by_vectors(segments: Iterator[Segment]) -> Iterator[list[Segment]]:
    """The calls of each vector."""
    of_one: list[Segment] | None = None
    for it in segments:
        if it.kind == VECTOR:
            if of_one is not None:
                yield of_one
            of_one = []
        elif of_one is not None:
            of_one.append(it)
    yield of_one or []


def main() -> int:
    """Traces, and prints what was found."""
    words = argparse.ArgumentParser(description=__doc__, formatter_class=argparse.RawDescriptionHelpFormatter)
    words.add_argument("--every", type=int, default=1, metavar="N")
    every = words.parse_args().every
    found, totals = 0, Counter[str]()
    with tempfile.TemporaryDirectory() as name:
        folder = Path(name)
        program = folder / "lent_loads"
        source = TOP / "tools" / "measure" / "lent_loads.c"
        subprocess.run(["cc", "-O2", "-fno-builtin", f"-I{TOP / 'c'}", "-o", program, source, TOP / "libdasd.a"], check=True)
        played = {it.name: (lines, ahead_of(it)) for it in all_vectors()[::every] if (lines := lines_of(it, folder))}
        lines = [it for of_vector, _ in played.values() for it in of_vector]
        traces = (by_vectors(trace(program, way, lines)) for way in ("units", "whole"))
        for (vector, (_, ahead)), units, whole in zip(played.items(), *traces, strict=True):
            totals.update(units=sum(it.kind == UNIT for it in units), loads=sum(it.loads.total() for it in units),
                          stores=sum(it.stores.total() for it in units))
            for at, what in findings(units, whole):
                if at in ahead and what.startswith("loaded"):
                    totals.update(ahead=1)
                    continue
                found += 1
                print(f"{vector}: {at:06X} is {what}")
    print(f"{len(played)} vectors, {totals['units']} units, {totals['loads']} bytes loaded, {totals['stores']} stored, "
          f"{totals['ahead']} looked at ahead, {found} findings")
    return 1 if found else 0


if __name__ == "__main__":
    sys.exit(main())
