"""Rows of single calls: a line for the stage after `: `, and its answer after `< `. Bytes are compared as bytes, however they are
spelled; `...` at an answer's end passes what may stand there. A line `slot BYTES` keeps the slot of which the lines after it ask.

Of a track: `from 21: no end at 21` says from which length on a beginning of the slot is read otherwise, by a walk and by a table;
`alike 12288` of how many slots that differ by one byte a walk and a table read the same; `empty no` whether it has no records.

Of the manuals' tables: `asks CCW CD CC` is what a channel command word asks; `mask C0 15 write 1B seek false` which command codes a file
mask does not allow, and whether heads may change; `explain csw 0C00; unit status 0C` what each line of an explanation names."""
from __future__ import annotations

from functools import partial
from typing import Iterator

from .stage import Stage
from .text import BadRow, Block, Case, Wrong, bytes_of, is_next, read_blocks, same, spelled

def play_row(block: Block, stage: Stage) -> None:
    """Plays a row."""
    answer, slot = "", b""
    begins = [tuple(it.split(": ")) for it in block.behind("from ")]
    for line in block.lines[1:]:
        word, _, rest = line.partition(" ")
        if word == ":":
            answer = stage.ask(rest)
        elif word == "<":
            is_next(line, rest, answer)
        elif word == "slot":
            slot = bytes_of(rest)
            same(line, "OK", stage.ask("SLOT %s" % rest).replace("SLOT", "OK").split()[0])
        elif word == "empty":
            same(line, rest == "yes", answer.split()[1] == "0")
        elif word == "alike":
            same(line, int(rest), alike(stage, slot))
        elif word in TABLES:
            TABLES[word](line, stage)
        elif word != "from":
            raise BadRow(line)
    if begins:
        beginnings(stage, slot, {int(at): reading for at, reading in begins})


def asks(line: str, stage: Stage) -> None:
    """What a channel command word asks, by the names of its flags."""
    words = line.split()
    came = stage.ask("CCW %s" % words[1]).split()[5:]
    same(line, [] if words[2:] == ["nothing"] else words[2:], came)


def mask(line: str, stage: Stage) -> None:
    """Which command codes a file mask does not allow, and whether heads may change."""
    words = line.split()
    refused = dict(zip(words[2:-1:2], words[3:-1:2]))
    heads = "HEADS %s" % ("YES" if words[-1] == "true" else "NO")
    for code, answer in enumerate(stage.ask_all("MASK %s %02X" % (words[1], it) for it in range(256))):
        told = {"write": "NoWrite", "seek": "NoSeek"}.get(refused.get("%02X" % code, ""), "Yes")
        if answer != "NO no such command" or told != "Yes":
            same("%s, code %02X" % (line, code), "MASK %s %s" % (told, heads), answer)


def explain(line: str, stage: Stage) -> None:
    """What each line of an explanation names: the text before its colon."""
    number, _, names = line.partition("; ")
    _, kind, digits = number.split()
    answer = stage.ask("EXPLAIN %s %s" % (kind.upper(), digits))
    lines = answer.partition(" ")[2].split("|")[:-1] if answer.startswith("EXPLAIN") else []
    same(line, names, "; ".join(it.split(":")[0].strip() for it in lines))


TABLES = {"asks": asks, "mask": mask, "explain": explain}


def reading(walked: str, listed: str) -> str:
    """What a walk and a table come to in a slot."""
    if walked.startswith("REFUSED"):
        same("a table", walked, listed)
        return walked.partition(" ")[2]
    same("a table's records", walked.split()[1], listed.split()[1])
    return "%s records" % walked.split()[1]


def beginnings(stage: Stage, slot: bytes, wanted: dict[int, str]) -> None:
    """Reads each beginning of a slot, by a walk and by a table."""
    lines = [line for length in range(len(slot) + 1) for line in ("SLOT %s" % spelled(slot[:length]), "PARTS", "INDEX")]
    answers = stage.ask_all(lines)
    last = ""
    for length in range(len(slot) + 1):
        last = wanted.get(length, last)
        came = reading(answers[3 * length + 1], answers[3 * length + 2])
        if came != last:
            raise Wrong("the first %d bytes" % length, last, came)


def alike(stage: Stage, slot: bytes) -> int:
    """Of how many slots that differ from this one by a byte a walk and a table read the same."""
    changed = [slot[:at] + bytes([byte]) + slot[at + 1:] for at in range(len(slot)) for byte in (0x00, 0x7F, 0xFF)]
    answers = stage.ask_all(line for it in changed for line in ("SLOT %s" % spelled(it), "PARTS", "INDEXED"))
    pairs = zip(answers[1::3], answers[2::3])
    return sum(one.partition(" ")[2] == other.partition(" ")[2] for one, other in pairs)


def cases(name: str) -> Iterator[Case]:
    for block in read_blocks(name):
        yield Case(block.name, partial(play_row, block))
