"""Files of data sets by chance, for tools/gate/play_changes.py: what forms they have, which blocks, and why some have none. And the command line of
the tools that play by chance.

A file has the data of its blocks one behind another; or each block behind its lengths and its key; or lines of text, each of which is a record. It
shares no code with `dasd`: records are those of Data Management Services (GC26-3746), 'Record Formats', and characters Python's of code page 037."""

import argparse
import random
import sys
import unicodedata
from collections.abc import Callable, Iterator
from dataclasses import dataclass, replace
from pathlib import Path

from conformance.suite.volumes import Model
from tools.common.record_forms import cut, described, variable_blocks, with_lengths
from tools.common.said_sets import Block
from tools.gate import parser

# The byte of a record format.
FORMATS = {"F": 0x80, "FB": 0x90, "FS": 0x88, "FBS": 0x98, "V": 0x40, "VB": 0x50, "U": 0xC0}
# The words for files that are not the data of blocks alone.
LENGTHS, TEXT = "--with-lengths", "--text"
# A key of more bytes could make a count that looks like the end of a track.
LONGEST_KEY = 254
CHARACTERS = [it for it in bytes(range(256)).decode("cp037") if unicodedata.category(it) != "Cc"]


class Refused(Exception):
    """Why a change is refused."""


def asked_for(usage: str | None, many: str, number: int) -> argparse.Namespace:
    """Reads the words of a command line: --built FILE, --seed N and how many (`number`), so many if it does not say."""
    words = parser(usage)
    words.add_argument(f"--{many}", dest="number", type=int, default=number)
    words.add_argument("--seed", type=int, default=1)
    return words.parse_args()


def same(got: object, want: object, what: str) -> None:
    """Ends where something is not as it must be."""
    if got != want:
        sys.exit(f"{Path(sys.argv[0]).name}: {what}: {got}, and not {want}")


@dataclass(frozen=True)
class Form:
    """The form of a data set's records, as it is asked for; and what the file is said to have."""

    name: str
    record: int | None
    block: int
    key: int = 0
    source: str = ""

    def words(self) -> list[str]:
        """The words that ask for it."""
        record = [] if self.record is None else ["--record-length", str(self.record)]
        key = ["--key-length", str(self.key)] if self.key else []
        return ["--record-format", self.name, *record, "--block-length", str(self.block), *key, *([self.source] if self.source else [])]

    def is_variable(self) -> bool:
        """Whether its blocks say their own lengths."""
        return self.name in ("V", "VB")

    def record_length(self) -> int:
        """What the label says of it."""
        if self.name == "U" or (self.is_variable() and self.record is None):
            return 0
        return self.block if self.record is None else self.record

    def cut(self, data: bytes) -> list[Block]:
        """The blocks of a file that has some."""
        if self.source == LENGTHS:
            return list(blocks_behind_lengths(data))
        if self.source == TEXT:
            data = b"".join(line.ljust(self.record_length()).encode("cp037") for line in lines_of(data.decode()))
        return [(b"", it) for it in (described_blocks(data) if self.is_variable() else cut(data, self.block))]

    def taken_out(self, data: bytes) -> dict[str, bytes]:
        """What is extracted where such a file was loaded, by the word that asks for it."""
        blocks = self.cut(data)
        taken = {"": b"".join(it[1] for it in blocks), LENGTHS: with_lengths(blocks)}
        if self.source == TEXT:
            taken[TEXT] = "".join(line.rstrip(" ") + "\n" for line in lines_of(data.decode())).encode()
        return taken


def lines_of(text: str) -> list[str]:
    """The lines of a text, whose last one may lack its end."""
    return text.removesuffix("\n").split("\n") if text else []


def described_blocks(data: bytes) -> Iterator[bytes]:
    """Blocks that begin with their descriptor words."""
    at = 0
    while at < len(data):
        length = int.from_bytes(data[at : at + 2], "big")
        yield data[at : at + length]
        at += length


def blocks_behind_lengths(data: bytes) -> Iterator[Block]:
    """Blocks that stand behind their lengths."""
    at = 0
    while at < len(data):
        key, behind = at + 4 + data[at + 1], int.from_bytes(data[at + 2 : at + 4], "big")
        yield data[at + 4 : key], data[key : key + behind]
        at = key + behind


# Why a file has no blocks.


def check(form: Form, data: bytes, model: Model) -> None:
    """Refuses a form that can't be, or a file that has none such."""
    if form.source == TEXT:
        check_text(form, data)
    if form.block > model.capacity:
        raise Refused("a block is longer than a track")
    if form.source == LENGTHS:
        check_behind_lengths(form, data, model)
    elif form.source == "":
        check_data(form, data)


def check_data(form: Form, data: bytes) -> None:
    """Refuses data that are no blocks."""
    if form.is_variable():
        check_described(form, data)
        return
    size = form.record_length()
    if size and form.block % size:
        raise Refused("record length and block length contradict each other")
    if size and len(data) % size:
        raise Refused("the file ends within a record")


def check_described(form: Form, data: bytes) -> None:
    """Refuses a file that has a block of variable records cut off, or too long."""
    at, number = 0, 1
    while at < len(data):
        length = int.from_bytes(data[at : at + 2], "big")
        if len(data) - at < 4:
            raise Refused(f"block {number} has a descriptor word that is no length")
        if at + length > len(data):
            raise Refused(f"block {number} does not end within the file")
        if length > form.block:
            raise Refused(f"block {number} is longer than the block length")
        at, number = at + length, number + 1


def check_text(form: Form, data: bytes) -> None:
    """Refuses a text whose lines are no records."""
    if form.is_variable() or form.name == "U":
        raise Refused("lines of text are records of one length, F or FB")
    lines = data.split(b"\n")
    for number, line in enumerate(lines[:-1] if lines[-1] == b"" else lines, 1):
        text = line.decode(errors="replace")  # by a character that the code page lacks
        if not set(text) <= set(CHARACTERS):
            raise Refused(f"line {number} has a character that is no text of EBCDIC")
        if len(text) > form.record_length():
            raise Refused(f"line {number} is longer than a record")


def check_behind_lengths(form: Form, data: bytes, model: Model) -> None:
    """Refuses a file of which a block behind its lengths is none."""
    at, number = 0, 1
    while at < len(data):
        behind = at + 4 + data[at + 1] + int.from_bytes(data[at + 2 : at + 4], "big") if at + 4 <= len(data) else len(data) + 1
        if data[at] != 1:
            raise Refused(f"block {number} does not begin with a byte 1")
        if behind > len(data):
            raise Refused(f"block {number} does not end within the file")
        ((key, block),) = blocks_behind_lengths(data[at:behind])
        for is_so, why in faults_of(form, key, block, model):
            if is_so():
                raise Refused(f"block {number} {why}")
        at, number = behind, number + 1


def faults_of(form: Form, key: bytes, block: bytes, model: Model) -> list[tuple[Callable[[], bool], str]]:
    """What may be wrong with a block and its key; the first that is so is told."""
    return [
        (lambda: not block, "has no data"),
        (lambda: len(key) != form.key, "has a key of another length"),
        (lambda: len(block) > form.block, "is longer than the block length"),
        (lambda: len(key) > LONGEST_KEY or model.last_charge(len(key), len(block)) > model.capacity, "has no room on a track"),
        (lambda: not has_records(form, block), "has bytes that are no records"),
    ]


def has_records(form: Form, block: bytes) -> bool:
    """Whether a block has records of the form, and nothing else."""
    if not form.is_variable():
        return not form.record_length() or len(block) % form.record_length() == 0
    if len(block) < 4 or int.from_bytes(block[:2], "big") != len(block):
        return False
    at = 4
    while at < len(block):
        length = int.from_bytes(block[at : at + 2], "big")
        if length < 4 or at + length > len(block) or block[at + 2]:
            return False
        at += length
    return True


# By chance.


def form_by_chance(chance: random.Random, capacity: int) -> Form:
    """A form, mostly one that can be, and what the file has."""
    form = records_by_chance(chance, capacity)
    source = chance.choice(["", "", LENGTHS, LENGTHS, TEXT])
    if source == TEXT and chance.random() < 0.9 and (form.is_variable() or form.name == "U"):
        form = Form("FB", 80, 80 * chance.randint(1, capacity // 80))
    key = chance.choice([0, 0, 1, 8, 20, 44, chance.randint(1, 255)]) if source == LENGTHS else 0
    return replace(form, key=key, source=source)


def records_by_chance(chance: random.Random, capacity: int) -> Form:
    """The form of records and blocks."""
    name = chance.choice(sorted(FORMATS))
    record = chance.choice([1, 8, 80, 121, 133, chance.randint(1, 400)])
    most = max(1, min(capacity, chance.choice([200, 1000, 4000, capacity])) // record)
    if name in ("FB", "FBS"):
        return Form(name, record, record * chance.randint(1, most))
    if name in ("V", "VB"):
        return Form(name, chance.choice([None, record]), min(capacity, record + 8) + chance.choice([0, 0, chance.randint(0, 3000)]))
    block = chance.choice([record, chance.randint(1, capacity), capacity, capacity + 1])
    return Form(name, None, block)


def file_by_chance(chance: random.Random, form: Form) -> bytes:
    """The bytes of a file, mostly of whole blocks."""
    if form.source == TEXT:
        return text_by_chance(chance, form.record_length())
    if form.source == LENGTHS:
        return lengths_by_chance(chance, form)
    if form.is_variable():
        return variable_by_chance(chance, form)
    size = form.record_length() or 1
    count = chance.choice([0, 1, 2, chance.randint(0, 30), chance.randint(0, 40_000 // size)])
    odd = 1 if chance.random() < 0.05 else 0
    return chance.randbytes(count * size + odd)


def variable_by_chance(chance: random.Random, form: Form) -> bytes:
    """The bytes of a file of variable records, each in its block or several in one, mostly whole and not too long."""
    most = form.block - 8
    records = [chance.randbytes(chance.randint(0, most)) for _ in range(chance.choice([0, 1, chance.randint(0, 60)]))]
    longest = form.block + (9 if chance.random() < 0.05 else 0)
    blocks = variable_blocks(records, longest) if form.name == "VB" else [described(described(it)) for it in records]
    data = b"".join(blocks)
    return data[: -chance.randint(1, 3)] if data and chance.random() < 0.05 else data


def text_by_chance(chance: random.Random, most: int) -> bytes:
    """A text, mostly of characters that are in the code page and of lines that are not too long."""
    lines = ["".join(chance.choices(CHARACTERS, k=chance.randint(0, chance.choice([most, 10 % (most + 1)])))) for _ in range(chance.randint(0, 100))]
    if chance.random() < 0.1:
        lines.insert(chance.randint(0, len(lines)), chance.choice(["A" * (most + 1), "\t", "€", "\0", "\x7f"]))
    data = ("\n".join(lines) + chance.choice(["", "\n", "\n"])).encode()
    return data + b"\xe9" if chance.random() < 0.03 else data


def lengths_by_chance(chance: random.Random, form: Form) -> bytes:
    """The bytes of a file with lengths and keys, mostly those of blocks."""
    count = chance.choice([0, 1, chance.randint(0, 40)])
    blocks = [(chance.randbytes(form.key), block_by_chance(chance, form)) for _ in range(count)]
    if blocks and chance.random() < 0.1:
        key, data = blocks[-1]
        blocks[-1] = chance.choice([(key, b""), (key + b"K", data), (key[1:], data), (key, data + b"\0"), (key, chance.randbytes(form.block + 1))])
    spelled = with_lengths([(key[:255], data) for key, data in blocks])
    broken = [spelled[:-1], spelled + b"\1", spelled + b"\0", b"\2" + spelled[1:]]
    return chance.choice(broken) if chance.random() < 0.05 else spelled


def block_by_chance(chance: random.Random, form: Form) -> bytes:
    """A block of the form."""
    if form.is_variable():
        first = chance.randbytes(chance.randint(0, form.block - 8))
        return described(described(first))
    size = form.record_length() or 1
    return chance.randbytes(size * chance.randint(1, max(1, form.block // size)))
