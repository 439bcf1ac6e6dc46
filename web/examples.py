#!/usr/bin/env python3
"""Makes the page's examples: examples.py OUT.json

Decks of the pages (docs/DECKS.md and docs/TRACING.md, the first as rows/data/dasd.rows has them), the vectors of the
conformance suite, and the decks of conformance/hercules, in which Hercules 3.13 differs: what it answers is what docs/HERCULES.md has.
What must be answered is the vectors' word, or that of the suite's model. src/examples.mjs says what the file has.
"""
# mypy: allow-untyped-calls

import base64
import gzip
import json
import re
import sys
from pathlib import Path
from typing import Any

sys.dont_write_bytecode = True
TOP = Path(__file__).resolve().parent.parent
sys.path.insert(0, str(TOP / "conformance"))

from ask import read_deck  # noqa: E402
from suite.adapters.model import ModelEmulator  # noqa: E402
from suite.vectors import Vector, all_vectors  # noqa: E402
from suite.volumes import Volume  # noqa: E402

VECTORS = TOP / "conformance" / "vectors"
# The pack of docs/TRACING.md: three records of 80 bytes on its first track. One of its programs has the first of them alone.
PACK, SHORT_PACK = "x.ckd", "x-one-record.ckd"


def packed(data: bytes) -> str:
    """Bytes under gzip, as base64: the same each time."""
    return base64.b64encode(gzip.compress(data, 9, mtime=0)).decode()


def spelled(words: str) -> bytes:
    """Bytes as the rows spell them: parts joined by '+', each in hexadecimal, '*' repeats."""
    parts = (part.partition("*") for part in words.split("+"))
    return b"".join(bytes.fromhex(digits) * int(times or 1) for digits, _, times in parts)


class Examples:
    """The examples so far, and the images that they name."""

    def __init__(self) -> None:
        self.images: dict[str, str] = {}
        self.examples: list[dict[str, Any]] = []

    def add(self, kind: str, vector: Vector, **more: Any) -> None:
        """Takes the deck of a vector; `more` stands in the place of what the vector says, or beside it."""
        example: dict[str, Any] = {"kind": kind}
        for name in ("name", "group", "about", "channel", "storage"):
            example[name] = getattr(vector, name)
        example["volumes"] = [self.volume(unit, what) for unit, what in vector.volumes]
        example["deck"] = vector.deck.decode("latin1")
        example["answers"] = vector.answers
        if vector.fault:
            example["fault"] = vector.fault
        self.examples.append({**example, **more})

    def volume(self, unit: int, what: str) -> dict[str, Any]:
        """A volume as a vector's line names it."""
        words = what.split()
        if words[0] == "new":
            return {"unit": unit, "model": int(words[1]), "cylinders": int(words[2])}
        for name in words:
            if name not in self.images:
                self.images[name] = packed((VECTORS / name).read_bytes())
        return {"unit": unit, "images": words}

    def made(self, name: str, data: bytes) -> None:
        """Takes an image that stands in no file."""
        self.images[name] = packed(data)


def add_rows(all_: Examples) -> None:
    """The decks of docs/DECKS.md, as rows/data/dasd.rows has them: each a row with its packs, its deck and its answers."""
    rows = (TOP / "rows" / "data" / "dasd.rows").read_text().split("\n\n")
    for row in rows:
        lines = row.strip().split("\n")
        if not re.match(r"deck \d+: ", lines[0]):
            continue
        title = lines[0].partition(": ")[2]
        vector = Vector(title[0].upper() + title[1:], "docs/DECKS.md")
        image, name = b"", ""
        for word, _, rest in (line.partition(" ") for line in lines[1:]):
            if word == "file":
                name, model, cylinders = rest.split()
                image = Volume.new(model, int(cylinders)).bytes()
            elif word == "patch":
                at, data = int(rest.split()[1]), spelled(rest.split()[2])
                image = image[:at] + data + image[at + len(data) :]
            elif word == ">":
                vector.deck += rest.encode() + b"\n"
            elif word == "<":
                vector.answers.append(rest)
        all_.made(name, image)
        vector.volumes = [(0x90, name)]
        all_.add("page", vector)


def add_traces(all_: Examples) -> None:
    """The programs that fail of docs/TRACING.md, over the pack of three records."""
    page = (TOP / "docs" / "TRACING.md").read_text()
    whole = gzip.decompress(base64.b64decode(all_.images[PACK]))
    second = whole.index(spelled("0000000002000050+C2"))
    end = whole.index(spelled("C3*80+FF*8")) + 88
    all_.made(SHORT_PACK, whole[:second] + spelled("FF*8") + bytes(end - second - 8) + whole[end:])
    for title, text in re.findall(r"(?ms)^### \d+\. ([^\n]*)\n(.*?)(?=^##|\Z)", page):
        run = re.search(r"(?ms)^dasd run --trace 90=(\w+\.ckd) << 'END'[^\n]*\n(.*?)^END$", text)
        if not run:
            sys.exit(f"docs/TRACING.md: no run with a trace under {title}")
        pack = PACK if run[1] == PACK else SHORT_PACK
        vector = Vector(title, "docs/TRACING.md", deck=run[2].encode(), volumes=[(0x90, pack)])
        vector.made[0x90] = Volume.read([gzip.decompress(base64.b64decode(all_.images[pack]))])
        vector.answers = ModelEmulator().play(vector).answers
        all_.add("page", vector, about=text.strip().partition("\n\n")[0].replace("\n", " "))


def hercules_answers(section: str, deck: str) -> list[str | None]:
    """What Hercules answers to each event where it is another than it must be, by the page's lines: the event, and behind it a note."""
    answers: list[str | None] = []
    noted = section.partition("```\n")[2].partition("```")[0].split("\n")
    for line, whole in zip(deck.splitlines(), noted):
        if not whole.startswith(line):
            raise SystemExit(f"examples.py: docs/HERCULES.md has {whole}, and the deck {line}")
        other = re.match(r"Hercules (.*?)   must be ", whole[len(line) :].strip())
        answers.append(other[1] if other else None)
    return answers


def add_hercules(all_: Examples) -> None:
    """The decks in which Hercules differs."""
    page = (TOP / "docs" / "HERCULES.md").read_text()
    for path in sorted((TOP / "conformance" / "hercules").iterdir()):
        vector, _, said = read_deck(str(path))
        section = next(it for it in re.split(r"(?m)^## ", page) if f"hercules/{path.name}`" in it)
        vector.answers = ModelEmulator().play(vector).answers
        about = f"The manuals: {said['manual']}. For an operating system: {said['matters']}."
        broke = {"broke": "Hercules ended by a fault of its own"} if "\nHercules ended by a fault of its own." in section else {}
        vector.name, vector.group, vector.about = said["title"], "docs/HERCULES.md", about
        all_.add("hercules", vector, hercules=hercules_answers(section, vector.deck.decode()), **broke)


def main() -> None:
    """Writes all of them."""
    if len(sys.argv) != 2:
        sys.exit(__doc__)
    all_ = Examples()
    add_rows(all_)
    add_traces(all_)
    add_hercules(all_)
    for vector in all_vectors():
        all_.add("vector", vector)
    Path(sys.argv[1]).write_text(json.dumps({"images": all_.images, "examples": all_.examples}, separators=(",", ":")) + "\n", encoding="utf-8")


if __name__ == "__main__":
    main()
