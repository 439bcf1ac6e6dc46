#!/usr/bin/env python3
"""Images with bytes changed by chance, at the native `dasd` and at dasd.mjs: both must print the same, with the same status.

    test/chance_images.py DASD [--images 40]

DASD is the native program. Status 1 where a command comes out otherwise.
"""
# mypy: allow-untyped-calls

import argparse
import random
import subprocess
import sys
import tempfile
from pathlib import Path

sys.dont_write_bytecode = True
WEB = Path(__file__).resolve().parent.parent
sys.path.insert(0, str(WEB.parent))

from tools.common.images import Image  # noqa: E402
from tools.common.volume_layouts import Extents, Member, ebcdic, partition  # noqa: E402
from tools.common.written_labels import DataSet, put_label  # noqa: E402

VECTORS = WEB.parent / "conformance" / "vectors"
COMMANDS = (["list", "--json"], ["check", "--strict", "--json"], ["vtoc", "--json"])
MODULE = ["node", str(WEB / "dasd.mjs")]
SECONDS = 60


def labelled(dasd: str, path: Path) -> bytes:
    """An image of five cylinders with a label, a sequential data set in two extents and a library of three members."""
    subprocess.run([dasd, "format", path, "--model", "2311", "--cylinders", "5"], check=True, stdout=subprocess.DEVNULL)
    image = Image(path)
    runs, rows = [(10, 13), (20, 27)], [(30, 44)]
    cards, macros = Extents(image, runs), Extents(image, rows)
    for number in range(60):
        cards.append(b"", ebcdic(f"CARD {number}", 80) * 5)
    cards.append(b"", b"")
    cards.save()
    partition(macros, {name: Member([ebcdic(name, 80)] * 3) for name in ("CLOSE", "GET", "OPEN")}, 3)
    sets = [DataSet("TEST.CARDS", "PS", 80, 400, runs, cards.last()), DataSet("TEST.MACROS", "PO", 80, 80, rows, macros.last())]
    put_label(image, "CHANCE", sets)
    image.save()
    return path.read_bytes()


def spoilt(data: bytes, chance: random.Random) -> bytes:
    """The same image with some bytes changed, mostly near the front of a slot; one in six is cut or made longer."""
    image, slot = bytearray(data), int.from_bytes(data[12:16], "little")
    for _ in range(chance.choice([1, 3, 20, 100])):
        at = chance.randrange(len(image))
        if chance.random() < 0.7:
            at = 512 + slot * chance.randrange((len(image) - 512) // slot) + chance.randrange(120)
        image[min(at, len(image) - 1)] = chance.randrange(256)
    if chance.random() < 1 / 6:
        return bytes(image[: chance.randrange(len(image))]) + bytes(chance.choice([0, 1, 700]))
    return bytes(image)


def ran(command: list[str], words: list[str], folder: Path) -> tuple[int, bytes, bytes]:
    """What a command answers: its status, and what it prints on both outputs."""
    ended = subprocess.run([*command, *words], cwd=folder, stdin=subprocess.DEVNULL, capture_output=True, timeout=SECONDS, check=False)
    return ended.returncode, ended.stdout, ended.stderr


def main() -> int:
    words = argparse.ArgumentParser(description=__doc__, formatter_class=argparse.RawDescriptionHelpFormatter)
    words.add_argument("dasd")
    words.add_argument("--images", type=int, default=40)
    words.add_argument("--seed", type=int, default=1)
    said = words.parse_args()
    dasd, wrong, refused = str(Path(said.dasd).resolve()), 0, 0
    with tempfile.TemporaryDirectory() as room:
        folder = Path(room)
        bases = [labelled(dasd, folder / "base.ckd"), *(path.read_bytes() for path in sorted(VECTORS.glob("random-*.img")))]
        for seed in range(said.seed, said.seed + said.images):
            chance = random.Random(seed)
            (folder / "image.ckd").write_bytes(spoilt(bases[0] if seed % 2 else chance.choice(bases), chance))
            for command in COMMANDS:
                native, module = (ran(it, [*command, "image.ckd"], folder) for it in ([dasd], MODULE))
                refused += native[2] != b""
                if native != module:
                    wrong += 1
                    print(f"seed {seed}, {' '.join(command)}: status {native[0]} and {module[0]}, {native[2]!r} and {module[2]!r}")
    print(f"{said.images * len(COMMANDS)} commands over {said.images} images, {refused} of them refused: {wrong} otherwise")
    return 1 if wrong else 0


if __name__ == "__main__":
    sys.exit(main())
