"""Plays the commands of docs/ARCHIVES.md over a hundred volumes that it makes, and one that is too short, and looks at the answers.

The program `dasd` is the word that is given, or else the built one of crates/dasd_cmd. The commands are those of the section on
ten thousand volumes, as they stand there. It needs Debian's sqlite3, and ends with status 1 where an answer is another."""

import os
import pathlib
import subprocess
import sys
import tempfile

from tools import TOP
from tools.common.images import slot_at
from tools.gate.page_examples import blocks_of

PAGE = TOP / "docs/ARCHIVES.md"
SECTION = "## Ten thousand volumes"
VOLUMES = 100


def commands(page: str) -> list[str]:
    """The scripts of the section, but for its first, which makes the page's few packs: here others stand in their place."""
    section = page.split(SECTION)[1].split("\n## ")[0]
    return ["\n".join(it.lines) for it in blocks_of(SECTION, section) if it.word == "sh"][1:]


def make_volume(dasd: str, path: pathlib.Path, number: int) -> None:
    """A volume of one cylinder: every tenth has a slot that spells no track, every fourth a reserved byte, the rest are new."""
    subprocess.run([dasd, "format", str(path), "--cylinders", "1"], check=True, stdout=subprocess.DEVNULL)
    image = bytearray(path.read_bytes())
    if number % 10 == 0:
        at = slot_at("2311", 3) + 21
        image[at : at + 8] = bytes([0, 0, 0, 3, 1, 0, 0xFF, 0xFF])
    if number % 4 == 0:
        image[20] = 1
    path.write_bytes(image)


def shell(command: str, folder: pathlib.Path, dasd: str) -> str:
    """What a command prints in a folder, with `dasd` on the path."""
    tools = folder / "bin"
    tools.mkdir(exist_ok=True)
    link = tools / "dasd"
    if not link.exists():
        link.symlink_to(dasd)
    environment = dict(os.environ, PATH=f"{tools}:{os.environ['PATH']}")
    done = subprocess.run(["bash", "-c", command], cwd=folder, env=environment, check=True, capture_output=True, text=True)
    return done.stdout


def expected() -> dict[int, str]:
    """The answers to the commands that print something, by their places, worked out from how the volumes are made."""
    faulty = [number for number in range(VOLUMES) if number % 10 == 0]
    reserved = [number for number in range(VOLUMES) if number % 4 == 0]
    return {
        1: "packs/short.ckd.fault:dasd: wrong length\n",
        3: "".join(sorted(f"packs/{number:03}.ckd|1\n" for number in faulty)),
        4: "packs/short.ckd|wrong length\n",
        5: f"reserved bytes|{len(reserved)}\nunreadable|{len(faulty)}\n",
        6: "".join(sorted(f"packs/{number:03}.ckd\n" for number in range(VOLUMES))),
    }


def main() -> int:
    """Makes the volumes, plays the commands, and says which answer is another."""
    dasd = str(pathlib.Path(sys.argv[1] if len(sys.argv) > 1 else TOP / "crates/dasd_cmd/out/dasd_cmd").resolve())
    failed = 0
    with tempfile.TemporaryDirectory() as name:
        folder = pathlib.Path(name)
        (folder / "packs").mkdir()
        for number in range(VOLUMES):
            make_volume(dasd, folder / f"packs/{number:03}.ckd", number)
        (folder / "packs/short.ckd").write_bytes((folder / "packs/000.ckd").read_bytes()[:-1])
        answers = [shell(command, folder, dasd) for command in commands(PAGE.read_text(encoding="utf-8"))]
        for place, answer in expected().items():
            lines = sorted(line for line in answers[place].splitlines(keepends=True) if line.strip())
            if "".join(lines) != answer:
                failed += 1
                print(f"command {place + 1} printed something else:\n{answers[place]}", file=sys.stderr)
    print(f"{len(answers)} commands over {VOLUMES} volumes, {failed} answers otherwise")
    return 1 if failed else 0


if __name__ == "__main__":
    sys.exit(main())
