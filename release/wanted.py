"""What compiled code wants of its system: the names that a module declares, and those that its compiled forms leave undefined.

`wanted_names.txt` has them all, and a new one stops the release: somebody has to look whether each target has it, and with the same
meaning."""

import re
import shutil
import subprocess
from pathlib import Path

LIST = Path(__file__).resolve().parent / "wanted_names.txt"


def known_names(text: str) -> dict[str, set[str]]:
    """The names of a list, by the [part] that they stand in."""
    parts: dict[str, set[str]] = {}
    part: set[str] = set()
    for line in text.splitlines():
        words = line.partition("#")[0].split()
        if words and words[0].startswith("["):
            part = parts.setdefault(words[0].strip("[]"), set())
        else:
            part.update(words)
    return parts


def declared_names(text: str) -> set[str]:
    """The names that a module's text declares and does not define, without LLVM's own."""
    return {it for it in re.findall(r'(?m)^declare [^@]*@"?([^"(\s]+)"?\(', text) if not it.startswith("llvm.")}


def undefined_names(compiled: Path) -> set[str]:
    """The names that an object wants of what it is linked with."""
    if compiled.read_bytes()[:4] == b"\x7fELF":
        table = subprocess.run(["readelf", "-sW", str(compiled)], check=True, capture_output=True, text=True).stdout
        rows = [line.split() for line in table.splitlines()]
        return {row[7] for row in rows if len(row) >= 8 and row[6] == "UND"}
    table = subprocess.run(["nm", "-u", str(compiled)], check=True, capture_output=True, text=True).stdout
    return {line.split()[-1] for line in table.splitlines() if line.strip()}


def assembled(text: Path, folder: Path) -> Path | None:
    """The object of an assembly text, made by GNU as for its processor; none, where that is not there."""
    command = {"x86_64": ("as", "--64"), "aarch64": ("aarch64-linux-gnu-as",)}[text.stem.rpartition("-")[2]]
    if not shutil.which(command[0]):
        return None
    made = folder / f"{text.name}.o"
    subprocess.run([*command, "-o", str(made), str(text)], check=True)
    return made


def new_names(wanted: set[str], *parts: str) -> list[str]:
    """Which of these names stand in none of these parts of the list."""
    known = known_names(LIST.read_text(encoding="utf-8"))
    return sorted(wanted.difference(*(known[part] for part in parts)))
