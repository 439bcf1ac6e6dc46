"""The sums of modules and compiled code that this repository keeps, in compiled.sha256, one line of `sha256sum` for each file."""

from pathlib import Path

from compiling import WASM
from proved import sha256

FILE = Path(__file__).resolve().parent / "compiled.sha256"


def sums_of(modules: Path, compiled: Path) -> str:
    """The sums of the modules in one folder, and of the compiled code in another."""
    files = [*sorted(modules.glob("*.bc")), *sorted(it for it in compiled.iterdir() if it.suffix in (".s", ".o", ".wasm"))]
    return "".join(f"{sha256(it)}  {it.name}\n" for it in files)


def differing(kept: str, made: str) -> list[str]:
    """What differs between two lists: a sum, a file that is missing, a file that is new."""
    one = {name: value for value, name in (line.split() for line in kept.splitlines())}
    other = {name: value for value, name in (line.split() for line in made.splitlines())}
    told = []
    for name in sorted(one.keys() | other.keys()):
        if name not in other and name in WASM.values():
            print(f"skipped: the sum of {name}, which was not made here")
        elif name not in other:
            told.append(f"{name}: compiled.sha256 has it, and it was not made")
        elif name not in one:
            told.append(f"{name}: was made, and compiled.sha256 does not have it")
        elif one[name] != other[name]:
            told.append(f"{name}: sha256 {other[name]}, and compiled.sha256 has {one[name]}")
    return told
