"""compiled/, in which the repository keeps what a clone builds of: the text of library, program and drive for each Linux, the page's two modules,
and ORIGIN, which says of what they are made."""

import re
import shutil
from pathlib import Path

import tree
from tools.common.kit import kit

FOLDER = tree.TOP / "compiled"
KEPT = (".s", ".wasm")
ORIGIN = """Of what the files in this folder are made; README.md says how they are made again.

Toolchain {kit}
Crates    {crates}
Modules
{modules}"""


def names(made: Path) -> list[str]:
    """The files of compiled code that the repository keeps."""
    return sorted(it.name for it in made.iterdir() if it.suffix in KEPT)


def origin(sums: str) -> str:
    """The text of ORIGIN: the kit's line, the id of the tree of crates/, and the modules with their sums."""
    modules = [f"{line}\n" for line in sums.splitlines() if line.endswith(".bc")]
    return ORIGIN.format(kit=(kit() / "KIT-ID").read_text(encoding="utf-8").strip(), crates=tree.tree_of_crates(), modules="".join(modules))


def write(made: Path, sums: str, folder: Path = FOLDER) -> None:
    """Puts what was made of proved modules into the repository, and says of what. A toolchain that gives the same bytes again is not named."""
    for it in names(made):
        shutil.copyfile(made / it, folder / it)
    if differing_origin(folder, origin(sums)):
        (folder / "ORIGIN").write_text(origin(sums), encoding="utf-8")


def parts_of(origin_text: str) -> dict[str, str]:
    """The toolchain, the tree of crates/, and the sum of each module, of a text of ORIGIN."""
    found = dict(re.findall(r"(?m)^(Toolchain|Crates) +(.+)$", origin_text))
    return found | {name: value for value, name in re.findall(r"(?m)^(\w+)  (\S+\.bc)$", origin_text)}


def differing_origin(folder: Path, wanted: str) -> list[str]:
    """What ORIGIN has otherwise. Another toolchain is no fault, since modules and texts are compared: a line says so."""
    if not (folder / "ORIGIN").is_file():
        return ["compiled/ORIGIN is not here"]
    kept, made = parts_of((folder / "ORIGIN").read_text(encoding="utf-8")), parts_of(wanted)
    toolchain, here = kept.pop("Toolchain", "none"), made.pop("Toolchain")
    if toolchain != here:
        print(f"compiled/ORIGIN names the toolchain {toolchain}, and this one is {here}")
    words = {"Crates": "the tree of crates/"}
    return [
        f"compiled/ORIGIN has {kept.get(it, 'none')} for {words.get(it, it)}, and it is {made.get(it, 'none')}"
        for it in sorted(kept.keys() | made.keys())
        if kept.get(it) != made.get(it)
    ]


def differing(made: Path, sums: str, folder: Path = FOLDER) -> list[str]:
    """What the repository has otherwise than it was made."""
    found = []
    for it in sorted({*names(made), *names(folder)}):
        if not (folder / it).is_file():
            found.append(f"compiled/{it} is not here")
        elif not (made / it).is_file():
            found += [] if it.endswith(".wasm") else [f"compiled/{it} was not made"]
        elif (folder / it).read_bytes() != (made / it).read_bytes():
            found.append(f"compiled/{it} is not what the proved module gives")
    return found + differing_origin(folder, origin(sums))
