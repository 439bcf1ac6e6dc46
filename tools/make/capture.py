"""Keeps the LLVM module of a proved crate: the proved code as the kit lowers it for plain x86-64, which is all that a compiler is given.

    tools/run make/capture [--just-proved] CRATE MODULE.bc

CRATE is `dasd_c`, the library, `dasd_cmd`, the program, or `lone_drive_c`, a drive alone. Rattle checks the crate over the libraries that
are in this checkout, as `rt ci` checks each crate over those below it, and compiles what it proved. These have to be made of today's files:
each with the stamp that `rt lib` leaves of them, or none with one, as `rt ci` leaves them in a checkout without any, and then it has to have passed
just now. With `--just-proved`, as beside a running `rt ci`, no stamp is looked at.

The kit's folder of tools is stood in for by one whose `clang` keeps its module and then is the kit's; nothing of the kit is
changed. What was captured is kept on this machine (tools/common/kept.py) by the kit, the crate's files and the bytes of the libraries
below it; and so is what the kit keeps of a check, so that a crate of which little has changed is captured in less time. `rt ci`, whose
verdict it is, proves from nothing.

Beside MODULE.bc stands MODULE.words: the words that this clang was given, one on a line, without names of files and folders.

The code is for plain x86-64, and not for x86-64-v2, the kit's default: so what the gate tests is what a release gives away. Status
1 where a library below is not there, or something is not proved; MODULE.bc then stays as it was."""

import fcntl
import shutil
import sys
import tempfile
from pathlib import Path

from tools import TOP
from tools.common import kept
from tools.common.kit import Kit, KitCrate, keeping_tools, kit_crate

CPU = "x86-64"
# What a crate is made of, below its folder.
PARTS = ("src", "specs", "proofs")


class NotCaptured(Exception):
    """Why there is no module."""


class NotBuilt(NotCaptured):
    """Libraries below the crate do not stand in this checkout, or are made of other files."""


def name_of(known: KitCrate) -> str:
    """A sum of all that a crate's module is made of: the kit, the crate's files, and the libraries below it as they were built."""
    own = sorted(it for part in PARTS for it in (TOP / "crates" / known.name / part).rglob("*") if it.is_file())
    built = sorted(it for below in known.below() for it in Path(below.rlib).rglob("*") if it.is_file())
    parts: list[bytes | str | Path] = [kept.kit_name(), CPU, known.name, " ".join(known.of_kit)]
    for it in [*own, *built]:
        parts += [str(it.relative_to(TOP)), it]
    return kept.sum_of(parts)


def build(rtlib: Kit, known: KitCrate) -> dict[str, Path | bytes]:
    """Proves and compiles the crate: its module, the compiler's words, and what the kit makes of it."""
    with tempfile.TemporaryDirectory() as folder:
        tools, made = keeping_tools(Path(folder))
        built = Path(folder, "built")
        again = Path(folder, "checks") if kept.is_anew() else kept.folder() / "checks" / known.name
        again.mkdir(parents=True, exist_ok=True)
        words = [*known.words(["--cpu", CPU]), "--toolchain", str(tools), "--backend", "llvm", "--incremental", str(again), "-o", str(built)]
        if known.call(rtlib.RATTLE, "build", *words):
            raise NotCaptured(f"crates/{known.name}: not proved, so nothing was made")
        modules = list(made.glob("*.bc"))
        if len(modules) != 1:
            raise NotCaptured(f"the kit's compiler was given {len(modules)} modules, and one is wanted")
        words_file = modules[0].with_suffix(".words")
        return {"module": modules[0].read_bytes(), "words": words_file.read_bytes(), "made": built.read_bytes()}


def not_built(known: KitCrate) -> list[str]:
    """The libraries below the crate that are not here."""
    return [it.name for it in known.below() if not (Path(it.rlib) / "format").is_file()]


def stale(known: KitCrate) -> list[str]:
    """The libraries below the crate that were built of other files. Libraries without a stamp fit only their own kind."""
    stamps = {it: Path(it.rlib).parent / "stamp" for it in known.below()}
    if not any(it.is_file() for it in stamps.values()):
        return []
    return [it.name for it, stamp in stamps.items() if not stamp.is_file() or stamp.read_text(encoding="utf-8") != it.stamp()]


def captured(rtlib: Kit, known: KitCrate) -> Path:
    """The folder of what was captured of a crate, now or before."""
    kept.folder().mkdir(parents=True, exist_ok=True)
    with (kept.folder() / f"lock-{known.name}").open("w") as lock:
        fcntl.flock(lock, fcntl.LOCK_EX)
        name = name_of(known)
        found = kept.find("captured", name)
        if found:
            return found
        built = build(rtlib, known)
        if not_built(known) or name_of(known) != name:
            raise NotCaptured(f"crates/{known.name}: it, or a library below it, changed meanwhile")
        return kept.keep("captured", name, built)


def capture(crate: str, module: Path, made: Path | None = None, is_just_proved: bool = False) -> None:
    """Writes the crate's module, the compiler's words beside it, and to `made` what the kit makes: an archive, or a program's object."""
    rtlib, known = kit_crate(TOP / "crates" / crate)
    unfit = not_built(known) or ([] if is_just_proved else stale(known))
    if unfit:
        raise NotBuilt(f"not built here of today's files: {', '.join(unfit)}")
    entry = captured(rtlib, known)
    shutil.copyfile(entry / "module", module)
    shutil.copyfile(entry / "words", module.with_suffix(".words"))
    if made is not None:
        shutil.copyfile(entry / "made", made)


def main() -> None:
    words = [it for it in sys.argv[1:] if it != "--just-proved"]
    if len(words) != 2 or words[0].startswith("-"):
        sys.exit(__doc__)
    crate, module = words[0], Path(words[1]).resolve()
    try:
        capture(crate, module, is_just_proved="--just-proved" in sys.argv)
    except NotCaptured as why:
        sys.exit(f"capture.py: {why}")
    print(f"{module}: {module.stat().st_size} bytes, of the libraries that stand in this checkout")


if __name__ == "__main__":
    main()
