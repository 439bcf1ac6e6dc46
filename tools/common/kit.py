"""The kit with which this repository is checked: where it is, and the module by which its `rt` knows crates."""

import functools
import importlib.machinery
import importlib.util
import subprocess
import sys
from collections.abc import Iterable
from pathlib import Path
from typing import Protocol, cast

from tools import TOP

# A clang that keeps each module that it is given, and its words without names of files, and then is the kit's.
KEEPING = """#!/bin/sh
for word; do
    case $word in
    *.bc) cp "$word" "{kept}/$$.bc" ;;
    /* | *.o | *.a | --sysroot=*) ;;
    *) printf '%s\\n' "$word" >> "{kept}/$$.words" ;;
    esac
done
exec "{clang}" "$@"
"""


class KitCrate(Protocol):
    """What is used here of a crate as the kit knows it."""

    name: str
    rlib: str
    of_kit: list[str]

    def below(self) -> list["KitCrate"]:
        """The crates below it."""

    def words(self, options: list[str]) -> list[str]:
        """The words with which it is checked."""

    def call(self, program: str, verb: str, *words: str) -> int:
        """Runs a program of the kit in its folder; the status."""

    def stamp(self) -> str:
        """A sum of all that it is made of."""

    def sources_below(self) -> list[str]:
        """The words for the sources of the crates below it."""


class Kit(Protocol):
    """What is used here of the module by which `rt` knows crates."""

    RATTLE: str

    def kit_sources(self, names: Iterable[str]) -> list[str]:
        """The words for the sources of the kit's own crates."""


@functools.cache
def kit() -> Path:
    """The folder of the kit: `rt doc` names a page in it."""
    page = subprocess.run(["rt", "doc"], check=True, capture_output=True, text=True).stdout.strip()
    return Path(page).parent


def kit_crate(folder: Path, top: Path = TOP) -> tuple[Kit, KitCrate]:
    """The module of `rt` that knows crates, and the crate of this folder as it sees it, in the repository whose top this is."""
    loader = importlib.machinery.SourceFileLoader("rtlib", str(kit() / "bin" / "rtlib.py"))
    spec = importlib.util.spec_from_loader("rtlib", loader)
    assert spec is not None
    rtlib = importlib.util.module_from_spec(spec)
    sys.modules["rtlib"] = rtlib
    # the module reads the words of its program, and would leave its compiled form in the kit
    words, sys.argv, sys.dont_write_bytecode = sys.argv, ["rt"], True
    try:
        loader.exec_module(rtlib)
    finally:
        sys.argv = words
    # the kit's own asks each library below once for each way that leads to it
    rtlib.Crate.stamp = functools.cache(rtlib.Crate.stamp)
    crate: KitCrate = rtlib.Crate(str(folder), str(top), {}, name=None)
    return cast(Kit, rtlib), crate


def keeping_tools(room: Path) -> tuple[Path, Path]:
    """The kit's tools in a folder of their own, with a clang that keeps each module that it is given; and where it keeps them."""
    own, tools, kept = kit() / "toolchain", room / "toolchain", room / "kept"
    (tools / "bin").mkdir(parents=True)
    kept.mkdir()
    for folder, into in ((own, tools), (own / "bin", tools / "bin")):
        for it in folder.iterdir():
            if it.name not in ("bin", "clang"):
                (into / it.name).symlink_to(it)
    clang = tools / "bin" / "clang"
    clang.write_text(KEEPING.format(kept=kept, clang=own / "bin" / "clang"), encoding="utf-8")
    clang.chmod(0o755)
    return tools, kept
