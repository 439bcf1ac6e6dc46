"""A tree of a release in which short texts stand in for the compiled code, so that neither the kit nor a module is wanted."""

import hashlib
import re
import shutil
from pathlib import Path

TOP = Path(__file__).resolve().parent.parent.parent
CALLS = {"x86_64": "call rattle_alloc@PLT\n\tret", "aarch64": "b rattle_alloc"}
MAIN = {"x86_64": "xorl %eax, %eax\n\tret", "aarch64": "mov w0, #0\n\tret"}
HEADERS = {"libdasd": "dasd.h", "libdasd_drive": "dasd_drive.h"}


def replaced(path: Path, old: str, new: str) -> None:
    """Plants a fault where the old text is once."""
    text = path.read_text(encoding="utf-8")
    assert text.count(old) == 1, f"{path.name} has {text.count(old)} times: {old}"
    path.write_text(text.replace(old, new), encoding="utf-8")


def function(name: str, body: str) -> str:
    """A function in assembly."""
    return f"\t.globl {name}\n\t.type {name}, %function\n{name}:\n\t{body}\n\t.size {name}, .-{name}\n"


def text_of(names: list[str], body: str) -> str:
    """Assembly with these functions."""
    return "\t.text\n" + "".join(function(it, body) for it in names) + '\t.section ".note.GNU-stack","",%progbits\n'


def calls_of(header: str) -> list[str]:
    """The calls of a header."""
    return re.findall(r"(?m)^u?int32_t (dasd_\w+)\(", (TOP / "c" / header).read_text(encoding="utf-8"))


def sum_up(tree: Path) -> None:
    """Writes the sums of the compiled code."""
    lines = [f"{hashlib.sha256(it.read_bytes()).hexdigest()}  {it.name}\n" for it in sorted((tree / "compiled").glob("*.s"))]
    (tree / "release" / "compiled.sha256").write_text("".join(lines), encoding="utf-8")


def lay_out(tree: Path) -> None:
    """Lays the tree out: what builds, tests and packs of the repository, and the texts: each call takes memory, the program does nothing."""
    for name in ("python", "rust", "c", "catalogue", "tools/build", "completions"):
        shutil.copytree(TOP / name, tree / name, ignore=shutil.ignore_patterns("__pycache__", "target", ".mypy_cache", "out"))
    (tree / "release").mkdir()
    (tree / "compiled").mkdir()
    for name in ("Makefile", "VERSION", "LICENSE", "THIRD_PARTY.LGPL-2.1"):
        shutil.copy(TOP / name, tree / name)
    for name in ("THIRD_PARTY", "PROVED.txt"):
        (tree / name).write_text("a stand-in\n", encoding="utf-8")
    for machine, body in CALLS.items():
        for name, header in HEADERS.items():
            (tree / f"compiled/{name}-{machine}.s").write_text(text_of(calls_of(header), body), encoding="utf-8")
        (tree / f"compiled/dasd-{machine}.s").write_text(text_of(["main"], MAIN[machine]), encoding="utf-8")
    make_page = tree / "web" / "make_page"
    make_page.parent.mkdir()
    make_page.write_text("#!/bin/sh\necho '<!--GIVEN-->' > \"$1\"\n", encoding="utf-8")
    make_page.chmod(0o755)
    (tree / "compiled" / "ORIGIN").write_text("Toolchain none\nCrates    none\n", encoding="utf-8")
    sum_up(tree)
