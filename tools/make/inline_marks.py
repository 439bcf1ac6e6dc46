"""The marks `#[inline]` of the crates' sources, put into the text of a module of LLVM that has none."""

import re
from collections.abc import Iterator
from pathlib import Path

MARKS = {"always": "alwaysinline", "never": "noinline", "": "inlinehint"}
MARK = re.compile(r"#\[inline(?:\((\w+)\))?\]")
FUNCTION = re.compile(r"(?:pub(?:\([\w ]+\))? )?(?:const )?(?:unsafe )?(?:extern \"C\" )?fn (\w+)")
DEFINED = re.compile(r'define internal [^@]*@"([^"]+)"\(')
# A function by its crate, its module and its name.
Place = tuple[str, str, str]


def module_of(source: Path, folder: Path) -> str:
    """The module that a file holds, as its path says; nothing for the root."""
    parts = source.relative_to(folder).with_suffix("").parts
    named = parts[:-1] if parts[-1] in ("lib", "main", "mod") else parts
    return "::".join(named)


def marked_in(text: str) -> Iterator[tuple[str, str]]:
    """The functions of a source that have a mark, each with LLVM's word for it."""
    mark = ""
    for line in map(str.strip, text.splitlines()):
        if found := MARK.match(line):
            mark = MARKS[found[1] or ""]
        elif not line.startswith(("//", "#[")) and (found := FUNCTION.match(line)):
            if mark:
                yield found[1], mark
            mark = ""


def marks_of(crates: Path) -> dict[Place, str]:
    """The marks of all crates in a folder."""
    sources = [(it, it.parents[len(it.relative_to(crates).parts) - 3]) for it in crates.glob("*/src/**/*.rt")]
    return {
        (folder.parent.name, module_of(source, folder), name): mark
        for source, folder in sources
        for name, mark in marked_in(source.read_text(encoding="utf-8"))
    }


def mark_of(symbol: str, marks: dict[Place, str]) -> str | None:
    """The mark of a function by its name in a module: one of a module or of a type in one; or the only one of its name that a type of the crate has."""
    crate, *modules, name = re.sub(r"::<.*$", "", symbol).split("::")
    places = [(crate, "::".join(modules[:most]), name) for most in range(len(modules), max(len(modules) - 3, -1), -1)]
    for place in places:
        if place in marks:
            return marks[place]
    named = [mark for place, mark in marks.items() if (place[0], place[2]) == (crate, name)]
    return named[0] if len(named) == 1 and modules and modules[-1][:1].isupper() else None


def with_mark(line: str, marks: dict[Place, str]) -> str:
    """A line of a module, with the mark of the function that it defines."""
    found = DEFINED.match(line)
    mark = mark_of(found[1], marks) if found else None
    return re.sub(r" #0 \{", f" {mark} #0 {{", line) if mark else line
