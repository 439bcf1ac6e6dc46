"""Writes docs/ASSUMPTIONS.md: what the proofs rest on, and each crate that has functions without a clause about their result.

    tools/run make/assumptions [--check]

The head of the page is below; its table is counted from crates/, without the crates of tests, examples and measures. What covers the functions of a
crate is a line of tools/make/assumptions.txt. With --check it compares the page with what it would write. The status is 1 where they differ, or where a
crate has no line or needs none; tools/gate/check_measures.py keeps the count from growing.
"""

import re
import sys
from collections.abc import Iterator
from dataclasses import dataclass
from pathlib import Path

from tools import TOP

HEAD = """\
# What is assumed

Every function of every crate is proved safe and total: no overflow, no bad index, no endless loop. What a call does is proved where its contract says it. This page lists what the proofs rest on, and the functions that have no clause about their result.
`tools/run make/assumptions` writes it.

## Trusted

- **Rattle's toolchain**: checker, compilers, and the statements of its standard library and ported crates. After it assembler and linker.
- **Two C files of a release**, `heap.c` and `system.c`, in place of the kit's; the C library and the operating system.
- **The host's files**: that a read gives what the file holds, that a write changes those bytes alone, and what `fsync`, `rename`, `link` and `flock` promise. `host_files` and `file_journals` call them; `gate/fail_calls` lets each call fail.
- **The definitions**: that they are what the machine did. They cite the Principles of Operation and the component descriptions of 2841 and 2314, and claim nothing of an IBM machine where they say *(profile)*.
- **Memory**: a call may answer that there is none. The kit's allocator has no ghost, so no clause says that memory was refused when a call says so, nor that memory is found while there is some. Tests refuse each taking in turn.

## Functions without a clause

"""
# Crates of tests, examples and measures.
BESIDE = {"bench", "channel_example", "drive_example", "stage_drives", "stage_files", "test_stage"}
# Traits of the kit whose methods have clauses of their own.
OF_THE_KIT = {"Clone", "Copy", "PartialEq", "Eq", "Drop", "Flags", "Iterator", "Read"}
FUNCTION = re.compile(r"(?m)^( *)((?:pub(?:\([a-z]+\))? |unsafe |const |extern \"C\" )*)fn (\w+)")
BLOCK = re.compile(r"(?ms)^(?:pub(?:\([a-z]+\))? )?(impl|trait)\b(.*?)\{$(.*?)^\}")


@dataclass(frozen=True)
class Function:
    """A function: where it is, whether others see it, its lines, and whether a clause says something of its result."""

    where: str
    is_public: bool
    lines: int
    has_clause: bool


def without_comments(text: str) -> str:
    """Code with blanks for its comments."""
    return re.sub(r"//[^\n]*", lambda it: " " * len(it[0]), text)


def end_of(code: str, indent: str, at: int) -> tuple[int, int]:
    """Where the head of the function at this place ends, and where all of it does."""
    body = re.compile(rf"(?m)^{indent}\{{.*$|\{{$|;$").search(code, at)
    if body is None or code[body.end() - 1] == ";" or body[0].rstrip().endswith("}"):
        ends = body.end() if body else len(code)
        return ends, ends
    return body.start(), code.find(f"\n{indent}}}", body.end()) + len(indent) + 2


def trait_of(header: str) -> str | None:
    """The trait that a block implements."""
    found = re.search(r"^(?:<.*?>)?\s+([\w:]+)(?:<.*?>)?\s+for\b", header)
    return found[1].split("::")[-1] if found else None


def traits_with_clauses() -> set[str]:
    """The traits whose methods have clauses: the kit's, and those of the crates."""
    texts = [without_comments(it.read_text(encoding="utf-8")) for it in TOP.glob("crates/*/src/**/*.rt")]
    blocks = [it for text in texts for it in BLOCK.finditer(text) if it[1] == "trait" and re.search(r"\bensures\b", it[3])]
    return OF_THE_KIT | {found[0] for it in blocks if (found := re.findall(r"\w+", it[2]))}


def functions_in(path: Path, traits: set[str]) -> Iterator[Function]:
    """The functions of a file, but those of tests."""
    code = without_comments(path.read_text(encoding="utf-8"))
    inherits = [
        it.span() for it in BLOCK.finditer(code) if (name := trait_of(it[2])) and (name in traits or re.search(r"(?m)^    ghost (?!use)", it[3]))
    ]
    for it in FUNCTION.finditer(code):
        head, ends = end_of(code, it[1], it.end())
        attributes = code[code.rfind("\n\n", 0, it.start()) + 1 : it.start()]
        if "#[test]" in attributes.split("}")[-1]:
            continue
        yield Function(
            where=f"{path.relative_to(TOP)}:{code.count(chr(10), 0, it.start()) + 1} {it[3]}",
            is_public=it[2].startswith("pub ") or "no_mangle" in attributes.split("}")[-1],
            lines=code.count("\n", it.start(), ends) + 1,
            has_clause=bool(re.search(r"(?m)^\s+ensures\b", code[it.end() : head])) or any(a <= it.start() < b for a, b in inherits),
        )


def functions_of_crates() -> dict[str, list[Function]]:
    """The functions of each crate of the product."""
    traits = traits_with_clauses()
    crates = sorted(it for it in TOP.glob("crates/*") if (it / "src").is_dir() and it.name not in BESIDE)
    return {it.name: [of for path in sorted(it.glob("src/**/*.rt")) for of in functions_in(path, traits)] for it in crates}


def bare(functions: list[Function]) -> list[Function]:
    """Those without a clause."""
    return [it for it in functions if not it.has_clause]


def covers() -> dict[str, str]:
    """What covers the functions of a crate, by tools/make/assumptions.txt."""
    lines = (TOP / "tools/make/assumptions.txt").read_text(encoding="utf-8").splitlines()
    return dict(line.split(": ", 1) for line in lines if line and not line.startswith("#"))


def page_of(known: dict[str, list[Function]], covered: dict[str, str]) -> str:
    """The page."""
    there = {name: bare(functions) for name, functions in known.items() if bare(functions)}
    count, all_of = sum(map(len, there.values())), sum(map(len, known.values()))
    public = sum(it.is_public for functions in there.values() for it in functions)
    rows = [
        f"| [`{name}`](../crates/{name}/README.md) | {len(known[name])} | {len(functions)} | {sum(it.is_public for it in functions)} "
        f"| {sum(it.lines for it in functions)} | {covered.get(name, '')} |"
        for name, functions in sorted(there.items(), key=lambda it: -len(it[1]))
    ]
    said = f"{count} of {all_of:,} functions, {public} of them public; crates of tests, examples and measures are left out.\n"
    table = ["| Crate | Functions | Without a clause | Public | Their lines | What covers them |", "|---|---|---|---|---|---|", *rows]
    return HEAD + said + "\n" + "\n".join(table) + "\n"


def main() -> int:
    """Writes the page, or looks at it."""
    if sys.argv[1:] not in ([], ["--check"]):
        sys.exit(__doc__)
    known, covered, page = functions_of_crates(), covers(), TOP / "docs/ASSUMPTIONS.md"
    needed = {name for name, functions in known.items() if bare(functions)}
    wrong = [f"tools/make/assumptions.txt: no line of {name}" for name in sorted(needed - covered.keys())]
    wrong += [f"tools/make/assumptions.txt: {name} needs no line" for name in sorted(covered.keys() - needed)]
    text = page_of(known, covered)
    if not sys.argv[1:]:
        page.write_text(text, encoding="utf-8")
    elif not page.is_file() or page.read_text(encoding="utf-8") != text:
        wrong.append("docs/ASSUMPTIONS.md is not what tools/run make/assumptions writes")
    print(*wrong, f"{len(known)} crates looked at, {len(wrong)} wrong", sep="\n")
    return 1 if wrong else 0


if __name__ == "__main__":
    sys.exit(main())
