"""Writes the tables of docs/MAP.md: each crate of crates.txt, by part and group, with the first sentence of its README.

    tools/run make/map [--check]

The rest of the page is written by hand. A part's tables are between `<!-- PART: begin -->` and `<!-- PART: end -->`. With --check it compares the
page with what it would write; the status is 1 where they differ, where a part has no such place, or where a README has no first sentence.
"""

import re
import sys
from collections.abc import Iterator

from tools import TOP
from tools.gate.check_crates import PARTS, Crate, crates_of

LINK = re.compile(r"\[([^\]]*)\]\([^)]*\)")
SENTENCE = re.compile(r"# `\w+`\n\n((?:.|\n(?!\n))+?)\.(?=\s)")


def first_sentence(readme: str) -> str | None:
    """What a crate is, by its README, without the full stop."""
    found = SENTENCE.match(readme)
    return " ".join(LINK.sub(r"\1", found[1]).split()) if found else None


def table_of(crates: list[Crate], said: dict[str, str]) -> Iterator[str]:
    """The lines of the tables of some crates, a table for each group."""
    group = ""
    for crate in crates:
        if crate.group != group:
            group = crate.group
            yield from ("", f"**{group}**", "", "| Crate | Is |", "|---|---|")
        yield f"| [`{crate.name}`](../crates/{crate.name}/README.md) | {said[crate.name]} |"


def page_of(page: str, crates: list[Crate], said: dict[str, str]) -> str | None:
    """The page with new tables, or nothing where a part has no place in it."""
    for part in PARTS:
        begin, end = f"<!-- {part}: begin -->", f"<!-- {part}: end -->"
        if page.count(begin) != 1 or page.count(end) != 1:
            return None
        table = "\n".join(table_of([it for it in crates if it.part == part], said))
        page = page[: page.index(begin)] + begin + "\n" + table + "\n\n" + page[page.index(end) :]
    return page


def main() -> int:
    """Writes the page, or looks at it."""
    if sys.argv[1:] not in ([], ["--check"]):
        sys.exit(__doc__)
    crates = list(crates_of((TOP / "crates.txt").read_text(encoding="utf-8")))
    found = {it.name: first_sentence((TOP / "crates" / it.name / "README.md").read_text(encoding="utf-8")) for it in crates}
    wrong = [f"crates/{name}/README.md: no first sentence" for name, says in found.items() if not says]
    path = TOP / "docs/MAP.md"
    old = path.read_text(encoding="utf-8")
    new = page_of(old, crates, {name: says or "" for name, says in found.items()})
    if new is None:
        wrong.append("docs/MAP.md: a part of crates.txt has no place")
    elif not sys.argv[1:]:
        path.write_text(new, encoding="utf-8")
    elif new != old:
        wrong.append("docs/MAP.md is not what tools/run make/map writes")
    print(*wrong, f"{len(crates)} crates looked at, {len(wrong)} wrong", sep="\n")
    return 1 if wrong else 0


if __name__ == "__main__":
    sys.exit(main())
