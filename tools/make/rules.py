"""Writes docs/RULES.md, the index of rules: of each rule the topic of the manual, the definition that says it, the function that does it, and the
vectors that pin it.

    tools/run make/rules           writes the page
    tools/run make/rules --check   looks whether the page is what would be written

The suite's rules are in conformance/rules.txt, those of the definitions in docs/DEFINITIONS.md, those of volumes and where each rule is in
tools/make/rule_places.txt.
What is wrong is reported, with status 1: a definition, a function or a file that is not there, a rule without a place, a rule of the suite that no vector
pins, a file of worked vectors, a paragraph, a name or a module of docs/DEFINITIONS.md that no row has, and a law without a paragraph there.
"""

import re
import sys
from collections.abc import Iterator
from pathlib import Path

from tools import TOP
from tools.make.rule_page import link_to, page_of
from tools.make.rule_rows import CODE, DEFINITIONS, LAWS, VOLUMES, Index, Row

HEADINGS = re.compile(r"`([a-z0-9_]+) ([A-Z]\w*)`|`([A-Z]\w*)`")


def wrong_places(index: Index, row: Row) -> Iterator[str]:
    """What of a row's places is not there."""
    tree = index.tree
    for place in row.defined:
        if place.name not in tree.definitions_of(place.crate, place.file):
            yield f"{row.title()}: no definition {place.crate} {place.file}.{place.name}"
    for place in row.done:
        found = tree.functions_named(place)
        if not found:
            yield f"{row.title()}: no function {place.name} in crates/{place.crate}/src/{place.file}"
        elif len(found) > 1:
            yield f"{row.title()}: several functions {place.name} in crates/{place.crate}/src/{place.file}: {', '.join(found)}"
    for file in [*(f"crates/{crate}/src/{name}" for crate, name in row.worked), *row.pinned_by]:
        if not (tree.top / file).is_file():
            yield f"{row.title()}: no file {file}"
    for name in row.rules:
        if name not in index.sources:
            yield f"{row.title()}: no rule {name} in rules.txt"
    rules = [row.name] if row.is_of_suite else row.rules
    vectors = {name for rule in rules for _, name in index.vectors.get(rule, [])}
    for name in row.vectors:
        if name not in vectors:
            yield f"{row.title()}: no vector {name} of {', '.join(rules) or 'no rule'}"
    if not (row.defined and row.done):
        yield f"{row.title()}: no {'function' if row.defined else 'definition'}"


def wrong_rules(index: Index) -> Iterator[str]:
    """Rules of the suite that lack something."""
    placed = [row.name for row in index.rows if row.is_of_suite]
    for name in index.sources:
        if placed.count(name) != 1:
            yield f"the rule {name} has {placed.count(name) or 'no'} rows"
        if name not in index.vectors:
            yield f"{name}: no vector pins it"
    for name in index.vectors:
        if name not in index.sources:
            yield f"no rule {name} in rules.txt, which vectors name"


def wrong_volumes(index: Index) -> Iterator[str]:
    """Rules of volumes that lack something."""
    for row in index.rows:
        if row.part == VOLUMES and not (row.says and row.manuals and row.pinned_by):
            yield f"{row.title()}: no text, manual or rows"


def wrong_definitions(index: Index) -> Iterator[str]:
    """What of docs/DEFINITIONS.md no row has."""
    rows = [row for row in index.rows if row.part == DEFINITIONS]
    named = {place.name for row in rows for place in row.defined + row.done}
    modules = {(place.crate, place.file) for row in index.rows for place in row.defined}
    for section in index.sections:
        crate = ""
        for first, second, alone in HEADINGS.findall(section.heading):
            crate = first or crate
            if (crate, second or alone) not in modules:
                yield f"docs/DEFINITIONS.md: no row has a definition of {crate} {second or alone}"
        for paragraph in section.paragraphs:
            if not any(row.paragraph == paragraph.text for row in rows):
                yield f"docs/DEFINITIONS.md: no row of the paragraph that begins with {' '.join(paragraph.text.split()[:8])}"
            for name in dict.fromkeys(CODE.findall(paragraph.text)):
                if name not in named and (name in paragraph.names or index.tree.is_definition(name)):
                    yield f"docs/DEFINITIONS.md: no row has {name}"
    worked = {place for row in index.rows for place in row.worked}
    for path in sorted(index.tree.top.glob("crates/*_worked/src/*.rt")):
        if path.stem != "lib" and (path.parts[-3], path.name) not in worked:
            yield f"no row has {path.parts[-3]}/src/{path.name}"


def wrong_laws(index: Index) -> Iterator[str]:
    """Laws of which docs/DEFINITIONS.md does not speak."""
    spoken = {name for section in index.sections for paragraph in section.paragraphs for name in paragraph.names}
    for crate, file in LAWS:
        for name in index.tree.functions_of(crate, file):
            if name not in spoken:
                yield f"docs/DEFINITIONS.md: nothing of the law {name} of {crate}"


def wrong_headings(text: str) -> Iterator[str]:
    """Headings of the page to which no link leads, since an earlier one has the same place."""
    places = [link_to(heading) for heading in re.findall(r"^#+ (.*)$", text, re.M)]
    for place in dict.fromkeys(places):
        if places.count(place) > 1:
            yield f"docs/RULES.md: several headings at {place}"


def look_at(top: Path) -> tuple[int, list[str], str]:
    """How many rows there are, what is wrong with them, and the page's text."""
    index = Index(top)
    wrong = [*index.wrong, *(line for row in index.rows for line in wrong_places(index, row))]
    wrong += [*wrong_rules(index), *wrong_volumes(index), *wrong_definitions(index), *wrong_laws(index)]
    text = page_of(index)
    return len(index.rows), [*wrong, *wrong_headings(text)], text


def is_stale(top: Path, text: str) -> bool:
    """Whether the page is not this text."""
    page = top / "docs" / "RULES.md"
    return not page.is_file() or page.read_text(encoding="utf-8") != text


def main() -> int:
    """Writes the page, or looks at it."""
    if sys.argv[1:] not in ([], ["--check"]):
        sys.exit(__doc__)
    rows, wrong, text = look_at(TOP)
    if not sys.argv[1:]:
        (TOP / "docs" / "RULES.md").write_text(text, encoding="utf-8")
    elif is_stale(TOP, text):
        wrong.append("docs/RULES.md is not what tools/make/rules.py writes")
    for line in wrong:
        print(line)
    print(f"{rows} rows looked at, {len(wrong)} wrong")
    return 1 if wrong else 0


if __name__ == "__main__":
    sys.exit(main())
