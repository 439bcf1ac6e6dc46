"""The page of the index of rules, of its rows."""

import re
from itertools import groupby

from tools.make.rule_rows import DEFINITIONS, SUITE, VOLUMES, Index, Place, Row

HEAD = """# The index of rules

Look for a word in the list from A to Z, or go to the subject. Each rule of the [conformance suite](CONFORMANCE.md), of
[the definitions](DEFINITIONS.md) and of [volumes](LABELS.md) has

- its topic in the manual. *PoO* is *IBM System/360 Principles of Operation*, GA22-6821. *2841 and 2314* are the component descriptions GA26-5988 and
  GA26-3599. *profile* is a choice of this project, listed in [FORMAT.md](../conformance/FORMAT.md)
- its definition: crate, module and name
- the function that does it, whose contract uses the definition or one made of it, and for a law also the function that states it
- at most three vectors that pin it, with their files ([all vectors](#the-vectors-of-each-rule)). *By hand* is a file of vectors that were worked out
  by hand and are computed over the definitions only, *rows* a file of tests of the program

`tools/make/rules.py` writes this page.

## Subjects

"""
ALL = "The vectors of each rule"
MANUALS = ("Principles of Operation", "2841 and 2314")
# How many vectors a row shows.
SHOWN = 3


def link_to(heading: str) -> str:
    """A link to a heading of the page."""
    return "#" + re.sub(r"[^\w\- ]", "", heading.lower()).replace(" ", "-")


def topics_of(source: str) -> list[tuple[str, str]]:
    """The manuals and topics of a line `manual`."""
    found, manual = [], ""
    for part in source.split("; "):
        first, _, rest = part.partition(", ")
        if first in MANUALS:
            manual, part = first, rest
        found.append((manual, part))
    return found


class Page:
    """What makes the page's parts of its rows."""

    def __init__(self, index: Index) -> None:
        self.index = index
        self.sections = {row.name: row.section for row in index.rows if row.is_of_suite}

    def topics(self, row: Row) -> str:
        """The topics of a rule's manuals; those of a definition are those of the rules that it is about."""
        if row.part == VOLUMES:
            return "; ".join(row.manuals)
        by_manual: dict[str, list[str]] = {}
        for rule in [row.name] if row.is_of_suite else row.rules:
            for kind, source in self.index.sources.get(rule, []):
                for manual, topic in [("*profile*", f"`{source}`")] if kind == "profile" else topics_of(source):
                    topics = by_manual.setdefault(manual.replace("Principles of Operation", "PoO"), [])
                    if topic not in topics:
                        topics.append(topic)
        return "; ".join(f"{manual}, {'; '.join(topics)}" for manual, topics in by_manual.items()) or "none"

    def definitions(self, places: list[Place]) -> str:
        """The definitions of a row, each with a link."""
        return ", ".join(f"[`{it.crate} {it.file}.{it.name}`](../crates/{it.crate}/specs/{it.file}.antt)" for it in places)

    def functions(self, places: list[Place]) -> str:
        """The functions of a row, each with a link."""
        parts = []
        for place in places:
            module = "" if place.file == "lib.rt" else place.file.removesuffix(".rt").replace("/", "::") + "::"
            name = (self.index.tree.functions_named(place) or [place.name])[0]
            parts.append(f"[`{place.crate}::{module}{name}`](../crates/{place.crate}/src/{place.file})")
        return ", ".join(parts)

    def vectors(self, row: Row) -> str:
        """Some vectors of a rule of the suite, or those that show a sentence or a law."""
        parts = []
        if row.is_of_suite:
            order = {name: place for place, name in enumerate(row.vectors)}
            pinned = sorted(self.index.vectors.get(row.name, []), key=lambda it: order.get(it[1], len(order)))
            shown = ", ".join(f"{name} ({file})" for file, name in pinned[:SHOWN])
            parts.append(f"{len(pinned)}: {shown}" + (f", .. [all]({link_to(ALL)})" if len(pinned) > SHOWN else ""))
        else:
            found = {name: file for rule in row.rules for file, name in self.index.vectors.get(rule, [])}
            first = [name for rule in row.rules for _, name in self.index.vectors.get(rule, [])[:1]]
            parts += [", ".join(f"{name} ({found.get(name, '')})" for name in row.vectors or first)] if row.rules else []
            parts += ["of " + ", ".join(f"[{rule}]({link_to(self.sections.get(rule, ''))})" for rule in row.rules)] if row.rules else []
        if row.worked:
            links = ", ".join(f"[`{crate}::{file.removesuffix('.rt')}`](../crates/{crate}/src/{file})" for crate, file in row.worked)
            parts.append(f"by hand: {links}")
        if row.pinned_by:
            parts.append(("" if row.part == VOLUMES else "rows: ") + ", ".join(f"[`{file}`](../{file})" for file in row.pinned_by))
        return "; ".join(parts) or "none"

    def entry(self, row: Row) -> str:
        """A rule with its places, a line each."""
        says = f"**{row.name}**: {row.says}" if row.part != DEFINITIONS else ", ".join(f"**`{name}`**" for name in row.names) + row.says
        places = {"Topic": self.topics(row), "Definition": self.definitions(row.defined), "Function": self.functions(row.done)}
        places["Rows" if row.part == VOLUMES else "Vectors"] = self.vectors(row)
        return f"- {says}\n" + "".join(f"  - {kind}: {place}\n" for kind, place in places.items())

    def entries(self, part: str) -> str:
        """All subjects of a part's rules, with their rules."""
        rows = [row for row in self.index.rows if row.part == part]
        parts = []
        for section, found in groupby(rows, lambda row: row.section):
            parts.append(f"### {section}\n\n{''.join(map(self.entry, found))}")
        return "\n".join(parts)

    def subjects(self) -> str:
        """The list of subjects."""
        lines = []
        for title in (SUITE, DEFINITIONS, VOLUMES):
            sections = dict.fromkeys(row.section for row in self.index.rows if row.part == title)
            links = "; ".join(f"[{section}]({link_to(section)})" for section in sections)
            lines.append(f"- [{title}]({link_to(title)}): {links}\n")
        return "".join(lines)

    def words(self) -> str:
        """The list of words from A to Z, each with the rows to look at. A topic and a word that differ only in capitals are one."""
        found: dict[str, tuple[str, dict[str, None]]] = {}
        for row in self.index.rows:
            sources = self.index.sources.get(row.name, []) if row.is_of_suite else []
            topics = [topic for kind, source in sources if kind == "manual" for _, topic in topics_of(source)]
            for word in topics + row.words:
                _, links = found.setdefault(word.lower(), (word, {}))
                links[f"[{row.name or row.section}]({link_to(row.section)})"] = None
        lines = []
        for letter, words in groupby(sorted(found), lambda word: word[0].upper()):
            lines.append(f"- **{letter}**\n")
            lines += [f"  - {found[word][0]}: {', '.join(found[word][1])}\n" for word in words]
        return "".join(lines)

    def all_vectors(self) -> str:
        """The names of all vectors of each rule, by their files."""
        lines = []
        for rule, pinned in sorted(self.index.vectors.items()):
            files = groupby(sorted(pinned, key=lambda it: it[0]), lambda it: it[0])
            parts = [f"[{file}](../conformance/vectors/{file}.vectors): {', '.join(name for _, name in names)}" for file, names in files]
            lines.append(f"- **{rule}**, {len(pinned)}: {'; '.join(parts)}\n")
        return "".join(lines)


def page_of(index: Index) -> str:
    """The page's text."""
    page = Page(index)
    suite, volumes = (sum(row.part == part for row in index.rows) for part in (SUITE, VOLUMES))
    vectors = {vector for pinned in index.vectors.values() for vector in pinned}
    parts = [HEAD, page.subjects(), "\n## From A to Z\n\n", page.words()]
    parts += [f"\n## {SUITE}\n\n", page.entries(SUITE), f"\n## {DEFINITIONS}\n\n"]
    parts += ["The words are those of [DEFINITIONS.md](DEFINITIONS.md), which also says of each law what it gives you and what it does not say. ",
              "The topics and the vectors are those of the suite's rules that the rule is about.\n\n", page.entries(DEFINITIONS)]
    parts += [f"\n## {VOLUMES}\n\n", page.entries(VOLUMES)] if volumes else []
    parts += [f"\n## {ALL}\n\n", page.all_vectors()]
    definitions = len(index.rows) - suite - volumes
    parts.append(f"\n{suite} rules of the suite, {definitions} of the definitions, {volumes} of volumes, {len(vectors)} vectors.\n")
    return "".join(parts)
