"""The rows of the index of rules, read from the tree: conformance/rules.txt, docs/DEFINITIONS.md, tools/make/rule_places.txt, and the vectors,
definitions and functions that these name."""

import re
from dataclasses import dataclass, field
from functools import cache
from pathlib import Path

# The crates and the files of their src that have the laws of docs/DEFINITIONS.md.
LAWS = (("s360_laws", "run_laws.rt"), ("s360_laws", "laws.rt"))
# The parts of the index.
SUITE, DEFINITIONS, VOLUMES = "The rules of the suite", "The rules of the definitions", "The rules of volumes"
# What ends the definitions and laws of that page.
LAST = "## What no law says"

CODE = re.compile(r"`([A-Za-z_]\w*)`")
DEFINITION = re.compile(r"^(?:(?:abbrev|pub|record|data|unfoldable) )*([A-Za-z_]\w*)", re.M)
IMPL = re.compile(r"^impl\b(?:<[^{]*?>)? (?:.* for )?(\w+)")
FUNCTION = re.compile(r"^ *(?:pub(?:\(crate\))? )?(?:unsafe )?(?:extern \"C\" )?fn (\w+)")
ENSURED = r"fn {}\(\)\s+ensures {{ (\w+) }}"
MODULE = re.compile(r"\(`\w+\.antt`\): ")
BOLD = re.compile(r"\*\*(`.*?)\*\* ?(.*)")
SENTENCE = re.compile(r"(?<=[.!?]) (?=[A-Z*`])")


@dataclass(frozen=True)
class Place:
    """A definition in a module of a crate's `specs`, or a function in a file of its `src`."""

    crate: str
    file: str
    name: str


@dataclass
class Paragraph:
    """A paragraph of docs/DEFINITIONS.md: its words, and the names before it if it is about these."""

    text: str
    names: list[str]
    words: str


@dataclass
class Section:
    """A section of docs/DEFINITIONS.md."""

    heading: str
    paragraphs: list[Paragraph]

    def title(self) -> str:
        """Its heading without the modules after it."""
        return self.heading.split(" (")[0]


@dataclass
class Row:
    """A rule: of the suite or of volumes, with its name; a law, with the names that are before it; or a sentence of the definitions."""

    part: str
    section: str
    name: str = ""
    names: list[str] = field(default_factory=list)
    says: str = ""
    paragraph: str = ""
    # Of a rule of volumes its sources.
    manuals: list[str] = field(default_factory=list)
    words: list[str] = field(default_factory=list)
    defined: list[Place] = field(default_factory=list)
    done: list[Place] = field(default_factory=list)
    worked: list[tuple[str, str]] = field(default_factory=list)
    pinned_by: list[str] = field(default_factory=list)
    rules: list[str] = field(default_factory=list)
    vectors: list[str] = field(default_factory=list)

    @property
    def is_of_suite(self) -> bool:
        """Whether the suite has it."""
        return self.part == SUITE

    def title(self) -> str:
        """What it is called where something is wrong with it."""
        return self.name or " ".join(self.says.split()[:8])


class Tree:
    """The definitions and functions of the repository's crates."""

    def __init__(self, top: Path) -> None:
        self.top = top
        self.definitions_of = cache(self._definitions_of)
        self.functions_of = cache(self._functions_of)
        files = sorted(top.glob("crates/*/specs/*.antt"))
        self.modules = {path.stem for path in files}
        self.all = {name for path in files for name in self.definitions_of(path.parts[-3], path.stem)}

    def text(self, *path: str) -> str:
        """A file's text; nothing where there is none."""
        file = self.top.joinpath(*path)
        return file.read_text(encoding="utf-8") if file.is_file() else ""

    def _definitions_of(self, crate: str, module: str) -> set[str]:
        return set(DEFINITION.findall(self.text("crates", crate, "specs", f"{module}.antt")))

    def is_definition(self, name: str) -> bool:
        """Whether there is a definition of that name in any crate, and no module."""
        return name in self.all and name not in self.modules

    def _functions_of(self, crate: str, file: str) -> list[str]:
        """The functions of a file, those of a type with its name before them."""
        found, of = list[str](), ""
        for line in self.text("crates", crate, "src", file).splitlines():
            owner, names = IMPL.match(line), FUNCTION.findall(line)
            if owner or line.startswith("}"):
                of = f"{owner[1]}::" if owner else ""
            found += [of + name for name in names]
        return found

    def functions_named(self, place: Place) -> list[str]:
        """The functions of a file that a place may mean: `name` is one of any type or of none, `Type::name` that one."""
        functions = self.functions_of(place.crate, place.file)
        exact = [it for it in functions if it == place.name]
        return exact or [it for it in functions if it.split("::")[-1] == place.name]

    def law(self, crate: str, file: str, name: str) -> list[Place]:
        """The definition that a law of a file ensures."""
        ensured = re.search(ENSURED.format(name), self.text("crates", crate, "src", file))
        if not ensured:
            return []
        modules = sorted((self.top / "crates" / crate / "specs").glob("*.antt"))
        return [Place(crate, it.stem, ensured[1]) for it in modules if ensured[1] in self.definitions_of(crate, it.stem)][:1]


def law_words(names: str, rest: str) -> str:
    """What a paragraph says of the names before it, with what is between them on the page."""
    words = re.split(r" ?\*(?:For you|Not):\*", rest)[0]
    module = MODULE.match(words)
    if module or names.endswith("."):
        return ": " + words[module.end() if module else 0 :]
    return f" {words}"


def sections_of(page: str) -> list[Section]:
    """The sections of docs/DEFINITIONS.md that have definitions and laws."""
    found = []
    for part in re.split(r"^## ", page.partition(LAST)[0], flags=re.M)[1:]:
        heading, _, body = part.partition("\n")
        paragraphs = []
        for block in re.split(r"\n\n|\n(?=\d+\. )", body.strip()):
            text = re.sub(r"^\d+\. ", "", " ".join(block.split()))
            law = BOLD.match(text)
            names = CODE.findall(re.sub(r"`(\w+) [^`]*`", r"`\1`", law[1])) if law else []
            words = law_words(law[1], law[2]) if law else text.replace("**", "")
            if text:
                paragraphs.append(Paragraph(text, names, words))
        found.append(Section(heading.strip(), paragraphs))
    return found


class Index:
    """All rows, and what was wrong as they were read."""

    def __init__(self, top: Path) -> None:
        self.tree, self.wrong = Tree(top), list[str]()
        self.rows: list[Row] = []
        # Of each rule of the suite its words, and its lines `manual` and `profile`.
        self.said: dict[str, str] = {}
        self.sources: dict[str, list[tuple[str, str]]] = {}
        self._read_rules()
        self.sections = sections_of(self.tree.text("docs", "DEFINITIONS.md"))
        self._read_places()
        self.vectors = self._read_vectors()

    def _read_rules(self) -> None:
        name = ""
        for line in self.tree.text("conformance", "rules.txt").splitlines():
            word, _, rest = (it.strip() for it in line.strip().partition(" "))
            if word == "rule":
                name = rest
                self.sources[name] = []
            elif word == "says":
                self.said[name] = rest
            elif word in ("manual", "profile"):
                self.sources[name].append((word, rest))

    def _read_places(self) -> None:
        subject = ""
        for line in self.tree.text("tools", "make", "rule_places.txt").splitlines():
            word, _, rest = (it.strip() for it in line.strip().partition(" "))
            if not word or word == "#":
                continue
            if word == "subject":
                subject = rest
            elif word == "rule":
                self.rows.append(Row(SUITE, subject, rest, says=self.said.get(rest, "")))
                if rest not in self.said:
                    self.wrong.append(f"rule_places.txt: no rule {rest} in rules.txt")
            elif word == "volume":
                self.rows.append(Row(VOLUMES, subject, rest, words=[rest]))
            elif word in ("law", "says"):
                self.rows.append(self._law(rest) if word == "law" else self._sentence(rest))
            else:
                self._read_field(self.rows[-1], word, rest)
        order = {paragraph.text: place for place, paragraph in enumerate(it for section in self.sections for it in section.paragraphs)}
        self.rows.sort(key=lambda row: order.get(row.paragraph, -1))

    def _read_field(self, row: Row, word: str, rest: str) -> None:
        if word == "words":
            row.words += rest.split("; ")
        elif word == "text":
            row.says = rest
        elif word == "manual":
            row.manuals.append(rest)
        elif word == "rows":
            row.pinned_by += rest.split()
        elif word in ("rules", "vectors"):
            (row.rules if word == "rules" else row.vectors).extend(rest.split())
        elif word in ("defined", "done", "worked"):
            crate, *others = rest.split()
            if word == "worked":
                row.worked += [(crate, file) for file in others]
            else:
                (row.defined if word == "defined" else row.done).extend(Place(crate, others[0], name) for name in others[1:])
        else:
            self.wrong.append(f"rule_places.txt: no such word: {word}")

    def _law(self, name: str) -> Row:
        """The paragraph that begins with a name; of a law its definition is what its function ensures."""
        for section in self.sections:
            for paragraph in section.paragraphs:
                if paragraph.names and paragraph.names[0] == name:
                    row = Row(DEFINITIONS, section.title(), name, paragraph.names, paragraph.words, paragraph.text)
                    for crate, file in LAWS:
                        if f"crates/{crate}/src/{file}" in section.heading:
                            row.defined = [place for law in row.names for place in self.tree.law(crate, file, law)]
                            row.done = [Place(crate, file, law) for law in row.names]
                    return row
        self.wrong.append(f"rule_places.txt: no paragraph of docs/DEFINITIONS.md begins with {name}")
        return Row(DEFINITIONS, "", name)

    def _sentence(self, begin: str) -> Row:
        """The sentence that begins with some words."""
        for section in self.sections:
            for paragraph in section.paragraphs:
                for sentence in SENTENCE.split(paragraph.words):
                    if sentence.startswith(begin):
                        return Row(DEFINITIONS, section.title(), says=sentence, paragraph=paragraph.text)
        self.wrong.append(f"rule_places.txt: no sentence of docs/DEFINITIONS.md begins with {begin}")
        return Row(DEFINITIONS, "", says=begin)

    def _read_vectors(self) -> dict[str, list[tuple[str, str]]]:
        """Of each rule the file and the name of each vector that pins it; first those that name the fewest rules."""
        vectors: list[tuple[str, str, list[str]]] = []
        for path in sorted((self.tree.top / "conformance" / "vectors").glob("*.vectors")):
            for line in path.read_text(encoding="utf-8").splitlines():
                if line.startswith("vector "):
                    vectors.append((path.stem, line.split()[1], []))
                elif line.startswith("  rule "):
                    vectors[-1][2].append(line.split()[1])
        found: dict[str, list[tuple[str, str]]] = {}
        for file, name, rules in sorted(vectors, key=lambda it: len(it[2])):
            for rule in rules:
                found.setdefault(rule, []).append((file, name))
        return found
