"""What c/interface.toml says: the items of each header, in their order, with the layout of each struct."""

import re
from dataclasses import dataclass
from pathlib import Path
from typing import Any, ClassVar

import tomllib  # pylint 2.16 takes it for none of Python's own

SIZES = {"uint8_t": 1, "uint16_t": 2, "uint32_t": 4, "uint64_t": 8, "int32_t": 4, "size_t": 8, "char": 1}
POINTER = 8
DECLARED = re.compile(r"(.*?[ *])(\w+)(?:\[(\d+)\])?$")


class TableFault(Exception):
    """What is wrong with the table."""


Row = dict[str, Any]


def sentence_of(text: str) -> str:
    """The first sentence of a text, on one line."""
    whole = " ".join(text.split())
    return re.split(r"(?<=[.]) (?=[A-Z`])", whole)[0]


@dataclass(frozen=True)
class Item:
    """What is in a header: its comment, and whether an empty line is before it."""

    text: str
    apart: bool
    kind: ClassVar[str] = ""


@dataclass(frozen=True)
class Section(Item):
    """A heading."""

    title: str
    kind: ClassVar[str] = "section"


@dataclass(frozen=True)
class Code(Item):
    """What is C alone: a macro, or a function of the header itself."""

    body: str
    kind: ClassVar[str] = "code"


@dataclass(frozen=True)
class Define(Item):
    """A macro, and its number where it is one."""

    body: str
    kind: ClassVar[str] = "define"

    @property
    def name(self) -> str:
        return self.body.split(" ")[0]

    @property
    def number(self) -> int | None:
        """Its number; None of what is none."""
        found = re.fullmatch(r"\w+ (\d+)u?", self.body)
        return int(found[1]) if found else None


@dataclass(frozen=True)
class Value:
    """A value of an enumeration, or, without a name, a comment among them."""

    name: str
    number: int
    text: str


@dataclass(frozen=True)
class Enum(Item):
    """An enumeration."""

    name: str
    faults: bool
    rows: tuple[Value, ...]
    kind: ClassVar[str] = "enum"

    @property
    def values(self) -> tuple[Value, ...]:
        return tuple(it for it in self.rows if it.name)


@dataclass(frozen=True)
class Named:
    """A parameter or a field: its type for C, its name, how many where it is an array, and what it is."""

    type: str
    name: str
    count: int = 0
    text: str = ""

    @property
    def size(self) -> int:
        """How many bytes one of it has."""
        return POINTER if "*" in self.type else SIZES[self.type]


@dataclass(frozen=True)
class Struct(Item):
    """A struct; `lines` are its declarations and their comments, as C has them."""

    name: str
    lines: tuple[tuple[str, str], ...]
    fields: tuple[Named, ...]
    size: int
    rattle: str
    python: str
    nothing: tuple[str, str] = ("", "")
    kind: ClassVar[str] = "struct"

    @property
    def is_handle(self) -> bool:
        return bool(self.nothing[0])

    @property
    def has_pointers(self) -> bool:
        return any("*" in it.type for it in self.fields)

    @property
    def says(self) -> str:
        return sentence_of(self.text)

    @property
    def layout(self) -> list[tuple[Named, int]]:
        """Each field, and where it lies."""
        at, placed = 0, []
        for field in self.fields:
            at += -at % field.size
            placed.append((field, at))
            at += field.size * (field.count or 1)
        return placed


@dataclass(frozen=True)
class Call(Item):
    """A function that the library exports."""

    declaration: str
    result: str
    name: str
    parameters: tuple[Named, ...]
    doc: str
    sized: str
    plain: str
    since: str
    kind: ClassVar[str] = "call"

    @property
    def short(self) -> str:
        return self.name.removeprefix("dasd_")

    @property
    def numbers(self) -> tuple[Named, ...]:
        """What it is given after its handle."""
        return self.parameters[1:]


@dataclass(frozen=True)
class Header:
    """A header: its items, by what they are."""

    items: tuple[Item, ...]

    @property
    def calls(self) -> list[Call]:
        return [it for it in self.items if isinstance(it, Call)]

    @property
    def plain(self) -> list[Call]:
        """The calls for which other languages have a method that is made of the table."""
        return [it for it in self.calls if it.plain]

    @property
    def structs(self) -> list[Struct]:
        return [it for it in self.items if isinstance(it, Struct)]

    @property
    def enums(self) -> list[Enum]:
        return [it for it in self.items if isinstance(it, Enum)]

    @property
    def defines(self) -> list[Define]:
        return [it for it in self.items if isinstance(it, Define)]

    @property
    def names(self) -> list[str]:
        """What its calls, structs, macros and values are named."""
        of_items = [*(it.name for it in self.calls), *(it.name for it in self.structs), *(it.name for it in self.defines)]
        return of_items + [it.name for enum in self.enums for it in enum.values]

    @property
    def faults(self) -> list[Value]:
        """The faults, without that number which says that there is none."""
        return [value for it in self.enums if it.faults for value in it.values if value.number]


@dataclass(frozen=True)
class Interface:
    """The table."""

    number: int
    since: str
    models: list[Row]
    limits: list[Row]
    library: Header
    drive: Header


def declared(text: str) -> Named:
    """A parameter or a field as C declares it."""
    found = DECLARED.match(text)
    if not found:
        raise TableFault(f"no declaration: {text}")
    kind = found[1].rstrip()
    if "*" not in kind and kind not in SIZES:
        raise TableFault(f"no type that is known here: {text}")
    return Named(kind, found[2], int(found[3] or 0))


def fields_of(row: list[str]) -> list[Named]:
    """The fields of a line of a struct, which may have several names of one type."""
    first, *names = row[0].split(", ")
    one = declared(first)
    said = row[2:] or row[1:2] or [""]
    every = [one.name, *names]
    texts = said if len(said) == len(every) else said * len(every)
    return [Named(one.type, name, one.count, text) for name, text in zip(every, texts)]


def struct_of(row: Row, common: tuple[str, bool]) -> Struct:
    """A struct, or a handle, whose fields are the library's."""
    is_handle = "handle" in row
    name = row.pop("handle", None) or row.pop("struct")
    rows = [["uint64_t stamp", "", "the library's"], ["void *place", "", "the library's"]] if is_handle else row.pop("fields")
    macro, holds = row.pop("nothing", ("", ""))
    made = Struct(
        *common,
        name=name,
        lines=tuple((f"{it[0]};", it[1] if len(it) > 1 else "") for it in rows),
        fields=tuple(field for it in rows for field in fields_of(it)),
        size=16 if is_handle else row.pop("size"),
        rattle=row.pop("rattle", ""),
        python=row.pop("python", name.removeprefix("dasd_").title().replace("_", "")),
        nothing=(macro, holds),
    )
    last, at = made.layout[-1]
    end = at + last.size * (last.count or 1)
    size = end + -end % max(it.size for it in made.fields)
    if size != made.size:
        raise TableFault(f"{name} has {size} bytes, and not {made.size}")
    return made


def call_of(row: Row, common: tuple[str, bool], since: str) -> Call:
    """A call of its declaration."""
    whole = row.pop("call")
    found = re.fullmatch(r"(\w+) (\w+)\((.*)\)", whole)
    if not found:
        raise TableFault(f"no call: {whole}")
    parameters = () if found[3] == "void" else tuple(declared(it) for it in found[3].split(", "))
    doc = row.pop("says", "") or common[0]
    if not doc:
        raise TableFault(f"{found[2]} says nothing")
    plain = row.pop("plain", "")
    if plain not in ("", "nothing", "number") or (plain and any("*" in it.type for it in parameters[1:])):
        raise TableFault(f"{found[2]} is not plain")
    return Call(*common, whole, found[1], found[2], parameters, doc, row.pop("sized", ""), plain, row.pop("since", since))


def enum_of(row: Row, common: tuple[str, bool]) -> Enum:
    """An enumeration of its rows, of which a list of one is a comment."""
    name, faults, rows = row.pop("enum"), row.pop("faults", False), row.pop("values")
    return Enum(*common, name, faults, tuple(Value("", 0, it[0]) if len(it) == 1 else Value(it[0], it[1], "".join(it[2:])) for it in rows))


def item_of(given: Row, since: str) -> Item:
    """An item of its row, all of whose words are known."""
    row = dict(given)
    joined = row.pop("joined", False) or ("call" in row and "text" not in row and not row.pop("apart", False))
    common = (row.pop("text", ""), not joined)
    made: Item
    if "call" in row:
        made = call_of(row, common, since)
    elif "enum" in row:
        made = enum_of(row, common)
    elif "struct" in row or "handle" in row:
        made = struct_of(row, common)
    elif "section" in row:
        made = Section(*common, row.pop("section"))
    elif "define" in row:
        made = Define(*common, row.pop("define"))
    elif "code" in row:
        made = Code(*common, row.pop("code").rstrip("\n"))
    else:
        raise TableFault(f"an item that is none: {', '.join(given)}")
    if row:
        raise TableFault(f"words that an item does not have: {', '.join(row)}")
    return made


def header_of(rows: Row, since: str) -> Header:
    """A header of its items, whose names are all different; an enumeration may be named as a call is, as C allows."""
    made = Header(tuple(item_of(it, since) for it in rows["items"]))
    twice = {it for it in made.names if made.names.count(it) > 1}
    if twice:
        raise TableFault(f"there twice: {', '.join(sorted(twice))}")
    return made


def read(path: Path) -> Interface:
    """The table of a file. A TableFault says what is wrong with it."""
    try:
        table = tomllib.loads(path.read_text(encoding="utf-8"))
        since = table["since"]
        made = Interface(
            table["interface"], since, table["models"], table["limits"], header_of(table["library"], since), header_of(table["drive"], since)
        )
    except (tomllib.TOMLDecodeError, KeyError) as why:
        raise TableFault(f"no table: {why}") from why
    numbers = [it.number for it in [*made.library.faults, *made.drive.faults]]
    if len(set(numbers)) != len(numbers):
        raise TableFault("two faults have one number")
    return made
