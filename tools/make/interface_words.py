"""How the words of the table are written in each language: the filters of the templates in tools/make/templates."""

import re
import textwrap
from collections.abc import Callable, Iterable
from itertools import groupby

from tools.make.interface_table import Enum, Header, Named, Struct, Value

WIDTH = 140
RUST = {"uint8_t": "u8", "uint16_t": "u16", "uint32_t": "u32", "uint64_t": "u64", "int32_t": "i32", "size_t": "usize", "char": "u8", "void": "c_void"}
CTYPES = {"uint8_t": "_U8", "uint16_t": "_U16", "uint32_t": "_U32", "uint64_t": "_U64", "int32_t": "_I32", "size_t": "_SIZE"}
FIELDS = {key: f"ctypes.c_{key.removesuffix('_t')}" for key in CTYPES} | {"size_t": "ctypes.c_size_t"}


# --- C ---


def comment(text: str, indent: int = 0) -> str:
    """A comment of C that has these lines."""
    first, *more = text.splitlines()
    lines = [f"/* {first}", *(f" * {it}" if it else " *" for it in more)]
    return "\n".join(" " * indent + it for it in lines) + " */"


def aligned(rows: Iterable[tuple[str, str]]) -> str:
    """Lines with their comments, which begin below each other as far as lines with comments follow each other."""
    lines = []
    for has_comment, run in groupby(rows, lambda it: bool(it[1])):
        some = list(run)
        width = max(len(code) for code, _ in some)
        lines += [f"    {code:{width}} /* {note} */" if has_comment else f"    {code}" for code, note in some]
    return "\n".join(lines)


def enum_body(enum: Enum) -> str:
    """The values of an enumeration between its braces: on a line of their own where they are explained."""
    if not any(it.text for it in enum.rows):
        return "{ " + ", ".join(f"{it.name} = {it.number}" for it in enum.rows) + " }"
    last = enum.values[-1]
    parts = []
    for is_note, run in groupby(enum.rows, lambda it: not it.name):
        some: list[Value] = list(run)
        if is_note:
            parts += [comment(it.text, 4) for it in some]
        else:
            parts.append(aligned((f"{it.name} = {it.number}" + ("" if it is last else ","), it.text) for it in some))
    return "{\n" + "\n".join(parts) + "\n}"


def filled(text: str, width: int) -> str:
    """A text without examples in lines of another width."""
    return textwrap.fill(" ".join(text.split()), width, break_long_words=False, break_on_hyphens=False)


# --- Rust ---


def rust_type(of: Named) -> str:
    """The type of a field or a parameter. A handle is written during each call, also where C calls it constant."""
    pointer = re.fullmatch(r"(const )?(\w+) \*", of.type)
    if not pointer:
        return f"[{RUST[of.type]}; {of.count}]" if of.count else RUST[of.type]
    const = pointer[1] and pointer[2] not in ("dasd", "dasd_files")
    return f"*{'const' if const else 'mut'} {RUST.get(pointer[2], pointer[2])}"


def rust_doc(names: set[str]) -> Callable[..., str]:
    """What makes a text one of rustdoc: these names are links, and others are code; an example is of C."""

    def linked(line: str) -> str:
        named = re.sub(r"(?<!`)\b((?:enum )?dasd_\w+|DASD_\w+)\b(?!`)", r"`\1`", line)
        return re.sub(r"`(\w+)`", lambda it: f"[`{it[1]}`]" if it[1] in names else it[0], named)

    def doc(text: str, indent: int = 0) -> str:
        lines, is_example = [], False
        for line in text.splitlines():
            begins = line.startswith("    ")
            if begins and not is_example:
                lines.append("```c")
            if is_example and not begins and line:
                lines.append("```")
            is_example = begins or (is_example and not line)
            lines.append(line.removeprefix("    ") if is_example else linked(line))
        if is_example:
            lines.append("```")
        return "\n".join(" " * indent + f"/// {it}".rstrip() for it in lines)

    return doc


def rust_method_doc(text: str, indent: int) -> str:
    """What a call does, as the doc of a method of its name: the faults that end the text are its errors."""
    whole = " ".join(text.split())
    ending = re.search(r"(?: DASD_\w+[,;]?)*\.$", whole)
    at = ending.start() if ending and "DASD_" in ending[0] else len(whole)
    lines = filled(re.sub(r"\bdasd_(\w+)", r"[`Subsystem::\1`]", whole[:at]), WIDTH - 8).splitlines()
    named = [f"`{camel(it)}`" for it in re.findall(r"DASD_(\w+)", whole[at:])]
    lines += ["", "# Errors", "", f"{', '.join(named)}."] if named else []
    return "\n".join(" " * indent + f"/// {it}".rstrip() for it in lines)


def sentence(text: str) -> str:
    """A remark as a sentence."""
    text = f"a value of {text}" if text.startswith("enum ") else text
    return text[:1].upper() + text[1:] + ("" if text.endswith(".") else ".")


def camel(name: str) -> str:
    """NO_MEMORY as NoMemory."""
    return "".join(it.capitalize() for it in name.split("_"))


# --- Python ---


def ctypes_of(library: Header) -> Callable[[Named, str], str]:
    """What writes the type of a parameter by ctypes, of which bytes may be a struct's, `sized`."""
    classes = {it.name: it.python for it in library.structs}

    def of_parameter(of: Named, sized: str) -> str:
        pointer = re.fullmatch(r"(?:const )?(\w+) \*", of.type)
        if not pointer:
            return CTYPES[of.type]
        if pointer[1] == "uint8_t":
            return f"_to({classes[sized]})" if sized else "ctypes.c_char_p"
        return f"_to({classes[pointer[1]]})" if pointer[1] in classes else f"ctypes.POINTER({CTYPES[pointer[1]]})"

    return of_parameter


def ctypes_fields(library: Header) -> Callable[[Struct], str]:
    """What writes the fields of a struct by ctypes. A struct that calls are given keeps the bytes to which it leads."""
    given = {it.type for call in library.calls for it in call.parameters}

    def field(struct: Struct, of: Named) -> str:
        if "*" in of.type:
            keeps = f"const {struct.name} *" in given and of.type == "const uint8_t *"
            return f'("{of.name}", ctypes.c_{"char" if keeps else "void"}_p)'
        return f'("{of.name}", {FIELDS[of.type]}' + (f" * {of.count})" if of.count else ")")

    def fields(struct: Struct) -> str:
        some = [field(struct, it) for it in struct.fields]
        short = f"    _fields_ = [{', '.join(some)}]"
        return short if len(short) <= WIDTH else "    _fields_ = [\n" + "".join(f"        {it},\n" for it in some) + "    ]"

    return fields


def python_doc(text: str, indent: int) -> str:
    """What a call does, as the docstring of a method of its name."""
    named = re.sub(r"\bdasd_(\w+)", r"`\1`", text).replace("DASD_", "")
    return textwrap.indent(f'"""{filled(named, WIDTH - indent)}"""', " " * indent)


# --- Go ---


def go_name(name: str) -> str:
    """DASD_NO_MEMORY as NoMemory."""
    return camel(name.removeprefix("DASD_"))


def lower_first(text: str) -> str:
    """A sentence to be gone on with."""
    return text[:1].lower() + text[1:]


# --- JavaScript, and all of them ---


def javascript(text: str) -> str:
    """A string of JavaScript."""
    return f'"{text}"' if "'" in text else f"'{text}'"


def amount(number: int) -> str:
    """A number as pages write it."""
    return f"{number:,}"
