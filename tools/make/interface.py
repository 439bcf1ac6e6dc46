"""Makes what says the interface for C over again, of the one table of it, c/interface.toml.

    tools/run make/interface             writes the files, and the parts of files, that the head of the table lists
    tools/run make/interface --check     compares them with what would be written

A part of a file is between a line with 'c/interface.toml: begin' and one with 'c/interface.toml: end'; around it the file is written by hand. What a
file looks like is a template in tools/make/templates. `--check` looks also whether the crates export just the calls of the table, with its parameters,
and answer just its faults, and whether their definitions have just its drives. What is wrong is reported; the last line is 'N files looked at, M are
not as c/interface.toml has it', and the status 1 where M is not 0 or the crates differ. It wants Debian's python3-jinja2, and says so where that is not
there."""

import argparse
import sys
from pathlib import Path

from tools import TOP
from tools.make import interface_words as words
from tools.make.interface_rattle import differences
from tools.make.interface_table import Interface, TableFault, read

TABLE = "c/interface.toml"
TEMPLATES = Path(__file__).resolve().parent / "templates"
BEGIN, END = f"{TABLE}: begin", f"{TABLE}: end"
WHOLE = {
    "c/dasd.h": "dasd.h.jinja",
    "c/dasd_drive.h": "dasd_drive.h.jinja",
    "c/exports.map": "exports.map.jinja",
    "c/tests/layout.c": "layout.c.jinja",
    "rust/dasd-sys/src/interface.rs": "interface.rs.jinja",
    "go/dasd/numbers.go": "numbers.go.jinja",
    "python/test_layout.py": "test_layout.py.jinja",
    "release/debian/libdasd1.symbols": "libdasd1.symbols.jinja",
}
PARTS = {
    "c/dasd.hpp": ["dasd.hpp.jinja", "methods.hpp.jinja"],
    "c/dasd_drive.hpp": ["dasd_drive.hpp.jinja"],
    "adapters/hercules/pack.h": ["pack.h.jinja"],
    "python/dasd/_library.py": ["_library.py.jinja"],
    "python/dasd/_subsystem.py": ["_subsystem.py.jinja"],
    "python/dasd/_words.py": ["_words.py.jinja"],
    "rust/dasd/src/calls.rs": ["calls.rs.jinja"],
    "rust/dasd/src/fault.rs": ["fault.rs.jinja"],
    "rust/dasd/src/subsystem.rs": ["subsystem.rs.jinja"],
    "web/exports.txt": ["exports.txt.jinja"],
    "web/src/fault.mjs": ["fault.mjs.jinja"],
    "web/src/library.mjs": ["library.mjs.jinja"],
    "web/src/volume.mjs": ["volume.mjs.jinja"],
    "catalogue/dasd_catalogue/picture.py": ["picture.py.jinja"],
    "conformance/suite/volumes.py": ["volumes.py.jinja"],
    "docs/EMBEDDING.md": ["EMBEDDING.md.jinja"],
}


class Writer:
    """Writes what the templates make of a table."""

    def __init__(self, interface: Interface) -> None:
        from jinja2 import Environment, FileSystemLoader, StrictUndefined  # pylint: disable=import-outside-toplevel

        library = interface.library
        version = (TOP / "VERSION").read_text(encoding="utf-8").strip()
        of_c_alone = {it.name for it in library.defines if it.number is None}
        self.templates = Environment(
            loader=FileSystemLoader(TEMPLATES), undefined=StrictUndefined, trim_blocks=True, lstrip_blocks=True, keep_trailing_newline=True
        )
        self.templates.filters |= {it.__name__: it for it in (words.comment, words.aligned, words.enum_body, words.rust_type)}
        self.templates.filters |= {it.__name__: it for it in (words.sentence, words.camel, words.javascript, words.amount)}
        self.templates.filters |= {it.__name__: it for it in (words.filled, words.python_doc, words.rust_method_doc, words.go_name, words.lower_first)}
        self.templates.filters |= {"doc": words.rust_doc(set(library.names) - of_c_alone), "ctypes_fields": words.ctypes_fields(library)}
        self.templates.globals |= {"interface": interface, "version": version, "version_number": number_of(version)}
        self.templates.globals |= {"ctypes_of": words.ctypes_of(library), "ctypes": words.CTYPES, "rust": words.RUST}

    def made(self, template: str) -> str:
        """What a template makes."""
        return self.templates.get_template(template).render()

    def files(self) -> dict[str, str]:
        """Each file, whole."""
        parts = {name: [self.made(it) for it in templates] for name, templates in PARTS.items()}
        whole = {name: self.made(template) for name, template in WHOLE.items()}
        return whole | {name: with_parts((TOP / name).read_text(encoding="utf-8"), some, name) for name, some in parts.items()}


def number_of(version: str) -> str:
    """A version as DASD_VERSION_NUMBER."""
    major, minor, patch = (int(it) for it in version.split("."))
    return f"0x{major:02x}{minor:02x}{patch:02x}"


def with_parts(text: str, parts: list[str], name: str) -> str:
    """A file with these parts, in their order."""
    marks = [it for it in text.splitlines(keepends=True) if BEGIN in it or END in it]
    pairs = list(zip(marks[::2], marks[1::2]))
    if len(marks) != 2 * len(parts) or not all(BEGIN in one and END in other for one, other in pairs):
        raise TableFault(f"{name} has not just {len(parts)} parts that begin and end")
    made = ""
    for (begin, end), part in zip(pairs, parts):
        before, text = text.split(begin, 1)
        made += before + begin + part + end
        text = text.split(end, 1)[1]
    return made + text


def differs(name: str, text: str) -> bool:
    """Whether a file is not as it would be made."""
    path = TOP / name
    if path.is_file() and path.read_text(encoding="utf-8") == text:
        return False
    print(f"{name} is not as {TABLE} has it: tools/run make/interface makes it")
    return True


def main() -> int:
    """Writes the files, or compares them."""
    given = argparse.ArgumentParser(description="Makes the headers and the wrappers' declarations of the table of the interface.")
    given.add_argument("--check", action="store_true", help="compares what is there")
    is_check = given.parse_args().check
    try:
        interface = read(TOP / TABLE)
        files = Writer(interface).files()
    except ImportError:
        print("skipped: this Python has no jinja2 (Debian's python3-jinja2)")
        return 0
    except TableFault as why:
        sys.exit(f"{TABLE}: {why}")
    wrong = 0
    for name, text in files.items():
        if is_check:
            wrong += differs(name, text)
        else:
            (TOP / name).write_text(text, encoding="utf-8")
    others = differences(interface, TOP / "crates")
    print(*others, f"{len(files)} files looked at, {wrong} are not as {TABLE} has it", sep="\n")
    return 1 if wrong or others else 0


if __name__ == "__main__":
    sys.exit(main())
