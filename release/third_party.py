#!/usr/bin/env python3
"""Makes THIRD_PARTY: the notices of those whose code is in the compiled library and program, from the names in their modules.

    release/third_party.py [--write] LIBRARY.ll PROGRAM.ll

A name of a module begins with the crate that the function is of, and a function that was made for a type names the type's crate too. For
each crate that is the kit's, the files of its folder that hold a licence are taken as they stand. Of two licences to choose from, MIT is.
The kit's own libraries have no such file; those of their sources that name another's work at their head are quoted with what they say.

Without --write the file at the repository's top is compared; status 1 where it differs.
"""

import re
import sys
from pathlib import Path

HERE = Path(__file__).resolve().parent
TOP = HERE.parent
sys.path.insert(0, str(TOP))

from tools.common.kit import kit

FILE = TOP / "THIRD_PARTY"
# Crates of the kit's own that no file of a licence stands beside.
OF_THE_KIT = ("core", "io", "json", "libc", "os", "std", "std_alloc", "std_collections", "std_heap", "std_io")
UNICODE = "unicode/LICENSE-UNICODE"
RULE = "-" * 78
HEAD = """Notices of others' work in the compiled library and program

The library (libdasd) and the program (dasd) are compiled from this repository's own code, which is under the file LICENSE, and from
ports of Rust crates to Rattle, with Rattle's own libraries. This file has the notices of those crates, as they come with the ports. It is
made by release/third_party.py from the names in the compiled modules.
"""
BUILTINS = """Functions on numbers of 128 bits, from the LLVM Project's compiler-rt as Debian compiles it (libclang-rt-14-dev-wasm64). It is under the Apache
License, version 2.0, with the LLVM Exceptions, by which its object code may be given away in a program without its notices.
"""
NO_LICENCE = """Rattle's own libraries, of which the kit has no file of a licence

{names}:
these come with the toolchain of Rattle, which is not public yet. The sources below say at their head whose work they follow.
"""
C_LIBRARY = """The GNU C library, in the programs that are linked statically alone

It is in the files dasd-VERSION-MACHINE-linux of a release and in the program `dasd` of the Python wheel, and in nothing that is built from a clone
but by `make dasd-static`. Copyright (C) 1991-2022 Free Software Foundation, Inc. The GNU C Library is free software; you can redistribute it
and/or modify it under the terms of the GNU Lesser General Public License as published by the Free Software Foundation; either version 2.1 of
the License, or (at your option) any later version. Its text is in the file THIRD_PARTY.LGPL-2.1. To link the program with another C library,
take the release's tarball: `make dasd-static`.
"""


class NotKnown(Exception):
    """A crate whose notice is not known."""


def crates_in(text: str) -> set[str]:
    """The crates that the functions of a module are of, or are made for."""
    names = set(re.findall(r'@"([^"\n]+)"', text))
    heads = {found[1] for it in names if (found := re.match(r"(\w+)::", it))}
    return heads | {crate for it in names for crate in re.findall(r"(?<![\w+])(\w+)\+\+", it) if (kit() / "rattle" / crate).is_dir()}


def own_crates() -> set[str]:
    """The crates of this repository."""
    lines = (TOP / "crates.txt").read_text(encoding="utf-8").splitlines()
    return {line.split(":")[0].split()[0] for line in lines if line.strip() and not line.startswith("#")}


def licence_files(crate: str) -> list[Path]:
    """The files that hold a crate's licence; of MIT's and another's to choose from, MIT's."""
    found = sorted((kit() / "rattle" / crate).glob("LICENSE*"))
    if not found:
        raise NotKnown(f"{crate}: the kit has no file of its licence, and it is none of the kit's own libraries")
    names = [it.name for it in found]
    return [it for it in found if not (it.name == "LICENSE-APACHE" and "LICENSE-MIT" in names)]


def heads_in(text: str, crates: set[str]) -> list[tuple[str, str]]:
    """Of the kit's own sources whose functions the module has: those whose first lines name another's work, with these lines."""
    found = []
    for crate in sorted(crates.intersection(OF_THE_KIT)):
        folder = kit() / "rattle" / crate / "src"
        for source in sorted(folder.rglob("*.rt")):
            lines = re.match(r"(?://.*\n)*", source.read_text(encoding="utf-8"))
            path = source.relative_to(folder).with_suffix("")
            module = "::".join([crate, *(it for it in path.parts if it not in ("mod", "lib"))])
            if lines and re.search(r"(?i)licen[sc]e", lines[0]) and f'@"{module}::' in text:
                found.append((module, re.sub(r"(?m)^//!? ?", "", lines[0])))
    return found


def notices(library: str, program: str) -> str:
    """The whole file, of the text of the libraries' modules and of the program's."""
    in_library, in_program = crates_in(library) - own_crates(), crates_in(program) - own_crates()
    both = sorted(in_library | in_program)
    ported = [it for it in both if it not in OF_THE_KIT]
    parts = [HEAD]
    for crate in ported:
        where = "the library and the program" if crate in in_library else "the program"
        files = licence_files(crate)
        parts.append(f"{RULE}\n{crate}, in {where}\n{RULE}\n")
        parts += [f"{it.read_text(encoding='utf-8').strip()}\n" for it in files]
    parts.append(f"{RULE}\ncompiler-rt, in the modules of WebAssembly\n{RULE}\n\n{BUILTINS}")
    own = ", ".join(it for it in both if it in OF_THE_KIT)
    parts.append(f"{RULE}\n{NO_LICENCE.format(names=own)}{RULE}\n")
    heads = heads_in(library + program, set(both))
    parts += [f"{module}: {head.strip()}\n" for module, head in heads]
    if any("Unicode License" in head for _, head in heads):
        parts.append(f"{RULE}\nThe Unicode License\n{RULE}\n\n{(kit() / 'rattle' / UNICODE).read_text(encoding='utf-8').strip()}\n")
    title, _, text = C_LIBRARY.partition("\n\n")
    parts.append(f"{RULE}\n{title}\n{RULE}\n\n{text}")
    return "\n".join(parts)


def main() -> int:
    words = sys.argv[1:]
    is_writing = words[:1] == ["--write"]
    if len(words) != 2 + is_writing or words[-1].startswith("-"):
        sys.exit(__doc__)
    texts = [Path(it).read_text(encoding="utf-8") for it in words[-2:]]
    try:
        made = notices(*texts)
    except NotKnown as why:
        print(f"third_party.py: {why}")
        return 1
    if is_writing:
        FILE.write_text(made, encoding="utf-8")
    if not FILE.is_file() or FILE.read_text(encoding="utf-8") != made:
        print("third_party.py: THIRD_PARTY is not what the modules' names give: --write makes it")
        return 1
    return 0


if __name__ == "__main__":
    sys.exit(main())
