"""Builds the package `dasd`, with library and program inside where `library/` has their assembly text, as a source distribution has it.

The library is one for any Python of its system, so the wheel's tag names the system alone. DASD_MACHINE builds for another one: for
`aarch64` the compiler is what CC names, or aarch64-linux-gnu-gcc. Without `library/` the package is pure Python.
"""

from __future__ import annotations

import os
import platform
import shlex
import subprocess
import sys
from pathlib import Path
from typing import List, Tuple

from setuptools import Distribution, setup  # type: ignore[import]
from setuptools.command.build_py import build_py  # type: ignore[import]

try:
    from setuptools.command.bdist_wheel import bdist_wheel  # type: ignore[import]
except ImportError:  # before setuptools 70.1
    from wheel.bdist_wheel import bdist_wheel  # type: ignore[import]

HERE = Path(__file__).resolve().parent
SOURCES = HERE / "library"
MACHINE = os.environ.get("DASD_MACHINE") or platform.machine()
SHARED = "libdasd.so.1"
HARD = "-Wl,-z,relro,-z,now,--gc-sections"
LINK = ["-shared", "-s", f"-Wl,-soname,{SHARED}", "-Wl,-z,defs", HARD]


def compiler() -> List[str]:
    """The words of the C compiler for the machine that is built for."""
    named = os.environ.get("CC")
    if named:
        return shlex.split(named)
    return ["cc"] if platform.machine() == MACHINE else [f"{MACHINE}-linux-gnu-gcc"]


class Package(Distribution):  # type: ignore[misc]
    """A package that is of one system where it carries the library."""

    def has_ext_modules(self) -> bool:
        """Whether the package is of one system."""
        return SOURCES.is_dir()


def text_of(name: str) -> Path:
    """The assembly text of the library or the program for the machine."""
    text = SOURCES / f"{name}-{MACHINE}.s"
    if not text.is_file():
        sys.exit(f"dasd: there is no {name} for {MACHINE}: {', '.join(sorted(it.name for it in SOURCES.glob('*.s')))} are here")
    return text


class BuildWithLibrary(build_py):  # type: ignore[misc]
    """The package's files, and the library and the program beside them."""

    def run(self) -> None:
        """Copies the package's files, and makes library and program where their texts are here."""
        super().run()
        if SOURCES.is_dir():
            self.compile_library(Path(self.build_lib, "dasd", SHARED))
            self.compile_program(Path(self.build_lib, "dasd", "program"))

    def compile_library(self, made: Path) -> None:
        """Assembles the library for the machine, and links it."""
        sources = [str(text_of("libdasd")), str(SOURCES / "heap.c"), f"-Wl,--version-script={SOURCES / 'exports.map'}"]
        subprocess.run([*compiler(), "-std=c11", "-O2", "-fPIC", *LINK, "-o", str(made), *sources], check=True)

    def compile_program(self, made: Path) -> None:
        """Assembles the program, and links it with its C library inside; where that can't be had, with the system's."""
        sources = [str(text_of("dasd")), *(str(SOURCES / it) for it in ("system.c", "heap.c"))]
        command = [*compiler(), "-std=c11", "-O2", "-fPIC", "-s", HARD, "-Wl,--wrap=main", "-o", str(made), *sources]
        if subprocess.run([*command, "-static"], check=False, stderr=subprocess.DEVNULL).returncode:
            subprocess.run(command, check=True)


class PlatformWheel(bdist_wheel):  # type: ignore[misc]
    """A wheel for any Python 3 of one system."""

    def finalize_options(self) -> None:
        """A wheel with a library has its files where those of one system go."""
        super().finalize_options()
        self.root_is_pure = not self.distribution.has_ext_modules()

    def get_tag(self) -> Tuple[str, str, str]:
        """Python, its binary interface, of which there is none, and the system."""
        if self.root_is_pure:
            return "py3", "none", "any"
        return "py3", "none", self.plat_name.replace("-", "_") if self.plat_name_supplied else f"linux_{MACHINE}"


setup(distclass=Package, cmdclass={"build_py": BuildWithLibrary, "bdist_wheel": PlatformWheel})
