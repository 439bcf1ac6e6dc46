"""Compiles a module that tools/make/capture.py kept for each target of a release, by the kit's clang and with the words that the kit gave it.

For x86-64 Linux the module goes in as it stands. For another target its text is changed in three places: the layout of data and the triple,
which the same clang says of that target, and the attributes that name a processor of the x86. Nothing else of the code is touched, and a
module that has code of one processor in it is refused.
"""

import re
import shutil
import subprocess
import sys
import tempfile
from concurrent.futures import ThreadPoolExecutor
from dataclasses import dataclass
from pathlib import Path

HERE = Path(__file__).resolve().parent
sys.path[:0] = [str(HERE), str(HERE.parent)]

import labels
from tools.common import kept
from tools.common.kit import kit

LINUX = "x86_64-unknown-linux-gnu"


@dataclass(frozen=True)
class Target:
    """What the code is compiled for, and how the files are named that are made for it."""

    triple: str
    suffix: str

    @property
    def is_x86(self) -> bool:
        return self.triple.startswith("x86_64-")

    @property
    def is_windows(self) -> bool:
        return "windows" in self.triple


X86 = Target(LINUX, "x86_64.s")
ARM = Target("aarch64-unknown-linux-gnu", "aarch64.s")
WINDOWS = Target("x86_64-w64-windows-gnu", "x86_64-windows.o")
# What is made of the crates of the library, of the program and of a drive alone: how the files begin, and for what.
MADE = {
    "dasd_c": ("libdasd", (X86, ARM, WINDOWS)),
    "dasd_cmd": ("dasd", (X86, ARM)),
    "lone_drive_c": ("libdasd_drive", (X86, ARM, WINDOWS)),
}
# What web/ makes of the modules, and how it is called here.
WASM = {"library.wasm": "libdasd.wasm", "program.wasm": "dasd.wasm"}

PROCESSOR = r' "(?:target-cpu|target-features|tune-cpu)"="[^"]*"'
# A frame that is larger than a page is touched page by page. LLVM does so inline for AArch64 too; on Windows it calls a function.
PROBES = r' "(?:probe-stack|stack-probe-size)"="[^"]*"'
OF_ONE_PROCESSOR = ("asm ", "x86_fp80", "@llvm.x86.", "addrspace(")


class NotCompiled(Exception):
    """Why a module is not compiled."""


def clang(*words: str | Path, folder: Path | None = None) -> str:
    """Runs the kit's clang, which reads no file of settings, and answers what it prints."""
    command = [str(kit() / "toolchain" / "bin" / "clang"), "--no-default-config", *map(str, words)]
    ran = subprocess.run(command, cwd=folder, capture_output=True, text=True, check=False)
    if ran.returncode:
        raise NotCompiled(f"{' '.join(map(str, words))}\n{ran.stderr}")
    return ran.stdout


def kept_words(module: Path) -> list[str]:
    """The words that the kit gave its clang for this module, but for those that name what is read, what is made, and for what."""
    words = module.with_suffix(".words").read_text(encoding="utf-8").splitlines()
    named = ("--target=", "-march=")
    return [it for it in words if it not in ("-c", "-x", "ir", "-o", "-fintegrated-cc1") and not it.startswith(named)]


def words_for(module: Path, target: Target) -> list[str]:
    """The words with which the module is compiled for a target: assembly that GNU as reads, or an object."""
    words = kept_words(module)
    if not target.is_x86:
        at = words.index("-no-x86-call-frame-opt")
        del words[at - 1 : at + 1]
    if target.is_windows:
        return [it for it in words if it not in ("-fPIC", "-fPIE")] + ["-fno-addrsig", "-c"]
    return words + (["-march=x86-64"] if target.is_x86 else []) + ["-fno-addrsig", "-fno-verbose-asm", "-S"]


def text_of(module: Path, folder: Path) -> str:
    """The module as text."""
    clang(f"--target={LINUX}", "-S", "-emit-llvm", "-Xclang", "-disable-llvm-passes", "-x", "ir", module, "-o", folder / "text.ll")
    return (folder / "text.ll").read_text(encoding="utf-8")


def layout_of(triple: str) -> str:
    """The layout of data that clang has for a target."""
    said = clang(f"--target={triple}", "-S", "-emit-llvm", "-x", "c", "/dev/null", "-o", "-")
    found = re.search(r'(?m)^target datalayout = "([^"]*)"', said)
    if not found:
        raise NotCompiled(f"clang has no layout for {triple}")
    return found[1]


def retargeted(text: str, triple: str, layout: str, dropped: str) -> str:
    """A module's text for another target whose pointers have 64 bits."""
    for what in OF_ONE_PROCESSOR:
        if re.search(r'(?m)^(?!;|attributes|@\S+ = .*c").*(?<![\w"])' + re.escape(what), text):
            raise NotCompiled(f"the module has `{what.strip()}`, which is of one processor")
    text, layouts = re.subn(r'(?m)^target datalayout = "[^"]*"', f'target datalayout = "{layout}"', text)
    text, triples = re.subn(r'(?m)^target triple = "[^"]*"', f'target triple = "{triple}"', text)
    if (layouts, triples) != (1, 1):
        raise NotCompiled("the text is not that of a module")
    return re.sub(r"(?m)^attributes #.*$", lambda it: re.sub(dropped, "", it[0]), text)


def compile_for(module: Path, target: Target, made: Path) -> None:
    """Compiles a module for a target, or takes what was made of it on this machine before."""
    own = [Path(__file__), Path(labels.__file__)]
    name = kept.sum_of([kept.kit_name(), *own, module, module.with_suffix(".words"), target.triple, target.suffix])
    entry = kept.find("compiled", name)
    if entry is None:
        compile_anew(module, target, made)
        kept.keep("compiled", name, {"made": made})
    else:
        made.write_bytes((entry / "made").read_bytes())


def compile_anew(module: Path, target: Target, made: Path) -> None:
    """Compiles a module for a target. The name of what is read is always the same: it is in what is made. Of a text the names are settled."""
    with tempfile.TemporaryDirectory() as name:
        folder = Path(name)
        read = folder / "module.bc"
        if target is X86:
            read.write_bytes(module.read_bytes())
        else:
            read = folder / "module.ll"
            dropped = f"{PROCESSOR}|{PROBES}" if target.is_windows else PROCESSOR
            text = retargeted(text_of(module, folder), target.triple, layout_of(target.triple), dropped)
            read.write_text(text, encoding="utf-8")
        out = folder / "made"
        clang(f"--target={target.triple}", *words_for(module, target), "-x", "ir", read.name, "-o", out.name, folder=folder)
        if target.is_windows:
            made.write_bytes(out.read_bytes())
        else:
            made.write_text(labels.settled(out.read_text(encoding="utf-8")), encoding="utf-8")


def compile_heap(made: Path) -> None:
    """Compiles the three functions by which the libraries take memory on Windows."""
    with tempfile.TemporaryDirectory() as name:
        folder = Path(name)
        (folder / "heap.ll").write_bytes((HERE.parent / "c" / "heap-windows.ll").read_bytes())
        clang(f"--target={WINDOWS.triple}", "-O2", "-fno-addrsig", "-c", "-x", "ir", "heap.ll", "-o", "made", folder=folder)
        made.write_bytes((folder / "made").read_bytes())


def compile_wasm(modules: Path, made: Path) -> None:
    """Has web/ make the WebAssembly modules; where one of its tools is not here, nothing is made, and a line says so."""
    web = HERE.parent / "web"
    for of_web, name in WASM.items():
        module = web / "out" / of_web
        module.unlink(missing_ok=True)
        ran = subprocess.run(["make", "-s", "-C", str(web), f"MODULES={modules.resolve()}", f"out/{of_web}"], check=False)
        if module.is_file():
            shutil.copyfile(module, made / name)
        else:
            print(f"skipped: {name} (web/ made none, with status {ran.returncode})")


def compile_all(modules: Path, made: Path) -> None:
    """Compiles the modules of a folder for all targets, two at a time, into another folder."""
    made.mkdir(parents=True, exist_ok=True)
    with ThreadPoolExecutor(max_workers=2) as pool:
        waited = [
            pool.submit(compile_for, modules / f"{crate}.bc", target, made / f"{prefix}-{target.suffix}")
            for crate, (prefix, targets) in MADE.items()
            for target in targets
        ]
        for it in waited:
            it.result()
    compile_heap(made / "heap-x86_64-windows.o")
    compile_wasm(modules, made)
