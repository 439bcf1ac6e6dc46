"""What a release's own check looks at, in modules, in compiled code, and in the tree that is built of it."""

import os
import shutil
import subprocess
import sys
import tempfile
from pathlib import Path

HERE = Path(__file__).resolve().parent
sys.path.insert(0, str(HERE.parent))

import compiling
import third_party
import wanted
from tools.common import kept

MUSL_CC = "musl-gcc"
ARM_CC = "aarch64-linux-gnu-gcc"
ARM_ROOT = "/usr/aarch64-linux-gnu"
WINDOWS_CC = "x86_64-w64-mingw32-gcc"


def names_of_module(crate: str, text: str) -> list[str]:
    """The names that a module declares and the list does not have."""
    new = wanted.new_names(wanted.declared_names(text), crate)
    return [f"{crate}: the module wants {it}, which is not in wanted_names.txt" for it in new]


def names_of_compiled(compiled: Path) -> list[str]:
    """The names that compiled code wants and the list does not have. WebAssembly's are looked at as it is linked, which allows none."""
    found = []
    with tempfile.TemporaryDirectory() as folder:
        for file in sorted(it for it in compiled.iterdir() if it.suffix != ".wasm"):
            crate = next((crate for crate, (prefix, _) in compiling.MADE.items() if file.name.startswith(f"{prefix}-")), "dasd_c")
            made = wanted.assembled(file, Path(folder)) if file.suffix == ".s" else file if file.name.startswith("lib") else None
            parts = [crate, "compilers", *(["windows"] if "windows" in file.name else [])]
            if made is not None:
                new = wanted.new_names(wanted.undefined_names(made), *parts)
                found += [f"{file.name} wants {it}, which is not in wanted_names.txt" for it in new]
    return found


def notices(texts: dict[str, str], is_writing: bool) -> list[str]:
    """Whether THIRD_PARTY is what the modules' names give."""
    try:
        made = third_party.notices(texts["dasd_c"] + texts["lone_drive_c"], texts["dasd_cmd"])
    except third_party.NotKnown as why:
        return [f"THIRD_PARTY: {why}"]
    if is_writing:
        third_party.FILE.write_text(made, encoding="utf-8")
    is_same = third_party.FILE.is_file() and third_party.FILE.read_text(encoding="utf-8") == made
    return [] if is_same else ["THIRD_PARTY is not what the modules' names give"]


def texts_of(modules: Path) -> dict[str, str]:
    """The modules as text."""
    with tempfile.TemporaryDirectory() as folder:
        return {crate: compiling.text_of(modules / f"{crate}.bc", Path(folder)) for crate in compiling.MADE}


def make(tree: Path, *words: str) -> tuple[bool, list[str]]:
    """Runs make in the tree: whether all went well, and what it printed. Wine has a folder of its own, which is gone afterwards."""
    with tempfile.TemporaryDirectory(ignore_cleanup_errors=True) as prefix:
        how = {name: value for name, value in os.environ.items() if name not in ("MAKEFLAGS", "MAKELEVEL", "MFLAGS")}
        how |= {"WINEDEBUG": "-all", "WINEPREFIX": prefix}
        command = ["make", "-s", "--no-print-directory", *words]
        ran = subprocess.run(command, cwd=tree, stdout=subprocess.PIPE, stderr=subprocess.STDOUT, text=True, check=False, env=how)
    return ran.returncode == 0, ran.stdout.splitlines()


def ways() -> list[tuple[str, list[str]]]:
    """The targets whose compiler is here, with make's words; one whose compiler or emulator is not there is named."""
    found: list[tuple[str, list[str]]] = [("x86_64", ["check"])]
    emulated = f"RUN=qemu-aarch64 -L {ARM_ROOT}"
    wine = next((it for it in ("wine", "wine64") if shutil.which(it)), "wine")
    # with a RUN the rows are left out, which load libraries of glibc into `dasd`
    for name, compiler, runner, words in (
        ("x86_64-musl", MUSL_CC, "env", [f"CC={MUSL_CC}", "RUN=env", "check"]),
        ("aarch64", ARM_CC, "qemu-aarch64", [f"CC={ARM_CC}", emulated, "check"]),
        ("x86_64-windows", WINDOWS_CC, wine, [f"CC={WINDOWS_CC}", f"RUN={wine}", "check-windows"]),
    ):
        missing = [it for it in (compiler, runner) if not shutil.which(it)]
        if missing:
            print(f"skipped: {name} (no {', '.join(missing)} here)")
        else:
            found.append((name, words))
    return found


# How the paths begin that `make check` reads.
READ = ("Makefile", "VERSION", "README.md", "c/", "compiled/", "conformance/", "python/", "release/compiled.sha256", "rows/", "sample/", "tools/")
PACKAGES = Path("/var/lib/dpkg/status")


def name_of(tree: Path, words: list[str]) -> str:
    """A sum of what a tree's check rests on: make's words, Debian's packages, and the tree's files."""
    known = sorted(it for it in tree.rglob("*") if it.is_file() and str(it.relative_to(tree)).startswith(READ))
    parts: list[bytes | str | Path] = [" ".join(words), *([PACKAGES] if PACKAGES.is_file() else [])]
    for it in known:
        parts += [str(it.relative_to(tree)), it]
    return kept.sum_of(parts)


def play(tree: Path, name: str, words: list[str]) -> list[str]:
    """Has a tree checked for a target, unless that has passed on this machine with the same files, and builds it; what is wrong."""
    make(tree, "clean")
    made = name_of(tree, words)
    if kept.find("played", made):
        print(f"{name}: passed on this machine before, with the same files")
        went_well, printed = make(tree, *words[:-1], *([] if "windows" in name else ["all"]))
        return [] if went_well else [*printed[-15:], f"{name}: `make` fails"]
    went_well, printed = make(tree, *words)
    print(f"{name}: {printed[-1] if printed else ''}")
    if went_well:
        kept.keep("played", made, {})
        return []
    return [*(it for it in printed if " 0 failed" not in it), f"{name}: `make {words[-1]}` fails"]


def flags(native: Path, arm: Path) -> list[str]:
    """Whether files are opened with the same flags on x86-64 and on AArch64."""
    missing = [it for it in ("strace", "qemu-aarch64") if not shutil.which(it)]
    if missing or not arm.exists():
        print(f"skipped: the flags of open (no {', '.join(missing) or 'program for AArch64'} here)")
        return []
    ran = subprocess.run([sys.executable, str(HERE / "open_flags.py"), str(native), str(arm), ARM_ROOT], check=False)
    return ["the flags of open are not the same on both"] if ran.returncode else []
