"""PROVED.txt of a release: what is proved, what each target trusts beyond it, and of what the files were made."""

import hashlib
import subprocess
from dataclasses import dataclass
from pathlib import Path

HERE = Path(__file__).resolve().parent
TOP = HERE.parent

TEXT = """dasd {version}: what is proved, and what is trusted beyond it

Version   {version}
Commit    {commit}
Toolchain {kit}
Gate      {gate}

What is proved

Every function of the crates below `dasd_c` (the library) and `dasd_cmd` (the program) is proved to meet its contract, to be safe and to
end; docs/DEFINITIONS.md has the definitions and laws that the contracts are stated in. Proved is the code as Rattle's checker reads it,
before it is lowered to a module of LLVM. Trusted are the checker, the lowering, LLVM, the statements of the ported crates (THIRD_PARTY
names them), the assembler and the linker, the C library and the operating system; and that the definitions say what the machine did.

What each target trusts beyond that

x86-64 Linux    The module goes to LLVM as it was lowered, for plain x86-64, by the same compiler and words as the code that the gate tests.
                Of the program the gate has a second compiler, Rattle's own, whose runs it compares; of the library there is none.
AArch64 Linux   Three things of the module's text are changed: the layout of data, the triple, and the attributes that name a processor.
                LLVM's back end for AArch64. Numbers that the program hands to the system are those of x86-64 Linux: the flags of `open`
                that differ are watched by release/open_flags.py. Tested under qemu's emulation of a user's program, on no real machine.
Windows         The same changes, and the attribute by which the stack is probed. The three functions for memory are written in LLVM's text.
                Tried by the vectors under Wine; not promised.
WebAssembly     web/ says what is changed, and what it trusts. Tried by the vectors in Node; not promised.
All Linux       c/heap.c; and of the program c/system.c, written after what the toolchain's objects do, and tested.

C, Python, Rust's wrappers and the scripts that make a release are tested, not proved.

How the same bytes are made again

On a machine with this toolchain, in a checkout of this commit, `make prove` proves everything and compares what it gives with compiled/. And
`.ci/run | tee gate.log`, then `release/make_release gate.log`, makes all files of the release.

The sources' sum is that of `git ls-files -z crates crates.txt | LC_ALL=C sort -z | xargs -0 sha256sum | sha256sum`. A sum of this list is
SHA-256; `sha256sum -c` reads its lines.

{sums}"""


@dataclass(frozen=True)
class Origin:
    """Of what a release is made."""

    version: str
    commit: str
    kit: str
    gate: str


def sha256(path: Path) -> str:
    """A file's sum."""
    return hashlib.sha256(path.read_bytes()).hexdigest()


def sum_of_sources() -> str:
    """One sum over the sums of all files of the crates."""
    names = subprocess.run(["git", "-C", str(TOP), "ls-files", "-z", "crates", "crates.txt"], check=True, stdout=subprocess.PIPE).stdout
    lines = [f"{sha256(TOP / name.decode())}  {name.decode()}\n" for name in sorted(names.split(b"\0")) if name]
    return hashlib.sha256("".join(lines).encode()).hexdigest()


def proved_text(origin: Origin, sums: str) -> str:
    """The page. `sums` is the text of compiled.sha256: modules and compiled code."""
    lines = f"{sum_of_sources()}  crates\n{sums}"
    return TEXT.format(version=origin.version, commit=origin.commit, kit=origin.kit, gate=origin.gate, sums=lines)
