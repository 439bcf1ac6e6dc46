#!/usr/bin/env python3
"""Plants faults behind the page, each in a copy of web/, and says which test saw it: planted.py MODULES [WORDS]

MODULES is the folder with dasd_c.bc and dasd_cmd.bc, of which out/ was made; WORDS, where they are given, stand in the names of the faults
that are planted. A fault is text that stands once in a file, with what is planted in its place; what is made of that file is made anew,
and the tests are run until one fails, or takes five times as long as without a fault. The status is 1 where none did.
test/planted_page.py has the faults of the page itself.
"""

import os
import shutil
import signal
import subprocess
import sys
import tempfile
import time
from dataclasses import dataclass
from pathlib import Path

sys.dont_write_bytecode = True
WEB = Path(__file__).resolve().parent.parent
# What a test may take in any case, in seconds; and how many times as long as without a fault.
SECONDS, TIMES = 20, 5

IN_C = ["make", "-s", "check-c"]
MAKE = ["python3", "test/test_make.py", "-q"]
NAMES = ["node", "--test", "test/names.test.mjs"]
PARTS = ["node", "--test", "test/parts.test.mjs"]
ENGINE = ["node", "--test", "test/engine.test.mjs"]
STEPPER = ["node", "--test", "test/stepper.test.mjs"]
EXTENTS = ["node", "--test", "test/extents.test.mjs"]
LIBRARY_VECTORS = ["../conformance/run.py", "--every", "10", "protocol=node test/protocol.mjs"]
PROGRAM_VECTORS = ["../conformance/run.py", "--every", "60", "dasd-traced=node dasd.mjs"]


@dataclass
class Fault:
    """A planted fault, what is made anew of its file, and the tests that are asked, in their order."""

    name: str
    file: str
    old: str
    new: str
    tests: list[list[str]]
    made: tuple[str, ...] = ()


OF_MEMORY = ("out/parts.wasm", "out/library.wasm")
TWICE = ("memory.c", "else first_free = rest;\n    return it;", "return it;")
READ = "const part = this.#at(descriptor).file.bytes.subarray(at, at + into.length);"
GROWN = "(__builtin_wasm_memory_grow(0, pages) & 0xFFFFFFFFu) != 0xFFFFFFFFu"
FAULTS = [
    Fault("memory is given twice, natively", *TWICE, [IN_C], OF_MEMORY),
    Fault("memory is given twice, in the module", *TWICE, [PARTS], OF_MEMORY),
    Fault("memory is given twice, and the vectors are asked", *TWICE, [LIBRARY_VECTORS], OF_MEMORY),
    Fault("a block is eight bytes too small", "memory.c", "(bytes + sizeof(block) + 15)", "(bytes + sizeof(block) + 7)", [IN_C], OF_MEMORY),
    Fault(
        "what grows loses its last bytes",
        "memory.c", "it->bytes - sizeof(block));", "it->bytes - 2 * sizeof(block));", [IN_C, PARTS], OF_MEMORY,
    ),
    Fault("what is freed is never joined", "memory.c", "if (after && behind(it) == after)", "if (0)", [IN_C, PARTS], OF_MEMORY),
    Fault(
        "a refusal of memory.grow is compared in 64 bits",
        "memory.c", GROWN, "__builtin_wasm_memory_grow(0, pages) != (size_t)-1", [PARTS], OF_MEMORY,
    ),
    Fault(
        "the same, and the engine's tests are asked",
        "memory.c", GROWN, "__builtin_wasm_memory_grow(0, pages) != (size_t)-1", [ENGINE], OF_MEMORY,
    ),
    Fault("a function that nobody has is let in", "imports.txt", "program write\n", "program write\nprogram nobody\n", [MAKE]),
    Fault("a call is exported no more", "exports.txt", "library dasd_key\n", "", [NAMES], ("out/library.wasm",)),
    Fault("a read in memory is a byte off", "src/memory_files.mjs", READ, READ.replace("at, at", "at + 1, at + 1"), [ENGINE, STEPPER]),
    Fault(
        "a read of a real file is a byte off",
        "src/host_files.mjs", "into, 0, into.length, at)); }", "into, 0, into.length, at + 1)); }", [PROGRAM_VECTORS],
    ),
    Fault(
        "what is written goes to the front",
        "src/memory_files.mjs", "it.file.write(it.at, from);", "it.file.write(0, from);", [ENGINE, STEPPER],
    ),
    Fault("the caller's bytes are written", "src/memory_files.mjs", "if (this.#owned && length", "if (length", [ENGINE, STEPPER]),
    Fault("back is not to the start", "src/stepper.mjs", "this.#library.restore(this.#start);", "this.#library.checkpoint();", [STEPPER]),
    Fault("a step is a unit too far", "src/stepper.mjs", "to.unit - this.#at.unit);", "to.unit - this.#at.unit + 1);", [STEPPER]),
    Fault("a line of the trace comes a unit late", "src/tracing.mjs", "at: marks[mark] ?? last", "at: marks[mark + 1] ?? last", [STEPPER]),
    Fault("what another channel stores is not told", "src/tracing.mjs", "...event.stored.flatMap(storesOf), ", "", [STEPPER]),
    Fault(
        "a fault of the library is another's",
        "src/library.mjs", "throw Fault.of(code);\n    return code;", "throw Fault.of(code - 1);\n    return code;", [ENGINE],
    ),
    Fault("an extent of shared cylinders is a run of tracks", "src/extents.mjs", "if (type !== SHARED)", "if (type !== 0)", [EXTENTS]),
    Fault("all heads of shared cylinders are one data set's", "src/extents.mjs", "at * heads + head, at", "at * heads, at", [EXTENTS]),
    Fault(
        "of shared cylinders the picture is not told",
        "src/volume.mjs", "tracksOfExtent(extent, set.extentTypes[at], ", "tracksOfExtent(extent, undefined, ", [EXTENTS],
    ),
    Fault(
        "a name stands over all heads of shared cylinders",
        "src/picture_tracks.mjs", "set.extentTypes[at] === SHARED ?", "set.extentTypes[at] === 0 ?", [EXTENTS],
    ),
]


def status_within(command: list[str], folder: Path, seconds: float) -> int | None:
    """The status of a command; None where it did not end in time: it is killed then, with all that it started."""
    nothing = subprocess.DEVNULL
    ran = subprocess.Popen(command, cwd=folder, stdin=nothing, stdout=nothing, stderr=nothing, start_new_session=True)
    try:
        return ran.wait(seconds)
    except subprocess.TimeoutExpired:
        os.killpg(ran.pid, signal.SIGKILL)
        ran.wait()
        return None


class Copy:
    """Copies of web/, one after another, and how long its tests take without a fault."""

    def __init__(self, modules: str):
        self.modules = modules
        self.seconds: dict[str, float] = {}

    def made(self, room: Path) -> Path:
        """A copy of web/ beside all that its tests look at, without what only the program's module is made of."""
        for it in ("conformance", "c", "docs", "crates", "tools"):
            (room / it).symlink_to(WEB.parent / it)
        shutil.copytree(WEB, room / "web", ignore=shutil.ignore_patterns("program.o", "*.64.wasm", "__pycache__"))
        return room / "web"

    def limit(self, command: list[str]) -> float:
        """How long a test may take: it is run without a fault first, and must pass."""
        name = " ".join(command)
        if name not in self.seconds:
            with tempfile.TemporaryDirectory() as room:
                began = time.monotonic()
                subprocess.run(command, cwd=self.made(Path(room)), stdin=subprocess.DEVNULL, capture_output=True, check=True)
                self.seconds[name] = time.monotonic() - began
        return SECONDS + TIMES * self.seconds[name]

    def seen_by(self, fault: Fault) -> str | None:
        """Which command saw a fault: the first that fails, or is not done in time."""
        limits = [self.limit(it) for it in fault.tests]
        with tempfile.TemporaryDirectory() as room:
            web = self.made(Path(room))
            path = web / fault.file
            text = path.read_text()
            if text.count(fault.old) != 1:
                raise SystemExit(f"planted.py: {fault.file} has not once: {fault.old}")
            path.write_text(text.replace(fault.old, fault.new))
            making = ["make", "-s", f"MODULES={self.modules}", *fault.made]
            if fault.made and subprocess.run(making, cwd=web, capture_output=True, check=False).returncode:
                return "the making of its module"
            for command, limit in zip(fault.tests, limits):
                status = status_within(command, web, limit)
                if status is None:
                    return f"{' '.join(command)}, which came to no end"
                if status:
                    return " ".join(command)
        return None


def main() -> int:
    if len(sys.argv) not in (2, 3):
        sys.exit(__doc__)
    copy, words, unseen = Copy(str(Path(sys.argv[1]).resolve())), sys.argv[2] if len(sys.argv) == 3 else "", 0
    os.environ.pop("DASD_MODULES", None)
    for fault in FAULTS:
        if words in fault.name:
            seen = copy.seen_by(fault)
            unseen += seen is None
            print(f"{'seen' if seen else 'NOT SEEN'}: {fault.name}{f', by {seen}' if seen else ''}", flush=True)
    print(f"{unseen} not seen")
    return 1 if unseen else 0


if __name__ == "__main__":
    sys.exit(main())
