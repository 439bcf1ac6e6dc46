"""Faults planted in a tree from which a clone builds, each of which has to be reported by its name: in the functions for memory and for the
system, in compiled/, and between it and the headers.

The compiled code is stood in for by short texts (stand_in.py). What the check does over real code is release/check's to try."""

import contextlib
import io
import subprocess
import sys
import tempfile
import unittest
from pathlib import Path

HERE = Path(__file__).resolve().parent
sys.path[:0] = [str(HERE), str(HERE.parent), str(HERE.parent.parent)]

import compiled_text
import examine
from stand_in import calls_of, lay_out, replaced, sum_up, text_of

# Of a file of the tree: what it has once, and what a mistake makes of it.
IN_MEMORY = {
    "no byte for a request of none": ("c/heap.c", "answer(malloc(bytes ? bytes : align))", "answer(malloc(bytes))"),
    "none for one that grows to none": ("c/heap.c", "realloc(old, bytes ? bytes : align)", "realloc(old, bytes)"),
    "grown to the old size": ("c/heap.c", "realloc(old, bytes ? bytes : align)", "realloc(old, kept)"),
    "what was held is lost": ("c/heap.c", "realloc(old, bytes ? bytes : align)", "malloc(old ? bytes : align)"),
    "a refusal that is null": ("c/heap.c", "at ? at : nothing", "at"),
    "a refusal that is not told": ("c/heap.c", "at != NULL, at", "1, at"),
    "memory that is told as refused": ("c/heap.c", "at != NULL, at", "0, at"),
    "nothing is given back": ("c/heap.c", "{ free(at); }", "{ (void)at; }"),
    "a word too few": ("c/system.c", "count = (size_t)argc", "count = (size_t)argc - 1"),
    "words without an end": ("c/system.c", "index < count ? words[index] : NULL", "words[index]"),
    "a byte behind the room": ("c/system.c", "len == room", "len > room"),
    "room for one byte too few": ("c/system.c", "len == room", "len + 1 == room"),
    "the zero is counted": ("c/system.c", "return (int64_t)len", "return (int64_t)len + 1"),
    "the entry before": ("c/system.c", "index--) entry++", "--index) entry++"),
    "errno that is not set": ("c/system.c", "errno = number", "(void)number"),
    "errno that is not read": ("c/system.c", "return errno", "return 0"),
}
LIBRARIES = ("libdasd.a", "libdasd.so.1", "libdasd_drive.a")
NAMES = ("sh", "c/tests/names.sh", "cc", "libdasd.a", "libdasd.so.1")


class Planted(unittest.TestCase):
    """A tree with one fault."""

    def setUp(self) -> None:
        room = tempfile.TemporaryDirectory()
        self.addCleanup(room.cleanup)
        self.tree = Path(room.name, "dasd")
        lay_out(self.tree)

    def told(self, *command: str) -> str:
        """What a command says that has to fail."""
        ran = subprocess.run(command, cwd=self.tree, capture_output=True, text=True, check=False)
        self.assertNotEqual(ran.returncode, 0, ran.stdout)
        return ran.stdout + ran.stderr

    def passes(self, *command: str) -> None:
        """A command that has to pass."""
        ran = subprocess.run(command, cwd=self.tree, capture_output=True, text=True, check=False)
        self.assertEqual(ran.returncode, 0, ran.stdout + ran.stderr)

    def test_the_tree_as_it_is(self) -> None:
        self.passes("make", *LIBRARIES, "dasd")
        self.passes(*NAMES)
        self.passes("sh", "c/tests/names.sh", "cc", "libdasd_drive.a")
        self.passes("make", "-C", "c", "check-heap")

    def test_memory(self) -> None:
        for what, (name, old, new) in IN_MEMORY.items():
            with self.subTest(what):
                held = (self.tree / name).read_bytes()
                replaced(self.tree / name, old, new)
                self.assertFalse(examine.make(self.tree, "-C", "c", "check-heap")[0])
                (self.tree / name).write_bytes(held)

    def test_a_byte_of_the_code(self) -> None:
        for name in ("libdasd", "libdasd_drive", "dasd"):
            with self.subTest(name):
                text = self.tree / f"compiled/{name}-x86_64.s"
                text.write_text(text.read_text(encoding="utf-8").replace("\tret", "\tnop", 1), encoding="utf-8")
                built = f"{name}.a" if name.startswith("lib") else name
                said = f"compiled/{name}-x86_64.s is not that of this commit"
                self.assertIn(said, self.told("make", built))
                self.assertIn(said, self.told("sh", "tools/build/origin.sh"))

    def test_a_byte_for_another_machine(self) -> None:
        with (self.tree / "compiled/libdasd-aarch64.s").open("a", encoding="utf-8") as text:
            text.write("\tnop\n")
        said = self.told("sh", "tools/build/origin.sh")
        self.assertEqual(said.count("is not that of this commit"), 1)
        self.assertIn("compiled/libdasd-aarch64.s is not that of this commit", said)

    def test_a_module_of_another_commit(self) -> None:
        with (self.tree / "release/compiled.sha256").open("a", encoding="utf-8") as sums:
            sums.write("aa  dasd_c.bc\n")
        self.assertIn("compiled/ORIGIN has other modules than release/compiled.sha256", self.told("sh", "tools/build/origin.sh"))

    def test_a_digit_of_a_sum(self) -> None:
        sums = self.tree / "release/compiled.sha256"
        sums.write_text("".join(("0" if it[0] != "0" else "1") + it[1:] for it in sums.read_text(encoding="utf-8").splitlines(True)))
        self.assertIn("compiled/libdasd-x86_64.s is not that of this commit", self.told("make", "libdasd.a"))

    def test_a_missing_text(self) -> None:
        (self.tree / "compiled/dasd-x86_64.s").unlink()
        self.assertIn("compiled/dasd-x86_64.s is not here", self.told("make", "dasd"))

    def commit(self) -> str:
        """Makes the tree a repository of one commit more; the id of its crates/."""
        git = ("git", "-c", "user.name=a", "-c", "user.email=a@b")
        self.passes("git", "init", "-q")
        self.passes(*git, "add", "--all")
        self.passes(*git, "commit", "-qm", "a commit")
        return subprocess.run(("git", "rev-parse", "HEAD:crates"), cwd=self.tree, check=True, capture_output=True, text=True).stdout.strip()

    def test_the_text_of_an_older_commit(self) -> None:
        (self.tree / "crates").mkdir()
        (self.tree / "crates" / "one.rt").write_text("old\n", encoding="utf-8")
        origin = self.tree / "compiled" / "ORIGIN"
        origin.write_text(f"Crates    {self.commit()}\n", encoding="utf-8")
        self.commit()
        self.passes("sh", "tools/build/origin.sh")
        # text, sums and origin are older, and agree; the crates went on
        (self.tree / "crates" / "one.rt").write_text("new\n", encoding="utf-8")
        newer = self.commit()
        said = self.told("sh", "tools/build/origin.sh")
        self.assertIn("compiled/ is that of another commit", said)
        self.assertIn(newer, said)

    def test_a_call_that_the_text_lacks(self) -> None:
        replaced(self.tree / "c/dasd.h", "\nint32_t dasd_free(", "\nint32_t dasd_planted(dasd *d);\n\nint32_t dasd_free(")
        self.passes("make", *LIBRARIES)
        self.assertIn("dasd.h declares dasd_planted, and libdasd.a does not have it", self.told(*NAMES))

    def test_a_call_that_the_header_lacks(self) -> None:
        text = self.tree / "compiled/libdasd-x86_64.s"
        text.write_text(text_of([*calls_of("dasd.h"), "dasd_planted"], "call rattle_alloc@PLT\n\tret"), encoding="utf-8")
        sum_up(self.tree)
        self.passes("make", *LIBRARIES)
        self.assertIn("libdasd.a shows dasd_planted, and dasd.h does not declare it", self.told(*NAMES))

    def test_a_struct_whose_size_changed(self) -> None:
        replaced(self.tree / "c/dasd.h", "} dasd_track;", "    uint16_t planted;\n} dasd_track;")
        self.passes("cc", "-o", "sizes", "c/tests/sizes.c")
        self.assertIn("dasd_track has 8 bytes in the header, and the compiled library takes 6", self.told("./sizes"))

    def test_a_struct_without_a_size(self) -> None:
        replaced(self.tree / "c/dasd.h", "} dasd_track;", "} dasd_track;\n\ntypedef struct dasd_planted {\n    int it;\n} dasd_planted;")
        self.passes("make", *LIBRARIES)
        self.assertIn("dasd.h has the struct dasd_planted, and sizes.c has no size of it", self.told(*NAMES))

    def test_a_compiler_that_is_not_there(self) -> None:
        said = self.told("make", "CC=s390x-linux-gnu-gcc", "libdasd.a").splitlines()
        self.assertIn("make: the compiler s390x-linux-gnu-gcc is missing: Debian's package gcc-s390x-linux-gnu has it", said)

    def test_a_target_that_is_not_there(self) -> None:
        compiler = self.tree / "cc"
        compiler.write_text("#!/bin/sh\ncase $* in *-dumpmachine*) echo s390x-ibm-linux;; *-E*) echo '#define __s390x__ 1';; *) exec gcc \"$@\";; esac\n")
        compiler.chmod(0o755)
        self.assertIn("nothing for s390x-ibm-linux", self.told("make", f"CC={compiler}", "libdasd.a"))

    def test_a_build_with_unset_names(self) -> None:
        ran = subprocess.run(["sh", "-u", str(self.tree / "tools/build/target.sh"), "cc"], capture_output=True, text=True, check=False)
        self.assertIn(ran.stdout.strip(), ("x86_64", "aarch64"))


class Compared(unittest.TestCase):
    """What the gate compares of compiled/ with what the proved modules give."""

    def setUp(self) -> None:
        room = tempfile.TemporaryDirectory()
        self.addCleanup(room.cleanup)
        self.made, self.kept = Path(room.name, "made"), Path(room.name, "kept")
        for folder in (self.made, self.kept):
            folder.mkdir()
            for name in ("dasd-x86_64.s", "libdasd.wasm"):
                (folder / name).write_text(name, encoding="utf-8")
        self.sums, self.kit, self.crates = "aa  dasd_c.bc\nbb  dasd-x86_64.s\n", "kit-one logic cc", "dd"
        origin = compiled_text.origin
        self.addCleanup(setattr, compiled_text, "origin", origin)
        compiled_text.origin = self.origin
        compiled_text.write(self.made, self.sums, self.kept)

    def origin(self, sums: str) -> str:
        """What ORIGIN has to be."""
        modules = "".join(f"{it}\n" for it in sums.splitlines() if it.endswith(".bc"))
        return compiled_text.ORIGIN.format(kit=self.kit, crates=self.crates, modules=modules)

    def differing(self) -> list[str]:
        """What is reported."""
        return compiled_text.differing(self.made, self.sums, self.kept)

    def test_nothing(self) -> None:
        self.assertEqual(self.differing(), [])

    def test_a_byte(self) -> None:
        (self.kept / "dasd-x86_64.s").write_text("other", encoding="utf-8")
        self.assertEqual(self.differing(), ["compiled/dasd-x86_64.s is not what the proved module gives"])

    def test_files_of_one_side(self) -> None:
        (self.made / "new-x86_64.s").write_text("", encoding="utf-8")
        (self.kept / "old-x86_64.s").write_text("", encoding="utf-8")
        self.assertEqual(self.differing(), ["compiled/new-x86_64.s is not here", "compiled/old-x86_64.s was not made"])

    def test_a_module_of_webassembly_that_could_not_be_made(self) -> None:
        (self.made / "libdasd.wasm").unlink()
        self.assertEqual(self.differing(), [])

    def test_another_module(self) -> None:
        self.sums = self.sums.replace("aa", "ab")
        self.assertEqual(self.differing(), ["compiled/ORIGIN has aa for dasd_c.bc, and it is ab"])

    def test_a_module_of_one_side(self) -> None:
        self.sums = self.sums.replace("dasd_c.bc", "dasd_d.bc")
        wanted = ["compiled/ORIGIN has aa for dasd_c.bc, and it is none", "compiled/ORIGIN has none for dasd_d.bc, and it is aa"]
        self.assertEqual(self.differing(), wanted)

    def test_other_crates(self) -> None:
        self.crates = "de"
        self.assertEqual(self.differing(), ["compiled/ORIGIN has dd for the tree of crates/, and it is de"])

    def test_no_origin(self) -> None:
        (self.kept / "ORIGIN").unlink()
        self.assertEqual(self.differing(), ["compiled/ORIGIN is not here"])

    def test_another_toolchain_with_the_same_bytes(self) -> None:
        self.kit = "kit-two logic cc"
        with contextlib.redirect_stdout(io.StringIO()) as said:
            self.assertEqual(self.differing(), [])
            # and nothing is written for its sake
            compiled_text.write(self.made, self.sums, self.kept)
        self.assertIn("names the toolchain kit-one logic cc, and this one is kit-two logic cc\n", said.getvalue())
        self.assertIn("Toolchain kit-one logic cc\n", (self.kept / "ORIGIN").read_text(encoding="utf-8"))


if __name__ == "__main__":
    unittest.main()
