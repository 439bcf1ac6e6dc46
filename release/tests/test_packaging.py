"""Faults planted in what the packages are made of, and in a root from which they are taken off: each has to be seen.

The library is stood in for by assembly that has the names of dasd.h and takes memory alone: neither the kit nor a module is wanted. What
is made of a release is tried by try_in_clean_root."""

import base64
import gzip
import json
import os
import shutil
import subprocess
import sys
import tarfile
import tempfile
import unittest
import zipfile
from pathlib import Path
from typing import Tuple

HERE = Path(__file__).resolve().parent
RELEASE = HERE.parent
sys.path[:0] = [str(HERE), str(RELEASE)]

import package_pages
from clean_root import Root
from stand_in import CALLS, lay_out, replaced, sum_up

TAKES = "answer(malloc(bytes ? bytes : align))"


class Planted(unittest.TestCase):
    """A tree of a release, whole or with one fault."""

    def setUp(self) -> None:
        room = tempfile.TemporaryDirectory()
        self.addCleanup(room.cleanup)
        self.room = Path(room.name)
        self.tree, self.out = self.room / "dasd", self.room / "out"
        lay_out(self.tree)

    def make(self, script: str) -> Tuple[int, str]:
        """Calls a script with the tree; its status, and what it printed."""
        if script == "make_wheels" and shutil.which("aarch64-linux-gnu-gcc") is None:
            self.skipTest("no aarch64-linux-gnu-gcc here")
        how = {**os.environ, "SOURCE_DATE_EPOCH": "1700000000"}
        done = subprocess.run([str(RELEASE / script), str(self.tree), str(self.out)], env=how, capture_output=True, text=True, check=False)
        return done.returncode, done.stdout + done.stderr

    def refused(self, script: str, why: str) -> None:
        """A script ends with status 1, and says why."""
        status, text = self.make(script)
        self.assertEqual((status, why in text), (1, True), text)

    def test_a_whole_tree_gives_wheels_with_the_library(self) -> None:
        self.assertEqual(self.make("make_wheels")[0], 0)
        for machine in CALLS:
            with zipfile.ZipFile(next(self.out.glob(f"dasd-*_{machine}.whl"))) as wheel:
                self.assertLessEqual({"dasd/libdasd.so.1", "dasd/program"}, set(wheel.namelist()))
        self.assertTrue(list(self.out.glob("dasd_catalogue-*-py3-none-any.whl")))

    def test_a_whole_tree_gives_crates_with_the_library(self) -> None:
        if shutil.which("cargo") is None:
            self.skipTest("no cargo here")
        self.assertEqual(self.make("make_crates")[0], 0)
        with tarfile.open(next(self.out.glob("dasd-sys-*.crate"))) as crate:
            self.assertTrue([it for it in crate.getnames() if it.endswith("library/libdasd-aarch64.s")])

    def test_a_missing_file(self) -> None:
        (self.tree / "THIRD_PARTY").unlink()
        for script in ("make_packages", "make_wheels", "make_crates"):
            self.refused(script, "has no THIRD_PARTY")

    def test_a_missing_library(self) -> None:
        (self.tree / "compiled" / "libdasd-aarch64.s").unlink()
        for script in ("make_packages", "make_wheels", "make_crates"):
            self.refused(script, "has no library for aarch64")

    def test_a_wrong_sum(self) -> None:
        text = self.tree / "compiled" / "libdasd-x86_64.s"
        text.write_text(text.read_text(encoding="utf-8") + "\n", encoding="utf-8")
        for script in ("make_packages", "make_wheels", "make_crates"):
            self.refused(script, "is not what release/compiled.sha256 says")

    def test_a_library_left_out_of_the_wheel(self) -> None:
        setup = self.tree / "python" / "setup.py"
        replaced(setup, '            self.compile_library(Path(self.build_lib, "dasd", SHARED))', "            pass")
        self.refused("make_wheels", "the wheel has no library")

    def test_a_program_left_out_of_the_wheel(self) -> None:
        setup = self.tree / "python" / "setup.py"
        replaced(setup, '            self.compile_program(Path(self.build_lib, "dasd", "program"))\n', "")
        self.refused("make_wheels", "program")

    def test_notices_left_out_of_the_wheel(self) -> None:
        replaced(self.tree / "python" / "pyproject.toml", 'license-files = ["LICENSE", "THIRD_PARTY*"]', 'license-files = ["LICENSE"]')
        self.refused("make_wheels", "THIRD_PARTY")

    def test_a_library_that_wants_a_later_system(self) -> None:
        replaced(self.tree / "c" / "heap.c", TAKES, "answer(arc4random() ? malloc(bytes ? bytes : align) : NULL)")
        self.refused("make_wheels", "the library wants version 2.36 of the C library")

    def test_a_call_that_the_library_does_not_show(self) -> None:
        text = self.tree / "compiled" / "libdasd-x86_64.s"
        replaced(text, "\t.globl dasd_tch\n", "")
        sum_up(self.tree)
        self.refused("make_wheels", "shows other names than dasd.h has")

    def test_a_page_left_out_of_the_catalogue(self) -> None:
        replaced(self.tree / "catalogue" / "pyproject.toml", '"pack_page.html", ', "")
        self.refused("make_wheels", "has no pack_page.html")

    def test_a_page_that_is_not_made(self) -> None:
        replaced(self.tree / "web" / "make_page", "echo", "exit 1; echo")
        self.refused("make_wheels", "the page that shows packs was not made")

    def test_a_header_left_out_of_the_crate(self) -> None:
        if shutil.which("cargo") is None:
            self.skipTest("no cargo here")
        replaced(self.tree / "c" / "heap.c", '#include "memory.h"', '#include "memory.h"\n#include "planted.h"')
        self.refused("make_crates", "planted.h")

    def test_an_item_of_a_crate_without_a_text(self) -> None:
        if shutil.which("cargo") is None:
            self.skipTest("no cargo here")
        replaced(self.tree / "rust" / "dasd" / "src" / "words.rs", "    /// The storage key of the channel program.\n", "")
        self.refused("make_crates", "missing documentation")


class Pages(unittest.TestCase):
    """The pages of a package that has the pages alone."""

    def test_a_link_that_leads_nowhere_becomes_text(self) -> None:
        with tempfile.TemporaryDirectory() as room:
            tree, folder = Path(room, "tree"), Path(room, "folder")
            (tree / "docs" / "pictures").mkdir(parents=True)
            (tree / "README.md").write_text("[a](docs/A.md#b) [c](crates/c/README.md) [d](https://d.invalid) [e](#e)\n", encoding="utf-8")
            (tree / "docs" / "A.md").write_text("[top](../README.md) [c](../crates/c.rt) ![p](pictures/p.png) [v](../try/#vector=v)\n", encoding="utf-8")
            (tree / "docs" / "pictures" / "p.png").touch()
            self.assertEqual(package_pages.put(tree, folder), (2, 2))
            self.assertEqual((folder / "README.md").read_text(), "[a](docs/A.md#b) c [d](https://d.invalid) [e](#e)\n")
            self.assertEqual((folder / "docs" / "A.md").read_text(), "[top](../README.md) c ![p](pictures/p.png) [v](../try/index.html#vector=v)\n")

    def test_links_out_of_a_folder_become_text(self) -> None:
        with tempfile.TemporaryDirectory() as room:
            page = Path(room, "README.md")
            page.write_text("[out\nof it](../docs/A.md), [itself](README.md)\n", encoding="utf-8")
            self.assertEqual(package_pages.put_text(Path(room)), (1, 1))
            self.assertEqual(page.read_text(encoding="utf-8"), "out\nof it, [itself](README.md)\n")
            self.assertEqual(package_pages.check(Path(room)), (1, 0, []))

    def test_links_are_followed(self) -> None:
        with tempfile.TemporaryDirectory() as room:
            folder = Path(room)
            places = "[v](../try/index.html#vector=v) [d](../try/index.html#deck=a%20b) [t](../try/index.html#track=1.1)"
            page = f"[top](../README.md) ![p](pictures/p.png) {places}"
            (folder / "docs" / "pictures").mkdir(parents=True)
            (folder / "try").mkdir()
            (folder / "README.md").write_text("[a](docs/A.md#b) [d](https://d.invalid)\n", encoding="utf-8")
            (folder / "docs" / "A.md").write_text(page, encoding="utf-8")
            (folder / "docs" / "pictures" / "p.png").touch()
            examples = json.dumps({"examples": [{"kind": "vector", "name": "v"}, {"kind": "page", "name": "a b"}]}).encode()
            text = f'<script id="examples.json">{base64.b64encode(gzip.compress(examples)).decode()}</script>'
            (folder / "try" / "index.html").write_text(text, encoding="utf-8")
            self.assertEqual(package_pages.check(folder), (6, 3, []))
            (folder / "docs" / "A.md").write_text(page.replace("vector=v", "vector=a%20b").replace("/index.html#deck", "/#deck"), encoding="utf-8")
            self.assertEqual(package_pages.check(folder)[2], ["docs/A.md: the page in the browser has no #vector=a b", "docs/A.md: no file try"])
            # as dh_compress leaves pages
            (folder / "docs" / "A.md").unlink()
            (folder / "docs" / "A.md.gz").write_bytes(gzip.compress(page.encode()))
            self.assertEqual(package_pages.check(folder)[2], ["README.md: no file docs/A.md"])


class Removed(unittest.TestCase):
    """A root from which something was taken off."""

    def setUp(self) -> None:
        room = tempfile.TemporaryDirectory()
        self.addCleanup(room.cleanup)
        source = Path(room.name, "source")
        for name in ("etc", "usr/bin", "var/lib/dpkg/info", "var/cache"):
            (source / name).mkdir(parents=True)
        (source / "etc" / "passwd").write_text("root\n")
        tar = Path(room.name, "root.tar")
        subprocess.run(["tar", "-C", str(source), "-cf", str(tar), "."], check=True)
        given = Path(room.name, "given")
        given.mkdir()
        self.root = Root("root", tar, given, Path(room.name))
        self.before = self.root.files()

    def left(self) -> int:
        """How many files are told as left behind."""
        self.root.compare(self.before)
        return self.root.left

    def test_nothing(self) -> None:
        (self.root.place / "var" / "cache" / "apt").mkdir()
        (self.root.place / "try" / "work.ckd").touch()
        self.assertEqual(self.left(), 0)

    def test_a_file_left_behind(self) -> None:
        (self.root.place / "usr" / "bin" / "dasd").touch()
        self.assertEqual(self.left(), 1)

    def test_a_folder_left_behind(self) -> None:
        (self.root.place / "usr" / "share").mkdir()
        self.assertEqual(self.left(), 1)

    def test_a_record_of_a_package_left_behind(self) -> None:
        (self.root.place / "var/lib/dpkg/info/dasd.list").touch()
        self.assertEqual(self.left(), 1)

    def test_a_file_that_is_another(self) -> None:
        (self.root.place / "etc" / "passwd").write_text("root\ndasd\n")
        self.assertEqual(self.left(), 1)

    def test_a_file_that_is_gone(self) -> None:
        (self.root.place / "etc" / "passwd").unlink()
        self.assertEqual(self.left(), 1)

    def test_vectors_are_counted(self) -> None:
        self.root.count_vectors("python: 529 of 530 vectors come out as they must\nall                          530     530       0\n")
        self.assertEqual((self.root.vectors, self.root.wrong), (1059, 1))


if __name__ == "__main__":
    unittest.main()
