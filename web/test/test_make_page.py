"""What make_page and dasd.mjs do with compiled/, in a small copy of the repository: `python3 test/test_make_page.py`. Its modules are no modules."""

import base64
import gzip
import hashlib
import os
import re
import shutil
import subprocess
import tempfile
import unittest
from pathlib import Path

TOP = Path(__file__).resolve().parent.parent.parent
# the modules by the names that they have in compiled/, and those by which they are in the page
MODULES = {"libdasd.wasm": "library.wasm", "dasd.wasm": "program.wasm"}


class MakePage(unittest.TestCase):
    """A copy for each test, whose compiled/ has the sums of its commit."""

    def setUp(self) -> None:
        folder = tempfile.TemporaryDirectory()
        self.addCleanup(folder.cleanup)
        self.top = Path(folder.name)
        for name in ("conformance", "docs", "tools", "rows", "THIRD_PARTY", "LICENSE", "VERSION"):
            (self.top / name).symlink_to(TOP / name)
        shutil.copytree(TOP / "web", self.top / "web", ignore=shutil.ignore_patterns("out"))
        (self.top / "compiled").mkdir()
        (self.top / "release").mkdir()
        shutil.copyfile(TOP / "release" / "identity", self.top / "release" / "identity")
        lines = []
        for name in MODULES:
            (self.top / "compiled" / name).write_bytes(name.encode() * 99)
            lines.append(f"{hashlib.sha256(name.encode() * 99).hexdigest()}  {name}\n")
        (self.top / "release" / "compiled.sha256").write_text("".join(lines), encoding="utf-8")

    def made(self, *words: str) -> subprocess.CompletedProcess[str]:
        """Runs make_page for page.html, with more words."""
        command = [str(self.top / "web" / "make_page"), str(self.top / "page.html"), *words]
        return subprocess.run(command, capture_output=True, text=True, check=False)

    def refused(self, why: str) -> None:
        """Looks that no page is made, and that the one that is there stays."""
        (self.top / "page.html").write_text("before", encoding="utf-8")
        ran = self.made()
        self.assertEqual(ran.returncode, 1)
        self.assertIn(why, ran.stderr)
        self.assertEqual((self.top / "page.html").read_text(encoding="utf-8"), "before")

    def test_the_page_has_the_modules(self) -> None:
        ran = self.made()
        self.assertEqual((ran.returncode, ran.stderr), (0, ""))
        text = (self.top / "page.html").read_text(encoding="utf-8")
        for name, inside in MODULES.items():
            found = re.findall(rf'id="{inside}">([^<]*)<', text)
            self.assertEqual([gzip.decompress(base64.b64decode(it)) for it in found], [name.encode() * 99])

    def test_another_folder_needs_no_sums(self) -> None:
        (self.top / "compiled").rename(self.top / "other")
        (self.top / "release" / "compiled.sha256").unlink()
        self.assertEqual(self.made(str(self.top / "other")).returncode, 0)

    def test_modules_that_are_not_there(self) -> None:
        (self.top / "compiled" / "dasd.wasm").unlink()
        self.refused("dasd.wasm is not here")

    def test_modules_of_another_commit(self) -> None:
        (self.top / "compiled" / "libdasd.wasm").write_bytes(b"other")
        self.refused("compiled/libdasd.wasm is not that of this commit")

    def test_node_takes_the_program(self) -> None:
        command = ["node", str(self.top / "web" / "dasd.mjs"), "--version"]
        ran = subprocess.run(command, env={"PATH": os.environ["PATH"]}, capture_output=True, text=True, check=False)
        self.assertIn("expected magic word", ran.stderr)
        (self.top / "compiled" / "dasd.wasm").unlink()
        ran = subprocess.run(command, env={"PATH": os.environ["PATH"]}, capture_output=True, text=True, check=False)
        self.assertIn("there is no module", ran.stderr)


if __name__ == "__main__":
    unittest.main()
