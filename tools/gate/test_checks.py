"""Tests of the checks: the rows of rows/data/checks, and what no row can say of check_crates.py, check_formats.py, check_messages.py,
check_version.py, check_words.py, page_examples.py, lost_power.py, try_edits.py, map.py, assumptions.py, inline_marks.py and sharpness.py;
and the table of code page 037: `tools/run gate/test_checks`."""

import contextlib
import io
import os
import re
import tempfile
import unittest
from collections.abc import Mapping
from concurrent.futures import ThreadPoolExecutor
from pathlib import Path
from unittest import mock

from rows.player.files import all_rows
from rows.player.text import Skipped
from tools import TOP
from tools.gate import check_crates, check_formats, check_messages, check_version, check_words, page_examples, run_pages, try_edits
from tools.gate.lost_power import Call, Lead, State, Sync, Traced, Write, states
from tools.make import assumptions, inline_marks
from tools.make import map as crate_map
from tools.measure import sharpness

COPIES = {"README.md": check_version.COPIES["README.md"], "CHANGELOG.md": check_version.COPIES["CHANGELOG.md"]}
# A crate with wrong bodies of two functions, one of which reads as the other does, and three that can't stand beside a right one.
BODIES = {
    "crates/low/src/lib.rt": """mod trait_of;

pub fn least(one: u32, other: u32) -> u32
    ensures { result ≡ min one other }
{
    if one < other { one } else { other }
}

pub fn most(one: u32, other: u32) -> u32 {
    if other < one { one } else { other }
}
""",
    "crates/low/src/trait_of.rt": """impl Least for Pair {
    fn least(&self) -> u32 {
        self.one
    }
}
""",
    "crates/low/specs/Word.antt": "word = 1\n",
    "crates/low/must-fail/always_the_first.edit": "file: src/lib.rt\nold: { other }\nnew: { one }\n",
    "crates/low/must-fail/greatest.edit": "file: src/lib.rt\nold: one < other\nnew: other < one\n",
    "crates/low/must-fail/most_is_least.edit": "file: src/lib.rt\nold: if other < one\nnew: if one < other\n",
    "crates/low/must-fail/another_definition.edit": "file: specs/Word.antt\nold: 1\nnew: 2\n",
    "crates/low/must-fail/method_of_a_trait.edit": "file: src/trait_of.rt\nold: self.one\nnew: self.other\n",
    "tools/wrong_bodies/suite/always_the_second.edit": "file: crates/low/src/lib.rt\nold: { one }\nnew: { other }\n",
    "tools/wrong_bodies/suite/stale.edit": "file: crates/low/src/lib.rt\nold: not there\nnew: there\n",
}


def write(top: str, files: Mapping[str, str | None]) -> None:
    """Makes files below a folder."""
    for name, text in files.items():
        page = Path(top, name)
        page.parent.mkdir(parents=True, exist_ok=True)
        if text is not None:
            page.write_text(text, encoding="utf-8")


class Rows(unittest.TestCase):
    """The rows of checks, each in a small repository of its own."""

    def test_rows(self) -> None:
        with ThreadPoolExecutor() as pool:
            playing = {name: pool.submit(play) for name, play in all_rows("", "checks")}
        for name, it in playing.items():
            with self.subTest(name):
                why = it.exception()
                if isinstance(why, Skipped):
                    self.skipTest(str(why))
                self.assertIsNone(why, f"{vars(why)}" if why else None)


class Versions(unittest.TestCase):
    """What is said of copies of the version."""

    def finds(self, page: str, *lines: str) -> None:
        """It prints these lines of a repository with this page, and the last one counts them."""
        printed = io.StringIO()
        with tempfile.TemporaryDirectory() as folder, mock.patch.multiple(check_version, TOP=Path(folder), COPIES=COPIES):
            write(folder, {"VERSION": "2.3.4\n", "README.md": page, "CHANGELOG.md": "# Changes\n\n## 2.3.4\n\n## 2.3.3\n"})
            with contextlib.redirect_stdout(printed):
                self.assertEqual(check_version.main(), 1 if lines else 0)
        self.assertEqual(printed.getvalue().splitlines()[:-1], list(lines))

    def test_versions(self) -> None:
        self.finds("Version 2.3.4.\n")
        self.finds("Version 2.3.3.\n", "README.md: 2.3.3, and VERSION has 2.3.4")
        self.finds("\n", "README.md: no version, and VERSION has 2.3.4")


class WrongBodies(unittest.TestCase):
    """What `sharpness.py` plants."""

    def plant(self, folder: str, own: str) -> tuple[list[str], list[str]]:
        """The names that were planted, in the order of their numbers, and those that were left out."""
        planted = sharpness.Planted(Path(folder))
        suite = sharpness.Suite(("low",), "low", (), own=own)
        planted.plant(sharpness.edits_of(Path(folder), suite, ["low"]))
        return list(planted.numbers), sorted(planted.left_out)

    def test_bodies_stand_beside_the_right_one(self) -> None:
        with tempfile.TemporaryDirectory() as folder:
            write(folder, BODIES)
            with mock.patch.object(sharpness, "TOP", Path(folder)):
                planted, left_out = self.plant(folder, "suite")
            code = Path(folder, "crates/low/src/lib.rt").read_text(encoding="utf-8")
        bodies = [
            ("low/always_the_first", "least", "if one < other { one } else { one }"),
            ("low/greatest", "least", "if other < one { one } else { other }"),
            ("low/most_is_least", "most", "if one < other { one } else { other }"),
            ("suite: always_the_second", "least", "if one < other { other } else { other }"),
        ]
        self.assertEqual(planted, [name for name, _, _ in bodies])
        self.assertEqual(left_out, ["low/another_definition", "low/method_of_a_trait", "suite: stale"])
        self.assertTrue(code.startswith("mod wrong_body;\nmod trait_of;\n"))
        for number, (_, function, body) in enumerate(bodies, 1):
            wrong = f"{function}_wrong_{number}"
            call = f"if crate::wrong_body::number() == {number} {{ return {wrong}(one, other); }}\n"
            right = code[code.index(f"pub fn {function}(") :].partition("\n}\n")[0]
            self.assertIn(call, right)
            copy = code[code.index(f"\nfn {wrong}(") :].partition("\n}\n")[0]
            self.assertEqual(copy.splitlines()[-1].strip(), body)
            self.assertNotIn("wrong_body", copy)

    def test_no_body_that_no_run_shows(self) -> None:
        with tempfile.TemporaryDirectory() as folder:
            write(folder, BODIES)
            with mock.patch.multiple(sharpness, TOP=Path(folder), NO_RUN_SHOWS={"low/greatest": "it is so"}):
                planted, left_out = self.plant(folder, "another")
        self.assertEqual(planted, ["low/always_the_first", "low/most_is_least"])
        self.assertIn("low/greatest", left_out)

    def test_a_body_that_one_suite_leaves_is_taken_by_another(self) -> None:
        edit = "file: src/lib.rt\nold: { other }\nnew: { one }\n"
        with tempfile.TemporaryDirectory() as folder:
            write(folder, {"tools/edits/low/late.edit": edit, "tools/edits/low/round.edit": edit})
            with mock.patch.object(sharpness, "TOP", Path(folder)):
                leaving = sharpness.Suite(("low",), "low", (), leaves=("low/round",))
                taking = sharpness.Suite((), "low", (), takes=("low/round",))
                found = [[it.name for it in sharpness.edits_of(Path(folder), suite, suite.crates)] for suite in (leaving, taking)]
        self.assertEqual(found, [["low/late"], ["low/round"]])


class Edits(unittest.TestCase):
    """Which edits have their turn, and how long they are tried."""

    EDITS = {crate: [Path(f"{crate}{it}.edit") for it in range(10)] for crate in ("low", "high", "quick", "slow")}

    def test_turns(self) -> None:
        chosen = [try_edits.turns(self.EDITS, f"commit {it}") for it in range(200)]
        self.assertEqual({sum(map(len, it.values())) for it in chosen}, {4})
        self.assertEqual({edit for it in chosen for some in it.values() for edit in some}, {it for some in self.EDITS.values() for it in some})
        self.assertEqual(len(try_edits.turns({"low": self.EDITS["low"] * 10}, "commit")["low"]), try_edits.OF_CRATE)

    def tried(self, seconds: float, *crates: str) -> tuple[bool, str]:
        """What comes of edits of these crates, by a checker that lets those of `high` through and is slow at those of `slow`."""
        printed = io.StringIO()
        with tempfile.TemporaryDirectory() as folder:
            write(folder, {"rt": '#!/bin/sh\ncase $2 in slow) exec sleep 60 ;; high) exit 1 ;; esac\n'})
            Path(folder, "rt").chmod(0o755)
            with mock.patch.dict(os.environ, {"PATH": f"{folder}:{os.environ['PATH']}"}), contextlib.redirect_stdout(printed):
                is_right = try_edits.try_within(Path(folder), {it: self.EDITS[it][:2] for it in crates}, seconds)
        return is_right, printed.getvalue()

    def test_time(self) -> None:
        self.assertEqual(self.tried(60, "low", "quick"), (True, ""))
        self.assertEqual(self.tried(60, "low", "high", "quick"), (False, ""))
        self.assertEqual(self.tried(2, "quick", "slow", "low"), (True, "not tried in 2 seconds: slow/slow0, slow/slow1, low/low0, low/low1\n"))


class Clauses(unittest.TestCase):
    """Which functions have a clause about their result."""

    CODE = """pub fn least(one: u32) -> u32
    ensures { result ≡ one }
{
    one
}

// pub fn commented()
fn most<T>(
    one: u32,
) -> u32
    requires { one < 2 }
{
    one
}

impl Least for Pair {
    fn least(&self) -> u32 {
        self.one
    }
}

impl Most for Pair {
    fn most(&self) -> u32 {
        self.one
    }
}

#[test]
fn least_is_least() {
}
"""

    def test_functions(self) -> None:
        with tempfile.TemporaryDirectory() as folder:
            path = Path(folder, "lib.rt")
            path.write_text(self.CODE, encoding="utf-8")
            with mock.patch.object(assumptions, "TOP", Path(folder)):
                found = list(assumptions.functions_in(path, {"Least"}))
        self.assertEqual([it.where for it in found], ["lib.rt:1 least", "lib.rt:8 most", "lib.rt:17 least", "lib.rt:23 most"])
        self.assertEqual([it.has_clause for it in found], [True, False, True, False])
        self.assertEqual([it.is_public for it in found], [True, False, False, False])
        self.assertEqual([it.lines for it in found], [5, 7, 3, 3])


class Marks(unittest.TestCase):
    """Marks of sources in the text of a module."""

    def test_marks(self) -> None:
        source = "#[inline(always)]\n/// Doc\npub fn one(&self) {}\nfn two() {}\n    #[inline]\n    pub(crate) fn three<T>() {}\n"
        self.assertEqual(list(inline_marks.marked_in(source)), [("one", "alwaysinline"), ("three", "inlinehint")])

    def test_functions_of_a_module(self) -> None:
        marks = {("low", "words", "one"): "alwaysinline", ("low", "tracks", "two"): "inlinehint"}
        for symbol, mark in (
            ("low::words::one", "alwaysinline"),
            ("low::words::Word::one::<u8>", "alwaysinline"),
            ("low::Track::two", "inlinehint"),
            ("low::tracks::two", "inlinehint"),
            ("low::words::two", None),
            ("high::words::one", None),
        ):
            self.assertEqual(inline_marks.mark_of(symbol, marks), mark, symbol)
        line = 'define internal i8 @"low::words::one"(ptr %a) #0 {\n'
        self.assertEqual(inline_marks.with_mark(line, marks), line.replace(" #0", " alwaysinline #0"))


class Crates(unittest.TestCase):
    """What is wrong with crates.txt, and the tables of docs/MAP.md that are made of it."""

    LIST = "## The machine\n\n# Words\nlow:\nmid: low core\n\n## The program and its volumes\n\n# Volumes\nhigh: low mid\n"
    MARKS = "".join(f"<!-- {part}: begin -->\nold\n<!-- {part}: end -->\n" for part in check_crates.PARTS)

    def finds(self, text: str, *words: str) -> None:
        """Each fault has its word, in order."""
        faults = list(check_crates.faults_of(list(check_crates.crates_of(text))))
        self.assertEqual([word in fault for word, fault in zip(words, faults, strict=True)], [True] * len(words), faults)

    def test_crates_in_order(self) -> None:
        self.finds(self.LIST)

    def test_crate_that_uses_one_below_it(self) -> None:
        self.finds(self.LIST.replace("low:", "low: high"), "low uses high")

    def test_crate_in_no_part(self) -> None:
        self.finds(self.LIST.replace("## The machine", "## Machines"), "low is in no part", "mid is in no part")

    def test_first_sentence(self) -> None:
        said = "Bytes, as [LABELS](../../docs/LABELS.md) has\nthem, in `a.txt`; pure"
        self.assertEqual(crate_map.first_sentence(f"# `low`\n\n{said}. More.\n"), "Bytes, as LABELS has them, in `a.txt`; pure")
        self.assertIsNone(crate_map.first_sentence("# `low`\n\nNo end\n\nThe next. More.\n"))

    def test_tables(self) -> None:
        crates = list(check_crates.crates_of(self.LIST))
        page = crate_map.page_of(f"# The map\n{self.MARKS}End\n", crates, {"low": "A word", "mid": "A line", "high": "A volume"})
        rows = [f"| [`{name}`](../crates/{name}/README.md) | {says} |" for name, says in (("low", "A word"), ("mid", "A line"))]
        group = "\n".join(["**Words**", "", "| Crate | Is |", "|---|---|", *rows])
        self.assertIsNotNone(page)
        self.assertTrue((page or "").startswith(f"# The map\n<!-- The machine: begin -->\n\n{group}\n\n<!-- The machine: end -->\n"), page)
        self.assertTrue((page or "").endswith("| A volume |\n\n<!-- The program and its volumes: end -->\nEnd\n"), page)

    def test_part_without_a_place(self) -> None:
        self.assertIsNone(crate_map.page_of("# The map\n", [], {}))


class Messages(unittest.TestCase):
    """What is wrong with messages of commits."""

    def finds(self, subject: str, body: str, parents: str, *words: str) -> None:
        """Each fault has its word, in order."""
        commits = list(check_messages.commits_in(f"1a2b\0{parents}\0{subject}\0{body}\n\1\n"))
        faults = [fault for commit in commits for fault in check_messages.faults_of(commit)]
        self.assertEqual([word in fault for word, fault in zip(words, faults, strict=True)], [True] * len(words))

    def test_good_messages(self) -> None:
        self.finds("file_journals: refuse a foreign journal", "It was written into another file.", "9f")
        self.finds("Merge saves behind one journal", "A save of several files is one commit.", "9f 8e")

    def test_bad_messages(self) -> None:
        self.finds("refuse a foreign journal", "", "9f", "no place", "no body")
        self.finds("wip: more", "Later.", "9f", "note to oneself")
        self.finds("rows: " + "a" * 95, "Why.", "9f", "more than 100")
        for folder in ("/" + "tmp/x", "/" + "home/me", "room" + "/x"):
            self.finds(f"Merge branch 'next' of {folder}", "It brings the rows.", "9f 8e", "folder")
            self.finds("rows: more", f"As in {folder} seen.", "9f", "folder")


class CodePage(unittest.TestCase):
    """The table of code page 037 in the definitions is Python's."""

    def test_characters(self) -> None:
        table = (TOP / "crates/volume_labels/specs/Ebcdic.antt").read_text(encoding="utf-8").split("code_page_037 =")[1].split("[]")[0]
        self.assertEqual([int(it, 16) for it in re.findall(r"0x([0-9A-F]{2})", table)], [ord(it) for it in bytes(range(256)).decode("cp037")])


class PageWords(unittest.TestCase):
    """What is counted in a page, and what is wrong with it."""

    PAGE = """# A page; its heading

It is behind `behind`; "behind". Where
it [is](behind.md), *it* is told.

```sh
echo behind; echo
```

| behind | a cell; `behind` |
> behind
<!-- tool: begin -->
behind anew
<!-- tool: end -->
"""

    def test_counts(self) -> None:
        count = check_words.count_of(self.PAGE)
        self.assertEqual(count.hits, ((3, "behind"), (3, "Where it"), (4, "is told"), (10, "behind")))
        self.assertEqual((count.words, count.prose, count.sentences), (40, 11, 2))
        self.assertEqual((count.written, round(count.semicolons * 23)), (30, 3000))
        self.assertEqual(check_words.count_of(self.PAGE, "docs/HERCULES.md").written, 25)

    def test_list(self) -> None:
        count = check_words.count_of("word " * 150)
        entries = {"crates/a/README.md": check_words.lowered("crates/a/README.md", count, check_words.Allowed(200, 3)), "b.md": check_words.Allowed(None, 2)}
        self.assertEqual(check_words.written_list(entries), check_words.HEAD + "b.md - 2\n")


class Pages(unittest.TestCase):
    """What of pages no row says."""

    def test_page_that_was_forgotten(self) -> None:
        with tempfile.TemporaryDirectory() as folder:
            pages = {"README.md": "```sh\nls\n```\n", "docs/NEW.md": "Text.\n\n```console\n$ ls\n```\n"}
            write(folder, {**pages, "docs/DRAWN.md": "```text\nls\n```\n", "crate/low/README.md": "```sh needs=kit\nls\n```\n"})
            with mock.patch.object(run_pages, "TOP", Path(folder)):
                self.assertEqual(run_pages.forgotten(), ["crate/low/README.md", "docs/NEW.md"])

    def test_quotes_of_a_manual_page(self) -> None:
        manual = ".Dd January 1, 2026\n.Dt PAGE 1\n.Os\n.Sh NAME\n.Nm page\n.Nd a page\n"
        manual += ".Sh EXAMPLES\n.Bd -literal -offset indent\ndasd list \\(aqpack.ckd\\(aq\n.Ed\n.Sh SEE ALSO\n"
        self.assertEqual(page_examples.of_manual("page", manual)[0].script.splitlines()[0], "dasd list 'pack.ckd'")

    def test_lines_that_are_cut(self) -> None:
        for found, wanted, is_so in (
            ("", "", True),
            ("", "...", True),
            ("a", "", False),
            ("a b c", "... c", True),
            ("a b c", "a ...", True),
            ("a b c", "... b", False),
            ("a b b c", "a ... b c", True),
        ):
            self.assertEqual(page_examples.is_printed(found.split(), wanted.split()), is_so, (found, wanted))


class Power(unittest.TestCase):
    """Which disks a loss of power leaves."""

    begun = State({"old": 0}, {0: b"A" * 1024})

    def held(self, *calls: Call) -> set[tuple[tuple[str, bytes], ...]]:
        """What the files of these disks hold, each byte once."""
        found = states(self.begun, list(calls))
        return {tuple((name, bytes(sorted(set(it.held.get(node, b""))))) for name, node in sorted(it.names.items())) for it in found}

    def test_write(self) -> None:
        part = Write(0, 0, b"B" * 1024)
        self.assertEqual(self.held(part), {(("old", b"A"),), (("old", b"B"),), (("old", b"AB"),)})

    def test_synced_write_is_there(self) -> None:
        part, other = Write(0, 0, b"B" * 1024), Lead("new", 1)
        found = self.held(part, Sync(0), other)
        self.assertEqual({it for it in found if len(it) == 2}, {(("new", b""), ("old", b"B"))})

    def test_name_that_moved_is_here_or_there(self) -> None:
        draft: list[Call] = [Lead("draft", 1), Write(1, 0, b"C"), Sync(1), Sync(".")]
        found = self.held(*draft, Lead("old", 1, "draft"))
        self.assertIn((("old", b"C"),), found)
        self.assertIn((("draft", b"C"), ("old", b"A")), found)
        self.assertNotIn((("draft", b"C"),), found)

    def test_calls_of_a_program(self) -> None:
        with tempfile.TemporaryDirectory() as folder:
            lines = [
                'openat(AT_FDCWD, "\\x6f\\x6c\\x64", O_RDWR) = 3',
                'write(3, "\\x42\\x43", 2) = 1',
                'pwrite64(3, "\\x44", 1, 7) = 1',
                "fsync(3) = 0",
                'unlink("\\x6f\\x6c\\x64") = 0',
            ]
            found = Traced(Path(folder), {"old": 0}, 1).read(lines)
        wanted = [Write(0, 0, b"B"), Write(0, 7, b"D"), Sync(0), Lead("old", None)]
        self.assertEqual(found, wanted)


class Formats(unittest.TestCase):
    """Which files `rt fmt` would change: here a command of that name that takes doubled blanks out of src/lib.rt, and wants HANDLES."""

    def test_crates(self) -> None:
        with tempfile.TemporaryDirectory() as folder:
            top, command = Path(folder), Path(folder) / "bin" / "rt"
            for name, text in (("plain", "pub fn read() {}\n"), ("wide", "pub  fn read() {}\n")):
                (top / "crates" / name / "src").mkdir(parents=True)
                (top / "crates" / name / "src" / "lib.rt").write_text(text)
            (top / "HANDLES").write_text("none\n")
            (top / "crates.txt").write_text("plain:\nwide:\n")
            command.parent.mkdir()
            command.write_text("#!/bin/sh\n[ \"$1\" = fmt ] && [ -e ../../HANDLES ] && sed -i 's/  */ /g' src/lib.rt\n")
            command.chmod(0o755)
            with mock.patch.dict(os.environ, {"PATH": f"{command.parent}:{os.environ['PATH']}"}):
                self.assertEqual(list(check_formats.all_differing(top, ["plain", "wide"])), ["crates/wide/src/lib.rt"])
            self.assertEqual((top / "crates" / "wide" / "src" / "lib.rt").read_text(), "pub  fn read() {}\n")


if __name__ == "__main__":
    unittest.main()
