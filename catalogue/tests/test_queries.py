"""What is asked of the shared catalogue, by the command."""

from __future__ import annotations

import json
import os
import sqlite3
import subprocess
import unittest
from pathlib import Path
from typing import Any

from archive import COMMAND, COUNT, Case, catalogue, packs, program, reading, scanned, typed
from make_packs import HOSTILE, WHO, folder_of, kind_of, name_of, plain

from dasd_catalogue import queries
from dasd_catalogue.database import SCHEMA
from dasd_catalogue.names import exact


def objects(*words: str) -> list[Any]:
    """The objects that a command prints."""
    return [json.loads(line) for line in typed(*words, "--json").stdout.splitlines()]


def path_of(number: int) -> bytes:
    """The path of the pack of a number, as the catalogue has it."""
    return os.path.relpath(os.path.join(folder_of(os.fsencode(packs()), number), name_of(number)), os.fsencode(packs().parent))


def bytes_of(found: dict[str, Any]) -> bytes:
    """The path of an object, as bytes."""
    return bytes.fromhex(found["path_bytes"]) if "path_bytes" in found else str(found["path"]).encode()


class Find(unittest.TestCase):
    """Names."""

    def test_a_data_set_is_found_on_each_pack_that_has_it(self) -> None:
        """By its whole name and by a pattern, in small letters too."""
        wanted = {path_of(number) for number in range(COUNT) if number % 5 == 0 and kind_of(number)[1] is plain}
        for name in ("NOTES.N*", "notes.n?????"):
            found = {bytes_of(it) for it in objects("find", name)}
            self.assertLessEqual(wanted, found)
            self.assertEqual({it["data_set"][:7] for it in objects("find", name)}, {"NOTES.N"})
        self.assertEqual([it["data_set"] for it in objects("find", "NOTES.N00005")], ["NOTES.N00005"])

    def test_members_and_serial_numbers(self) -> None:
        """A member alone, one of a library, a volume."""
        members = objects("find", "COMMON")
        self.assertEqual({it["member"] for it in members}, {"COMMON"})
        self.assertEqual(sum(len(objects("find", f"{it}.SOURCE(COM*)")) for it in WHO), len(members))
        (volume,) = objects("find", "P00003")
        self.assertEqual((bytes_of(volume), volume["model"], volume["errors"]), (path_of(3), 2311, 0))

    def test_what_is_not_there_and_what_would_be_sql(self) -> None:
        """Nothing is found, and nothing is lost."""
        before = reading().execute("SELECT COUNT(*) FROM files").fetchone()[0]
        for name in ("NOWHERE", "'; DROP TABLE files; --", "' OR '1'='1", "%", "[A-Z]*", "(", ")", "()", ""):
            ran = typed("find", name)
            self.assertEqual((ran.returncode, ran.stdout, ran.stderr), (1, "", ""), name)
        self.assertEqual(reading().execute("SELECT COUNT(*) FROM files").fetchone()[0], before)
        self.assertEqual({it["member"] for it in objects("find", "'OR''1'")}, {"'OR''1'"})

    def test_lines_have_no_controls(self) -> None:
        """Whatever the archive's names are."""
        for words in (("find", "*"), ("broken", "--warnings"), ("copies",), ("text", "more")):
            for line in typed(*words).stdout.split("\n"):
                self.assertTrue(line.isprintable(), line)


class Broken(unittest.TestCase):
    """What is broken."""

    def test_each_broken_pack_is_told_with_why(self) -> None:
        """By its kind."""
        told: dict[bytes, list[Any]] = {}
        for it in objects("broken", "--warnings"):
            told.setdefault(bytes_of(it), []).append(it)
        words = {"cut.ckd": "wrong length", "longer.ckd": "wrong length", "empty.ckd": "wrong length", "junk.ckd": "not a CKD_P370 image"}
        words.update({"cut.ckd.gz": "unpacked", "new.ckd": "no volume label", "broken.ckd": "record past end", "copy.ckd": "reserved byte"})
        for number in range(COUNT):
            kind, path = kind_of(number)[0], path_of(number)
            if kind in words:
                self.assertTrue(any(words[kind] in it["text"] for it in told[path]), (kind, told[path]))
            elif kind != "hostile.ckd":
                self.assertNotIn(path, told)
        self.assertTrue(all(exact(it[0]["path"]) == path for path, it in told.items()))
        self.assertEqual(typed("broken").returncode, 1)

    def test_places_are_told(self) -> None:
        """The cylinder and the head of a broken track, and the member that ends there."""
        number = next(it for it in range(17, COUNT, 17) if kind_of(it)[0] == "broken.ckd")
        told = [it for it in objects("broken") if bytes_of(it) == path_of(number)]
        self.assertEqual([(it["source"], it.get("cylinder"), it.get("head"), it.get("name")) for it in told][0], ("check", 0, 3, None))
        self.assertTrue(any(it["source"] == "extract" and it["name"].startswith("SYS1.MACLIB(") for it in told))


class Copies(unittest.TestCase):
    """Groups of what says the same."""

    def test_volumes(self) -> None:
        """New ones; each copy with its pack; an image in two files with the one in one."""
        groups = [{bytes_of(place) for place in it["places"]} for it in objects("copies", "volumes")]
        fresh = {path_of(number) for number in range(COUNT) if kind_of(number)[0] == "new.ckd"}
        self.assertIn(fresh, groups)
        self.assertIn({b"packs/big_1.ckd", b"packs/whole.ckd"}, groups)
        number = next(it for it in range(11, COUNT, 11) if kind_of(it)[0] == "copy.ckd" and kind_of(it - 1)[1] is plain)
        self.assertTrue(any({path_of(number), path_of(number - 1)} <= it for it in groups))

    def test_members_under_other_names(self) -> None:
        """An alias, and what one macro library has beside another; those that take most room first."""
        groups = objects("copies", "members", "--other-names")
        self.assertTrue(all(it["names"] > 1 and len(it["places"]) == it["count"] for it in groups))
        self.assertTrue(any({"OPEN", "ALIAS"} <= {place["member"] for place in it["places"]} for it in groups))
        sizes = [(it["count"] - 1) * it["bytes"] for it in objects("copies", "members")]
        self.assertEqual(sizes, sorted(sizes, reverse=True))
        self.assertEqual(len(objects("copies", "members", "--most", "2")), 2)

    def test_data_sets(self) -> None:
        """Three different macro libraries, each on many packs."""
        found = [it for it in objects("copies", "data-sets") if {place["data_set"] for place in it["places"]} == {"SYS1.MACLIB"}]
        self.assertGreaterEqual(len(found), 3)


class Texts(unittest.TestCase):
    """Words in texts."""

    def test_words(self) -> None:
        """All must be there; by their beginnings; in letters of any size; with the lines that have one."""
        found = objects("text", "iebcopy", "stock")
        self.assertTrue(found)
        self.assertEqual({it["data_set"] for it in found}, {"STOCK.JOBS"})
        self.assertEqual(found[0]["lines"][1], {"number": 2, "text": "//STEP1 EXEC PGM=IEBCOPY"})
        self.assertEqual({it["data_set"] for it in objects("text", "perso*")}, {"PERSONNEL.SOURCE", "PERSONNEL.JOBS"})
        self.assertEqual(typed("text", "nowhere").returncode, 1)

    def test_words_behind_each_other(self) -> None:
        """However many blanks are between them."""
        found = objects("text", "svc 20")
        self.assertEqual({it["lines"][0]["text"] for it in found}, {"         SVC   20"})

    def test_words_that_would_be_something_else(self) -> None:
        """Operators and quotes of the index are words, and markup is text."""
        for word in ('"', 'a"b', 'stock" OR "payroll', "AND", "NEAR(", "text:", "a OR b", "-", "*", "", "\u00e9", "^", "{", "'"):
            ran = typed("text", word)
            self.assertIn(ran.returncode, (0, 1), word)
            self.assertEqual(ran.stderr, "", word)
        found = objects("text", "drop table files")
        self.assertTrue(found)
        self.assertEqual({it["lines"][0]["text"] for it in found} & set(HOSTILE), {HOSTILE[1]})

    def test_a_program_is_no_text(self) -> None:
        """What has many control characters is not kept."""
        from dasd_catalogue.unloading import is_text  # pylint: disable=import-outside-toplevel

        self.assertTrue(is_text("A" * 49 + "\ufffd"))
        self.assertFalse(is_text("A" * 48 + "\ufffd"))


class Taking(Case):
    """What was found, taken out."""

    def test_what_is_taken_is_what_dasd_extracts(self) -> None:
        """A data set and all members of a library, as blocks and as text; a file that is there stays."""
        found = objects("find", "NOTES.N00005") + objects("find", "COMMON")[:1]
        ran = typed("extract", "NOTES.N00005", "PAYROLL.SOURCE", "--to", str(self.folder / "out"), "--dasd", program(), "--json")
        self.assertEqual(ran.returncode, 0, ran.stderr)
        taken = [json.loads(line) for line in ran.stdout.splitlines()]
        self.assertGreater(len(taken), 10)
        for it in taken[:10]:
            name = f"{it['data_set']}({it['member']})" if "member" in it else it["data_set"]
            held = subprocess.run([program(), "extract", catalogue().parent / it["path"], name], capture_output=True, check=True).stdout
            self.assertEqual(Path(it["file"]).read_bytes(), held)
        again = typed("extract", "NOTES.N00005", "--to", str(self.folder / "out"), "--dasd", program())
        self.assertEqual(again.returncode, 1)
        self.assertIn("is there", again.stdout)
        self.assertEqual(found[0]["file_name"], "NOTES.N00005")

    def test_by_words_as_text(self) -> None:
        """As lines."""
        ran = typed("extract", "--words", "drop table", "tape", "--text", "--to", str(self.folder / "out"), "--dasd", program(), "--json")
        taken = [json.loads(line) for line in ran.stdout.splitlines()]
        self.assertTrue(taken)
        self.assertTrue(all(Path(it["file"]).read_text(encoding="utf-8").splitlines()[1:] == HOSTILE for it in taken))

    def test_names_lead_nowhere_else(self) -> None:
        """A data set that is called as a path stays in the folder."""
        ran = typed("extract", "*PASSWD", "--to", str(self.folder / "out"), "--dasd", program(), "--json")
        taken = [json.loads(line) for line in ran.stdout.splitlines()]
        self.assertTrue(taken)
        inner = {Path(it["file"]).resolve().parent.parent for it in taken}
        self.assertEqual(inner, {(self.folder / "out").resolve()})

    def test_a_pack_that_has_changed_is_told(self) -> None:
        """Since it was scanned; and one that is gone."""
        (self.folder / "1.ckd").write_bytes(plain(1))
        scanned(self.database, [self.folder / "1.ckd"])
        (self.folder / "1.ckd").write_bytes(plain(2))
        words = ("extract", "SYS1.MACLIB(GET)", "--to", str(self.folder / "out"), "--dasd", program())
        ran = typed(*words, database=self.database)
        self.assertEqual((ran.returncode, ran.stdout), (1, "1.ckd: SYS1.MACLIB(GET): not taken: the pack says something else since it was scanned\n"))
        (self.folder / "1.ckd").unlink()
        ran = typed(*words, database=self.database)
        self.assertEqual(ran.returncode, 1)
        self.assertIn("No such file or directory", ran.stdout)


class Reading(Case):
    """Catalogues that can't be read."""

    def test_no_catalogue(self) -> None:
        """None, and another file."""
        ran = typed("find", "X", database=self.database)
        self.assertEqual((ran.returncode, ran.stderr), (1, f"dasd-catalogue: there is no {self.database}; dasd-catalogue scan makes it\n"))
        self.database.write_text("a letter\n" * 200, encoding="utf-8")
        self.assertIn("is no catalogue", typed("find", "X", database=self.database).stderr)

    def test_another_schema(self) -> None:
        """An earlier and a later one are neither read nor written, and stay."""
        scanned(self.database, [])
        for version in (SCHEMA - 1, SCHEMA + 1):
            connection = sqlite3.connect(self.database)
            connection.execute(f"PRAGMA user_version = {version}")
            connection.close()
            held = self.database.read_bytes()
            told = f"dasd-catalogue: {self.database} has schema {version}, and this program reads {SCHEMA}\n"
            for words in (("find", "X"), ("scan", str(self.folder), "--dasd", program())):
                ran = typed(*words, database=self.database)
                self.assertEqual((ran.returncode, ran.stdout, ran.stderr), (1, "", told))
            self.assertEqual(self.database.read_bytes(), held)

    def test_a_reader_writes_nothing(self) -> None:
        """Not even by SQL."""
        with self.assertRaisesRegex(Exception, "readonly|read-only"):
            reading().execute("DELETE FROM files")

    def test_a_pipe_that_is_closed(self) -> None:
        """Ends it without a word."""
        line = [*COMMAND, "find", "*", "--database", str(catalogue())]
        with subprocess.Popen(line, stdout=subprocess.PIPE, stderr=subprocess.PIPE) as ran:
            assert ran.stdout and ran.stderr
            ran.stdout.readline()
            ran.stdout.close()
            self.assertEqual(ran.stderr.read(), b"")
        self.assertEqual(queries.pattern_of("a[b]*"), "A[[]B]*")


if __name__ == "__main__":
    unittest.main()
