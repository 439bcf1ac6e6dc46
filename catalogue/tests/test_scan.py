"""Scans: what is met, what is asked, what is asked again, and that the same rows come whichever way it was asked."""

from __future__ import annotations

import fcntl
import gzip
import lzma
import os
import sqlite3
import subprocess
import unittest
from collections.abc import Iterable, Iterator
from dataclasses import replace
from pathlib import Path
from unittest import mock

from archive import COUNT, Case, catalogue, packs, program, reading, scanned, typed, way
from make_packs import kind_of, make, new_image, pack, plain, put_library, put_sequential, with_leftovers
from scanned_rows import differences, rows_of
from conformance.suite.volumes import Volume
from tools.common.volume_layouts import count_free
from tools.common.written_labels import put_label

from dasd_catalogue import says
from dasd_catalogue.answers import Answer, Task
from dasd_catalogue.database import BadCatalogue, open_to_write
from dasd_catalogue.engines import DIED, Alone, Pool
from dasd_catalogue.program import Way
from dasd_catalogue.scan import Wanted, scan
from dasd_catalogue.scratch import scratch_folder

#: A `dasd` in front of the real one that ends the process that asks a pack of this name.
DEADLY = """#!/bin/sh
case "$(readlink volume)" in *deadly*) kill -9 $PPID; sleep 5;; esac
exec {program} "$@"
"""
#: One that finds no room for what is unloaded.
FULL = """#!/bin/sh
case $1 in extract) echo "dasd: write fault" >&2; exit 1;; esac
exec {program} "$@"
"""


def damaged(packed: bytes) -> bytes:
    """A packed file with other bytes after its header, which no packing has there."""
    return packed[:24] + b"\xff" * 16 + packed[40:]


class Ended(Alone):
    """This process, which is interrupted after so many answers."""

    def __init__(self, count: int) -> None:
        self.count = count

    def answers(self, tasks: Iterable[Task], way: Way) -> Iterator[Answer]:
        """So many answers."""
        for number, answer in enumerate(super().answers(tasks, way)):
            if number == self.count:
                raise KeyboardInterrupt
            yield answer


class Whole(unittest.TestCase):
    """The shared archive as a whole."""

    def test_nothing_is_lost(self) -> None:
        """Each name that is there is a row; each pack is a volume or has a fault, as its kind says."""
        names = {os.path.join(folder, name) for folder, _, names in os.walk(os.fsencode(packs())) for name in names}
        names |= {os.path.join(os.fsencode(packs()), b"other-box")}
        connection = reading()
        base = os.fsencode(packs().parent)
        found = {os.path.join(base, row[0]) for row in connection.execute("SELECT path FROM files")}
        self.assertEqual(found, names)
        faulty = {"cut.ckd", "longer.ckd", "junk.ckd", "empty.ckd", "cut.ckd.gz"}
        wanted = sum(kind_of(number)[0] in faulty for number in range(COUNT)) + 1
        states = {str(row[0]): int(row[1]) for row in connection.execute("SELECT state, COUNT(*) FROM files GROUP BY state")}
        self.assertEqual(states["fault"], wanted)
        self.assertEqual(states["volume"], COUNT + 3 - wanted)
        self.assertEqual((states["link"], states["part"], states["other"]), (2, 1, 3))
        without = "SELECT COUNT(*) FROM files WHERE state = 'fault' AND id NOT IN (SELECT file FROM faults)"
        self.assertEqual(connection.execute(without).fetchone()[0], 0)

    def test_one_process_keeps_the_same_rows(self) -> None:
        """As four processes do."""
        database = catalogue().parent / "one.db"
        came = scanned(database, [packs()], Alone())
        self.assertEqual(differences(rows_of(catalogue()), rows_of(database)), [])
        self.assertEqual(came.asked, COUNT + 3)

    def test_a_second_scan_asks_nothing(self) -> None:
        """And leaves each row; that no command is run either is seen by a program that is none."""
        before = rows_of(catalogue())
        with mock.patch("dasd_catalogue.engines.ask", side_effect=AssertionError):
            came = scanned(catalogue(), [packs()], Alone())
        self.assertEqual(came.asked, 0)
        self.assertEqual(differences(before, rows_of(catalogue())), [])

    def test_the_packs_stay_as_they_are(self) -> None:
        """Their bytes and times."""
        again = catalogue().parent / "made-again"
        make(os.fsencode(again), COUNT)
        for folder, _, names in os.walk(os.fsencode(again)):
            for name in names:
                path = os.path.join(folder, name)
                other = os.path.join(os.fsencode(packs()), os.path.relpath(path, os.fsencode(again)))
                if os.path.isfile(path):
                    self.assertEqual(Path(os.fsdecode(path)).read_bytes(), Path(os.fsdecode(other)).read_bytes(), path)
                    self.assertEqual(os.stat(path).st_mtime_ns, os.stat(other).st_mtime_ns, path)

    def test_leftovers_make_no_difference(self) -> None:
        """Each copy that differs after an end mark says what its pack says, where that is a plain one."""
        connection = reading()
        query = "SELECT said FROM volumes JOIN files ON id = file WHERE shown LIKE ?"
        tried = 0
        for number in range(11, COUNT):
            if kind_of(number)[1] is with_leftovers and kind_of(number - 1)[1] is plain:
                both = [connection.execute(query, (f"%{it:05}-{kind_of(it)[0]}",)).fetchone()[0] for it in (number - 1, number)]
                self.assertEqual(both[0], both[1], number)
                tried += 1
        self.assertGreater(tried, COUNT // 30)


class Ways(Case):
    """Scans that are ended, and workers that die."""

    def test_it_goes_on_where_it_was_ended(self) -> None:
        """After some answers, and again after some: each is asked once, and the rows are those of one scan."""
        make(os.fsencode(self.folder / "packs"), 40)
        asked = 0
        for count in (7, 0, 20):
            with self.assertRaises(KeyboardInterrupt):
                scanned(self.database, [self.folder / "packs"], Ended(count))
            asked += count
            self.assertEqual(self.rows("SELECT COUNT(*) FROM files WHERE state = 'waiting'"), [(43 - asked,)])
        self.assertEqual(scanned(self.database, [], Alone()).asked, 43 - asked)
        whole = self.folder / "whole.db"
        scanned(whole, [self.folder / "packs"])
        self.assertEqual(differences(rows_of(whole), rows_of(self.database)), [])
        self.assertEqual(self.rows("SELECT asked, ended IS NULL FROM scans"), [(7, 1), (0, 1), (20, 1), (43 - asked, 0)])

    def test_a_pack_over_which_workers_die_is_told_and_stops_no_other(self) -> None:
        """Two of them among others."""
        folder = self.folder / "packs"
        make(os.fsencode(folder), 30)
        for name in ("deadly-1.ckd", "deadly-2.ckd"):
            (folder / name).write_bytes(plain(3))
        deadly = self.folder / "dasd"
        deadly.write_text(DEADLY.format(program=program()), encoding="utf-8")
        deadly.chmod(0o755)
        wanted = Wanted(str(self.database), [os.fsencode(folder)], Pool(3), replace(way(), program=str(deadly)), is_silent=True)
        with mock.patch("dasd_catalogue.scan.version_of", return_value=""):
            self.assertEqual(scan(wanted).asked, 35)
        told = self.rows("SELECT shown, faults.text FROM faults JOIN files ON id = file WHERE stage = 'ask' ORDER BY shown")
        self.assertEqual(told, [(f"packs/deadly-{number}.ckd", DIED) for number in (1, 2)])
        scanned(self.database, [folder])
        self.assertEqual(self.rows("SELECT COUNT(*) FROM faults WHERE stage = 'ask'"), [(0,)])
        whole = self.folder / "whole.db"
        scanned(whole, [folder])
        self.assertEqual(differences(rows_of(whole), rows_of(self.database)), [])

    def test_one_scan_at_a_time(self) -> None:
        """A second one is refused, and says why."""
        with open_to_write(str(self.database)):
            with self.assertRaisesRegex(BadCatalogue, "another scan has"):
                scanned(self.database, [self.folder])

    def test_a_file_that_is_no_catalogue_stays(self) -> None:
        """A text, and a database of something else."""
        self.database.write_text("a letter\n" * 100, encoding="utf-8")
        with self.assertRaises(BadCatalogue):
            scanned(self.database, [self.folder])
        self.assertTrue(self.database.read_text(encoding="utf-8").startswith("a letter\n"))
        self.database.unlink()
        other = sqlite3.connect(self.database)
        other.execute("CREATE TABLE files (a)")
        other.close()
        with self.assertRaises(BadCatalogue):
            scanned(self.database, [self.folder])


class Again(Case):
    """What a later scan asks again, over a few packs."""

    def setUp(self) -> None:
        """Three packs, an image in two files, and a link."""
        super().setUp()
        self.packs = self.folder / "packs"
        (self.packs / "inner").mkdir(parents=True)
        for number in (1, 2, 3):
            (self.packs / f"{number}.ckd").write_bytes(plain(number))
        for number, held in enumerate(Volume.read([pack(1, 3).volume.bytes()]).split(2).files(), 1):
            (self.packs / f"inner/big_{number}.ckd").write_bytes(held)
        (self.packs / "a-link.ckd").symlink_to("1.ckd")
        self.assertEqual(scanned(self.database, [self.packs]).asked, 4)

    def asked_again(self) -> int:
        """How many files a scan asks now; a fresh catalogue must have the same rows, except for numbers of files."""
        return scanned(self.database, [self.packs]).asked

    def same_as_fresh(self) -> None:
        """A catalogue of a first scan says the same of each volume and its texts."""
        fresh = self.folder / "fresh.db"
        scanned(fresh, [self.packs])
        query = """SELECT shown, said, (SELECT COUNT(*) FROM members WHERE volume = file) FROM volumes JOIN files ON id = file ORDER BY path"""
        connection = sqlite3.connect(fresh)
        self.assertEqual(self.rows(query), connection.execute(query).fetchall())
        connection.close()
        for table in ("texts", "words"):
            self.assertEqual(rows_of(fresh)[table], rows_of(self.database)[table])
        fresh.unlink()

    def test_nothing_changed(self) -> None:
        """Nothing is asked."""
        self.assertEqual(self.asked_again(), 0)
        self.same_as_fresh()

    def test_another_time(self) -> None:
        """It is looked at; since its bytes are the same, `dasd` isn't asked, and the rows stay."""
        os.utime(self.packs / "2.ckd", ns=(1, 5))
        with mock.patch("dasd_catalogue.asking.ask_volume", side_effect=AssertionError):
            self.assertEqual(self.asked_again(), 1)
        self.assertEqual(self.states()["2.ckd"], "volume")
        self.assertEqual(self.rows("SELECT modified FROM files WHERE shown = 'packs/2.ckd'"), [(5,)])
        self.same_as_fresh()

    def test_other_bytes(self) -> None:
        """Of the same size and another time; old texts go."""
        (self.packs / "2.ckd").write_bytes(plain(4))
        os.utime(self.packs / "2.ckd", ns=(1, 5))
        self.assertEqual(self.asked_again(), 1)
        self.same_as_fresh()

    def test_a_part_that_changed(self) -> None:
        """The image is asked again."""
        os.utime(self.packs / "inner/big_2.ckd", ns=(1, 5))
        self.assertEqual(self.asked_again(), 1)
        self.assertEqual(self.asked_again(), 0)
        (self.packs / "inner/big_2.ckd").unlink()
        self.assertEqual(self.asked_again(), 1)
        self.assertEqual((self.states()["big_1.ckd"], self.states()["big_2.ckd"]), ("fault", "gone"))
        self.same_as_fresh()

    def test_gone_and_there_again(self) -> None:
        """A file that is gone keeps its row and its number."""
        held = (self.packs / "3.ckd").read_bytes()
        number = self.rows("SELECT id FROM files WHERE shown = 'packs/3.ckd'")
        (self.packs / "3.ckd").unlink()
        self.assertEqual(self.asked_again(), 0)
        self.assertEqual(self.states()["3.ckd"], "gone")
        self.same_as_fresh()
        (self.packs / "3.ckd").write_bytes(held)
        self.assertEqual(self.asked_again(), 1)
        self.assertEqual(self.states()["3.ckd"], "volume")
        self.assertEqual(self.rows("SELECT id FROM files WHERE shown = 'packs/3.ckd'"), number)
        self.same_as_fresh()

    def test_a_pack_that_was_moved_is_the_same_pack(self) -> None:
        """Wherever it is, with another time too, and in two files; nothing is asked, and each keeps its number."""
        query = "SELECT id, said FROM files LEFT JOIN volumes ON file = id WHERE state IN ('volume', 'part') ORDER BY id"
        before = self.rows(query)
        (self.packs / "inner").rename(self.packs / "moved")
        (self.packs / "3.ckd").rename(self.packs / "0.ckd")
        os.utime(self.packs / "0.ckd", ns=(1, 5))
        self.assertEqual(self.asked_again(), 0)
        self.assertEqual(self.rows(query), before)
        self.assertEqual(self.rows("SELECT shown FROM files WHERE state = 'volume' AND shown LIKE '%0.ckd'"), [("packs/0.ckd",)])
        self.assertEqual(set(self.states()), {"0.ckd", "1.ckd", "2.ckd", "a-link.ckd", "big_1.ckd", "big_2.ckd"})
        self.same_as_fresh()

    def test_copies_and_other_bytes_are_other_packs(self) -> None:
        """A copy beside a pack that stays; and a file of its size that holds something else, when the pack is gone."""
        held = (self.packs / "3.ckd").read_bytes()
        (self.packs / "copy.ckd").write_bytes(held)
        self.assertEqual(self.asked_again(), 1)
        (self.packs / "3.ckd").unlink()
        (self.packs / "other.ckd").write_bytes(plain(5))
        self.assertEqual(len(plain(5)), len(held))
        self.assertEqual(self.asked_again(), 1)
        self.assertEqual([self.states()[it] for it in ("3.ckd", "copy.ckd", "other.ckd")], ["gone", "volume", "volume"])
        self.same_as_fresh()

    def test_a_pack_that_is_back_elsewhere(self) -> None:
        """It was gone when an earlier scan came: it has its number, and is asked again."""
        number, held = self.rows("SELECT id FROM files WHERE shown = 'packs/3.ckd'"), (self.packs / "3.ckd").read_bytes()
        (self.packs / "3.ckd").unlink()
        self.assertEqual(self.asked_again(), 0)
        (self.packs / "back.ckd").write_bytes(held)
        self.assertEqual(self.asked_again(), 1)
        self.assertEqual(self.rows("SELECT id FROM files WHERE shown = 'packs/back.ckd'"), number)
        self.same_as_fresh()

    def test_the_file_of_a_link_is_gone(self) -> None:
        """The link leads nowhere then; and a hard link takes its place."""
        os.link(self.packs / "1.ckd", self.packs / "hard.ckd")
        self.assertEqual(self.asked_again(), 0)
        self.assertEqual((self.states()["a-link.ckd"], self.states()["hard.ckd"]), ("link", "link"))
        (self.packs / "1.ckd").unlink()
        self.assertEqual(self.asked_again(), 1)
        self.assertEqual((self.states()["a-link.ckd"], self.states()["hard.ckd"], self.states()["1.ckd"]), ("fault", "volume", "gone"))
        self.same_as_fresh()

    def test_a_pack_in_the_place_of_another_thing(self) -> None:
        """A folder, a FIFO, a link that leads nowhere and a letter become packs, and packs become such."""
        (self.packs / "it").symlink_to("nowhere")
        os.mkfifo(self.packs / "pipe.ckd")
        (self.packs / "letter").write_text("Dear archive,\n", encoding="utf-8")
        self.assertEqual(self.asked_again(), 1)
        self.assertEqual([self.states()[it] for it in ("it", "pipe.ckd", "letter")], ["fault", "other", "other"])
        self.assertEqual(self.asked_again(), 0)
        for number, name in enumerate(("it", "pipe.ckd", "letter"), 5):
            (self.packs / name).unlink()
            (self.packs / name).write_bytes(plain(number))
        self.assertEqual(self.asked_again(), 3)
        self.assertEqual([self.states()[it] for it in ("it", "pipe.ckd", "letter")], ["volume"] * 3)
        (self.packs / "2.ckd").unlink()
        os.mkfifo(self.packs / "2.ckd")
        self.assertEqual(self.asked_again(), 0)
        self.assertEqual(self.states()["2.ckd"], "other")
        self.same_as_fresh()

    def test_everything_again(self) -> None:
        """By a word, and where hashes are made otherwise, also when the first try was ended."""
        self.assertEqual(scanned(self.database, [self.packs], everything=True).asked, 4)
        with mock.patch.object(says, "FUNCTION", "says-other"):
            with self.assertRaises(KeyboardInterrupt):
                scanned(self.database, [self.packs], Ended(1))
            with mock.patch("dasd_catalogue.asking.ask_volume", wraps=lambda answer, volume: None) as asked:
                self.assertEqual(self.asked_again(), 3)
                self.assertEqual(asked.call_count, 3)

    def test_other_folders_stay(self) -> None:
        """A scan of one folder says nothing of others, not even of those whose names begin alike."""
        other = self.folder / "packs-2"
        other.mkdir()
        (other / "9.ckd").write_bytes(plain(9))
        self.assertEqual(scanned(self.database, [other]).asked, 1)
        self.assertEqual(self.states()["1.ckd"], "volume")
        (other / "9.ckd").unlink()
        self.assertEqual(self.asked_again(), 0)
        self.assertEqual(self.states()["9.ckd"], "volume")
        scanned(self.database, [])
        self.assertEqual(self.states()["9.ckd"], "gone")


class Files(Case):
    """Single files."""

    def test_names_of_all_bytes(self) -> None:
        """Data sets and members whose names have each byte there is: all are unloaded, and belong where they are."""
        image = new_image(2)
        sets = [
            put_sequential(image, bytes(range(first, min(first + 44, 256))).decode("cp037"), [f"SET {first}"], [(2 + at, 2 + at)])
            for at, first in enumerate(range(0, 256, 44))
        ]
        members = {bytes(range(first, first + 7)).decode("cp037"): [f"MEMBER {first}"] for first in range(0, 252, 18)}
        sets.append(put_library(image, "LIB", members, [(8, 10)]))
        put_label(image, "ALLBYT", sets)
        count_free(image)
        (self.folder / "1.ckd").write_bytes(image.volume.bytes())
        scanned(self.database, [self.folder / "1.ckd"])
        self.assertEqual(self.rows("SELECT * FROM faults"), [])
        self.assertEqual(self.rows("SELECT COUNT(*) FROM data_sets WHERE said IS NOT NULL AND whole"), [(7,)])
        self.assertEqual(self.rows("SELECT COUNT(DISTINCT said), COUNT(DISTINCT file_name) FROM members"), [(14, 15)])
        texts = self.rows("SELECT number, text FROM data_sets WHERE text IS NOT NULL ORDER BY number")
        self.assertEqual([it[0] for it in texts], list(range(6)))

    def test_folders_deeper_than_any_stack(self) -> None:
        """A pack at the end of a thousand and some folders; the part whose path is too long is a fault."""
        here = os.getcwd()
        self.addCleanup(os.chdir, here)
        os.chdir(self.folder)
        for _ in range(1200):
            os.mkdir("a")
            os.chdir("a")
        Path("1.ckd").write_bytes(plain(1))
        os.chdir(here)
        self.addCleanup(lambda: subprocess.run(["rm", "-rf", str(self.folder / "a")], check=True))
        scanned(self.database, [self.folder])
        self.assertEqual(self.rows("SELECT state, COUNT(*) FROM files GROUP BY state"), [("volume", 1)])

    def test_folders_that_a_killed_process_left(self) -> None:
        """They go, except for those that one holds that lives, and others' folders."""
        names = ["dasd-catalogue-left", "dasd-catalogue-held", "another"]
        for name in names:
            (self.folder / name).mkdir()
            (self.folder / name / "x").write_bytes(b"x")
            os.utime(self.folder / name, (1, 1))
        held = os.open(self.folder / names[1], os.O_RDONLY)
        fcntl.flock(held, fcntl.LOCK_EX)
        with scratch_folder(str(self.folder)) as own:
            self.assertEqual({it.name for it in self.folder.iterdir()}, {*names[1:], Path(os.fsdecode(own)).name})
        os.close(held)
        self.assertEqual({it.name for it in self.folder.iterdir()}, set(names[1:]))

    def test_a_full_disk_is_not_the_fault_of_a_volume(self) -> None:
        """It is asked again by the next scan, where nothing has changed. A volume without data sets is not unloaded."""
        failing = self.folder / "dasd"
        failing.write_text(FULL.format(program=program()), encoding="utf-8")
        failing.chmod(0o755)
        (self.folder / "1.ckd").write_bytes(plain(1))
        (self.folder / "2.ckd").write_bytes(Volume.new("2311", 1).bytes())
        paths = [os.fsencode(self.folder / it) for it in ("1.ckd", "2.ckd")]
        with mock.patch("dasd_catalogue.scan.version_of", return_value=""):
            scan(Wanted(str(self.database), paths, Alone(), Way(str(failing)), is_silent=True))
        self.assertEqual(self.rows("SELECT stage, text FROM faults"), [("here", "extract: write fault")])
        self.assertEqual(self.states(), {"1.ckd": "volume", "2.ckd": "volume"})
        self.assertEqual(scanned(self.database, []).asked, 1)
        self.assertEqual(self.rows("SELECT * FROM faults"), [])
        self.assertEqual(scanned(self.database, []).asked, 0)

    def test_a_file_that_is_named_is_asked(self) -> None:
        """Whatever it is called and holds; in a folder it is reported as another thing."""
        (self.folder / "letter").write_text("Dear archive,\n", encoding="utf-8")
        scanned(self.database, [self.folder])
        self.assertEqual(self.states(), {"letter": "other"})
        scanned(self.database, [self.folder / "letter"])
        self.assertEqual(self.states(), {"letter": "fault"})

    def test_a_path_that_is_not_there_is_a_fault(self) -> None:
        """By its name."""
        scanned(self.database, [self.folder / "none.ckd"])
        self.assertEqual(self.rows("SELECT state, stage, text FROM files JOIN faults ON id = file"), [("fault", "walk", "No such file or directory")])

    def test_damaged_packed_files_beside_good_packs(self) -> None:
        """Each is a fault of its own, also one whose name makes it a part of an image, and the others are asked."""
        held = {"NAME_1.ckd.gz": gzip.compress(plain(1), mtime=0), "NAME_2.ckd.xz": lzma.compress(plain(2)), "cut_1.ckd.gz": gzip.compress(plain(3))[:40]}
        for name, packed in held.items():
            (self.folder / name).write_bytes(damaged(packed))
        (self.folder / "good.ckd").write_bytes(plain(4))
        (self.folder / "good_1.ckd.gz").write_bytes(gzip.compress(plain(5)))
        self.assertEqual(scanned(self.database, [self.folder]).asked, 5)
        self.assertEqual(self.states(), {**dict.fromkeys(held, "fault"), "good.ckd": "volume", "good_1.ckd.gz": "volume"})
        told = self.rows("SELECT DISTINCT stage, substr(text, 1, 20) FROM faults")
        self.assertEqual(told, [("unpack", "it can't be unpacked")])
        self.assertEqual(scanned(self.database, []).asked, 0)

    def test_the_command_line(self) -> None:
        """A scan by the command, in one process and with its progress on a stream that is no terminal."""
        (self.folder / "1.ckd").write_bytes(plain(1))
        ran = typed("scan", str(self.folder), "--processes", "1", "--dasd", program(), database=self.database)
        self.assertEqual((ran.returncode, ran.stdout), (0, "1 names: 1 volume\n"))
        self.assertRegex(ran.stderr, r"^1 asked in [0-9.]+ seconds, [0-9.]+ a second\n$")
        ran = typed("scan", str(self.folder), "--dasd", program(), "--scratch", "/nowhere", database=self.database)
        self.assertEqual((ran.returncode, ran.stderr), (1, "dasd-catalogue: there is no folder /nowhere\n"))
        ran = typed("scan", str(self.folder), "--dasd", "/nowhere/dasd", database=self.database)
        self.assertEqual((ran.returncode, ran.stderr), (1, "dasd-catalogue: there is no program /nowhere/dasd\n"))


if __name__ == "__main__":
    unittest.main()
