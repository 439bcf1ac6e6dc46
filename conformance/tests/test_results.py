"""The results of whole runs that are in results/, beside the vectors, and the pages that name them."""
from __future__ import annotations

import os
import re
import unittest
from typing import List

import hercules_page
from suite.marks import read_rules
from suite.report import RIGHT, Result, table
from suite.vectors import HERE, all_vectors

PAGES = os.path.join(os.path.dirname(HERE), "docs")


def read(*path: str) -> str:
    with open(os.path.join(*path), encoding="utf-8") as text:
        return text.read()


def rows(text: str) -> List[List[str]]:
    """The rows of a table by rule: a name and five numbers."""
    return [[it[0].strip(), *it[1].split()] for it in re.findall(r"^(\S.*?) ((?: +\d+){5})$", text, re.MULTILINE)]


class Results(unittest.TestCase):
    def test_rows_are_those_of_the_vectors(self) -> None:
        now = rows(table([Result(it, RIGHT) for it in all_vectors()], read_rules()))
        for name in hercules_page.RUNS.values():
            with self.subTest(name):
                self.assertEqual([it[:2] for it in rows(read(hercules_page.RESULTS, name))], [it[:2] for it in now])

    def test_each_vector_is_counted_once(self) -> None:
        for name in hercules_page.RUNS.values():
            text = read(hercules_page.RESULTS, name)
            for rule, count, *parts in rows(text):
                self.assertEqual(int(count), sum(map(int, parts)), (name, rule))
            left_out = re.findall(r"^(\d+) left out: ", text, re.MULTILINE)
            self.assertEqual(sum(map(int, left_out)), int(rows(text)[-1][4]), name)


@unittest.skipUnless(os.path.isdir(PAGES), "the pages are not beside the suite")
class Pages(unittest.TestCase):
    def test_the_page_has_what_its_script_writes(self) -> None:
        page = read(PAGES, "HERCULES.md")
        self.assertTrue(page.startswith(hercules_page.HEAD))
        self.assertTrue(page.endswith(hercules_page.ALIKE + hercules_page.results() + "\n"))

    def test_the_suites_page_has_the_sums(self) -> None:
        page = read(PAGES, "CONFORMANCE.md")
        for title, name in (("Hercules 3.13", "hercules-3.13.txt"), ("Hercules 3.13, with a Seek before each program", "hercules-3.13-seek-first.txt")):
            _, _, right, wrong, left_out, declined = rows(read(hercules_page.RESULTS, name))[-1]
            self.assertIn("| %s | %s | %s | %d |" % (title, right, wrong, int(left_out) + int(declined)), page)


if __name__ == "__main__":
    unittest.main()
