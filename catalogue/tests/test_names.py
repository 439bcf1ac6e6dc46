"""Names as texts and as bytes."""

from __future__ import annotations

import random
import unittest

from archive import Case

from dasd_catalogue.names import Places, clean, exact, fits, plain_name, quantity, shown, split_name


class Names(unittest.TestCase):
    """Names that are shown, and those of files that `dasd` makes."""

    def test_one_is_counted_in_the_singular(self) -> None:
        """And none and several in the plural."""
        self.assertEqual([quantity(it, "track") for it in (0, 1, 2)], ["0 tracks", "1 track", "2 tracks"])

    def test_what_is_shown_is_printable_and_can_be_turned_back(self) -> None:
        """For bytes by chance, and for those that terminals and encodings stumble over."""
        draw = random.Random(57)
        names = [bytes(draw.choices(b"ab\\x41\x1b[\n\xff\xc3\xa9\xe2\x80\xae\x00/\x7f", k=draw.randrange(12))) for _ in range(2000)]
        for name in [*names, b"caf\xe9", "caf\u00e9".encode(), b"\\x1b", b"\xed\xa0\x80"]:
            text = shown(name)
            self.assertTrue(text.isprintable(), name)
            self.assertEqual(exact(text), name)

    def test_names_that_differ_are_shown_otherwise(self) -> None:
        """An escape and its spelling."""
        self.assertEqual(shown(b"\x1b[31m"), "\\x1b[31m")
        self.assertEqual(shown(b"\\x1b[31m"), "\\\\x1b[31m")

    def test_texts_for_a_terminal_have_no_controls(self) -> None:
        """Nor what turns the direction of writing."""
        self.assertEqual(clean("a\x1b[31m\u202eb\u00a0\u00e9"), "a\ufffd[31m\ufffdb\u00a0\u00e9")

    def test_names_of_files_are_names_of_volumes_again(self) -> None:
        """By code page 037: 4D is a parenthesis, 27 an escape, 4B a period."""
        self.assertEqual(plain_name("SYS1.MACLIB"), "SYS1.MACLIB")
        self.assertEqual(plain_name("%4CB%6E%27X"), "<B>.X")
        self.assertEqual(split_name("%4B%4B%61A(B%4D)"), ("%4B%4B%61A", "B%4D"))
        self.assertEqual(split_name("PAYROLL"), ("PAYROLL", ""))
        self.assertTrue(fits("A.B", "A%27B"))
        self.assertTrue(fits("A.B", "A.B"))
        self.assertTrue(fits("", "%40"))
        self.assertTrue(fits("A.\u00e9", "A%51%51"))
        self.assertFalse(fits("A.", "A%4D"))
        self.assertFalse(fits("A.B", "A.C"))
        self.assertFalse(fits("A.B", "A.BC"))
        self.assertFalse(fits("A.BC", "A.B"))


class Kept(Case):
    """Paths as the database has them."""

    def test_paths_below_the_catalogue_are_relative(self) -> None:
        """And others whole."""
        places = Places.beside(str(self.database))
        below = bytes(self.folder) + b"/packs/caf\xe9"
        self.assertEqual(places.kept(below), b"packs/caf\xe9")
        self.assertEqual(places.found(b"packs/caf\xe9"), below)
        self.assertEqual(places.kept(bytes(self.folder)), b".")
        self.assertEqual(places.found(b"."), bytes(self.folder))
        beside = bytes(self.folder) + b"-more/x"
        self.assertEqual(places.kept(beside), beside)
        self.assertEqual(places.found(beside), beside)


if __name__ == "__main__":
    unittest.main()
