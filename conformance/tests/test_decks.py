"""Decks: what is an event, and what is not."""
from __future__ import annotations

import unittest

from suite.decks import DeckFault, Event, parse, parse_line
from suite.vectors import all_vectors


class Lines(unittest.TestCase):
    def test_each_event_is_read_back_from_its_line(self) -> None:
        for event in (Event("SIO", unit=0x190), Event("TCH"), Event("STEP", number=65535), Event("RUN", number=1 << 24), Event("KEY", address=0x800, number=15),
                      Event("STORE", address=0x48, data=b"\x01\x02"), Event("SHOW", address=0xFFFFFF, number=32)):
            self.assertEqual(parse_line(event.line().encode()), event)

    def test_case_blanks_and_remarks(self) -> None:
        self.assertEqual(parse(b" sio\t19f\r\n\n* SIO 190\n"), [Event("SIO", unit=0x19F)])

    def test_a_line_too_long_comes_before_what_it_says(self) -> None:
        with self.assertRaisesRegex(DeckFault, "line 2: line too long"):
            parse(b"TCH\n" + b"X" * 513)

    def test_the_first_faulty_line_is_named(self) -> None:
        with self.assertRaisesRegex(DeckFault, "line 1: bad operand"):
            parse(b"STEP 65536\nFOO\n")
        with self.assertRaisesRegex(DeckFault, "line 1: unknown event"):
            parse(b"FOO\nSTEP 65536\n")

    def test_decks_of_vectors_are_refused_as_they_say(self) -> None:
        for vector in all_vectors():
            if vector.group == "decks":
                with self.subTest(vector.name):
                    try:
                        parse(vector.deck)
                        fault = None
                    except DeckFault as why:
                        fault = str(why)
                    self.assertEqual(fault, vector.fault)


if __name__ == "__main__":
    unittest.main()
