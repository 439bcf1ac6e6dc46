"""Lists by chance, differential runs and the minimizer."""
from __future__ import annotations

import os
import subprocess
import sys
import unittest
from dataclasses import replace
from typing import Tuple

from differ import unlike
from suite.adapters.model import ModelEmulator
from suite.chance import Chance
from suite.decks import parse
from suite.drive import Profile
from suite.shrink import shorter_list, shrink
from suite.vectors import HERE, Vector

SERVER = "protocol=%s %s" % (sys.executable, os.path.join(HERE, "serve.py"))


def differ(*words: str) -> Tuple[str, int]:
    ran = subprocess.run([sys.executable, os.path.join(HERE, "differ.py"), *words], capture_output=True, text=True)
    return ran.stdout, ran.returncode


class Lists(unittest.TestCase):
    def test_a_seed_makes_one_list(self) -> None:
        for seed in range(5):
            one, other = (Chance(seed).vector() for _ in range(2))
            self.assertEqual(one.deck, other.deck)
            self.assertEqual([it.bytes() for it in one.before().values()], [it.bytes() for it in other.before().values()])
        self.assertNotEqual(Chance(1).vector().deck, Chance(2).vector().deck)

    def test_they_are_decks(self) -> None:
        for seed in range(40):
            self.assertTrue(parse(Chance(seed).vector().deck))

    def test_plain_lists_do_much(self) -> None:
        changed = checks = 0
        for seed in range(60):
            vector = Chance(seed, plain=True, seek_first=True, odd=False).vector()
            before, outcome = vector.before(), ModelEmulator().play(vector)
            changed += any(before[unit].bytes() != it.bytes() for unit, it in outcome.after.items())
            checks += any(" 0E" in it for it in outcome.answers)
        self.assertGreater(changed, 20)
        self.assertGreater(checks, 20)


class Shrinking(unittest.TestCase):
    def test_a_list_becomes_what_is_needed(self) -> None:
        self.assertEqual(shorter_list(list(range(100)), lambda it: {3, 71} <= set(it)), [3, 71])

    def test_a_failing_deck_becomes_short_and_still_fails(self) -> None:
        wrong = ModelEmulator(Profile(write_credit=False))

        def fails(vector: Vector) -> bool:
            try:
                return unlike(vector, ModelEmulator().play(vector), wrong.play(vector), ()) is not None
            except (IndexError, AttributeError):
                return False
        seed = next(it for it in range(200) if fails(Chance(it, plain=True).vector()))
        vector = Chance(seed, plain=True).vector()
        short = shrink(vector, fails)
        self.assertTrue(fails(short))
        self.assertLess(short.deck.count(b"\n"), vector.deck.count(b"\n"))
        for at in range(short.deck.count(b"\n")):
            lines = short.deck.split(b"\n")[:-1]
            fewer = replace(short, deck=b"".join(it + b"\n" for it in lines[:at] + lines[at + 1:]))
            self.assertFalse(fewer.deck and fails(fewer))


class Differing(unittest.TestCase):
    def test_the_model_and_the_model_over_the_protocol_are_alike(self) -> None:
        text, status = differ("model", SERVER, "--lists", "15")
        self.assertIn("15 lists of 15 seeds from 1, 0 differ", text)
        self.assertEqual(status, 0)

    def test_a_spoiled_residual_count_is_seen_and_made_short(self) -> None:
        text, status = differ("model", "model", "--lists", "2", "--most", "1", "--spoil", "residual-count")
        self.assertEqual(status, 1)
        self.assertIn("# deck", text)
        self.assertLess(text.count("STORE"), 8)


if __name__ == "__main__":
    unittest.main()
