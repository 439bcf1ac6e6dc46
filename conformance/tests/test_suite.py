"""The suite itself: its vectors, its model, its runner and its reports."""
from __future__ import annotations

import os
import subprocess
import sys
import tarfile
import tempfile
import unittest
import xml.etree.ElementTree as xml
from typing import List, Optional, Tuple

from suite.adapters.dasd import tells_of
from suite.adapters.model import ModelEmulator
from suite.adapters.protocol import Broke, ProtocolEmulator, what_it_lacks
from suite.adapters.spoiled import Spoiled
from suite.drive import Profile
from suite.marks import NEEDS, PROFILE, manual_of, needs_of, profile_of, read_rules
from suite.report import LEFT_OUT, RIGHT, WRONG, Result, junit, table
from suite.vectors import HERE, Outcome, Vector, all_vectors, difference

VECTORS = all_vectors()
RULES = read_rules()
NOTHING = "%s %s" % (sys.executable, os.path.join(HERE, "examples", "nothing_there.py"))
SERVER = "%s %s" % (sys.executable, os.path.join(HERE, "serve.py"))
# An emulator that answers each deck by one line.
DECK_READER = "\n".join(["import sys", "for it in sys.stdin:",
                         "    print({'HELLO': 'HELLO 1 x has decks', 'DECK': '%s'}.get(it.split()[0], 'OK'), flush=True)"])


def run(*words: str) -> Tuple[str, int]:
    """What run.py prints, and its status."""
    ran = subprocess.run([sys.executable, os.path.join(HERE, "run.py"), *words], capture_output=True, text=True)
    return ran.stdout, ran.returncode


def last_row(text: str) -> List[int]:
    """The numbers of the row of all vectors: vectors, right, wrong, left out, declined."""
    return [int(it) for line in text.split("\n") if line.startswith("all ") for it in line.split()[1:]]


class Vectors(unittest.TestCase):
    def test_names_are_single(self) -> None:
        self.assertEqual(len({it.name for it in VECTORS}), len(VECTORS))

    def test_each_has_rules_that_are_known_and_each_rule_a_vector(self) -> None:
        for vector in VECTORS:
            self.assertTrue(vector.rules, vector.name)
            self.assertLessEqual(set(vector.rules), set(RULES), vector.name)
        self.assertEqual(set(RULES), {it for vector in VECTORS for it in vector.rules})

    def test_manual_lines_are_those_of_the_rules(self) -> None:
        for vector in VECTORS:
            self.assertEqual(vector.manual, manual_of(vector, RULES), vector.name)

    def test_marks_are_known(self) -> None:
        for vector in VECTORS:
            self.assertLessEqual(set(vector.needs), set(NEEDS), vector.name)
            self.assertLessEqual(set(vector.profile), {"units", "decks", *PROFILE}, vector.name)

    def test_marks_are_what_the_model_says(self) -> None:
        for vector in VECTORS[::23]:
            with self.subTest(vector.name):
                self.assertEqual(vector.needs, needs_of(vector))
                self.assertEqual(vector.profile, profile_of(vector))

    def test_each_choice_of_the_profile_is_seen(self) -> None:
        self.assertEqual(set(PROFILE), {it for vector in VECTORS for it in vector.profile} - {"units", "decks"})

    def test_each_answer_has_its_event(self) -> None:
        for vector in VECTORS:
            lines = [it.split() for it in vector.deck.upper().split(b"\n") if it.split() and not it.split()[0].startswith(b"*")]
            if not vector.fault:
                self.assertEqual([it[0].decode() for it in lines], [it.split()[0] for it in vector.answers], vector.name)


class Model(unittest.TestCase):
    def test_it_gets_every_vector_right(self) -> None:
        model = ModelEmulator()
        for vector in VECTORS:
            with self.subTest(vector.name):
                self.assertIsNone(difference(vector, model.play(vector)))

    def test_it_gets_right_what_is_left_where_it_lacks_all(self) -> None:
        lacks = ["steps", "arrivals", "zeros", "sense"]
        for clock in ("start", "step"):
            model = ModelEmulator(Profile(zeros_behind=False), lacks=lacks, clock=clock)
            for vector in VECTORS:
                if not set(vector.needs) & set(lacks):
                    with self.subTest(vector.name, clock=clock):
                        self.assertIsNone(difference(vector, model.play(vector), lacks))

    def test_each_choice_of_the_profile_leaves_the_other_vectors_right(self) -> None:
        for name in PROFILE:
            model = ModelEmulator(Profile().without(name.replace("-", "_")))
            for vector in VECTORS[::13]:
                if name not in vector.profile:
                    with self.subTest(vector.name, profile=name):
                        self.assertIsNone(difference(vector, model.play(vector)))

    def test_another_number_behind_step_makes_a_choice(self) -> None:
        vectors = {it.name: it for it in VECTORS}
        for name, choice in (("mask-from-far-beyond-storage", "bytes-one-by-one"), ("loop-is-reset", "laps-over-searches")):
            self.assertIn(choice, profile_of(vectors[name]))
            self.assertNotIn(choice, profile_of(vectors[name], ["steps"]))

    def test_the_figures_of_the_page(self) -> None:
        of_text = [it for it in VECTORS if it.is_of_text()]
        self.assertEqual((len(of_text), max(len("DECK " + it.deck.hex()) for it in of_text)), (60, 3085))
        self.assertLessEqual({it.name for it in VECTORS if "decks" in it.needs}, {it.name for it in of_text})


class WrongEmulators(unittest.TestCase):
    def test_condition_codes_off_by_one_are_seen(self) -> None:
        spoiled = Spoiled(ModelEmulator(), "condition-code")
        for vector in VECTORS:
            if any(" CC " in it for it in vector.answers):
                self.assertRegex(difference(vector, spoiled.play(vector)) or "right", "answer .* must be", vector.name)

    def test_a_residual_count_that_is_off_is_seen(self) -> None:
        spoiled = Spoiled(ModelEmulator(), "residual-count")
        for vector in VECTORS:
            if any(it.startswith("INT ") and it != "INT NONE" for it in vector.answers):
                self.assertRegex(difference(vector, spoiled.play(vector)) or "right", "answer .* must be", vector.name)

    def test_an_image_that_is_not_written_is_seen(self) -> None:
        class Forgetful(ModelEmulator):
            def play(self, vector: Vector) -> Outcome:
                outcome = super().play(vector)
                outcome.after = vector.before()
                return outcome
        wrong = [it.name for it in VECTORS if difference(it, Forgetful().play(it))]
        self.assertGreater(len(wrong), 60)
        self.assertIn("write-ckd-keeps-the-records-before", wrong)

    def test_a_byte_behind_an_end_mark_is_seen(self) -> None:
        model = ModelEmulator(Profile(zeros_behind=False))
        vector = next(it for it in VECTORS if it.name == "write-data-clears-behind-the-end-mark")
        self.assertIsNotNone(difference(vector, model.play(vector)))
        self.assertIsNone(difference(vector, model.play(vector), ["zeros"]))


class Traces(unittest.TestCase):
    """A traced run of `dasd` is held to the starts that its answers tell of."""

    def told(self, trace: Optional[str], fault: Optional[str] = None) -> bool:
        with tempfile.TemporaryDirectory() as room:
            path = os.path.join(room, "trace")
            if trace is not None:
                with open(path, "w", encoding="latin1") as it:
                    it.write(trace)
            return tells_of(Outcome(["SIO 190 CC 0", "STEP 5", "SIO 191 CC 3"], fault), path)

    def test_the_same_starts_are_right(self) -> None:
        self.assertTrue(self.told("SIO 190 CC 0, started\n 000400 03 No-Operation\nSIO 191 CC 3, no such drive\n"))

    def test_a_start_too_few_or_another_condition_code_is_wrong(self) -> None:
        self.assertFalse(self.told("SIO 190 CC 0, started\n"))
        self.assertFalse(self.told("SIO 190 CC 2, busy\nSIO 191 CC 3, no such drive\n"))
        self.assertFalse(self.told(""))

    def test_no_trace_is_right_only_for_a_deck_that_was_refused(self) -> None:
        self.assertFalse(self.told(None))
        self.assertTrue(self.told(None, "line 1: no such word"))


class Runner(unittest.TestCase):
    def test_the_model_by_name(self) -> None:
        text, status = run("model")
        self.assertEqual((last_row(text), status), ([len(VECTORS), len(VECTORS), 0, 0, 0], 0))

    def test_an_emulator_with_nothing_joins_and_gets_its_table(self) -> None:
        text, status = run("protocol=" + NOTHING, "--quiet")
        vectors, right, wrong, left_out, declined = last_row(text)
        self.assertEqual((vectors, declined, status), (len(VECTORS), 0, 1))
        self.assertEqual(vectors, right + wrong + left_out)
        self.assertLess(right, 5)
        with open(os.path.join(HERE, "examples", "nothing_there.py"), encoding="ascii") as it:
            self.assertLessEqual(len(it.read().splitlines()), 50)

    def test_the_model_over_the_protocol(self) -> None:
        text, status = run("protocol=" + SERVER + " --lacks steps,arrivals,reset,pci,decks", "--without-profile=sense-bits")
        vectors, right, wrong, left_out, declined = last_row(text)
        self.assertEqual((right + left_out, wrong, declined, status), (vectors, 0, 0, 0))
        self.assertIn("left out: needs decks", text)
        self.assertIn("left out: rests on the profile", text)

    def test_an_emulator_that_ends_is_told_and_the_next_vector_goes_on(self) -> None:
        vector = next(it for it in VECTORS if it.name == "worked-sense")
        emulator = ProtocolEmulator(SERVER)
        self.addCleanup(emulator.close)
        if emulator.process:
            emulator.process.kill()
        self.assertIn("ended", emulator.play(vector).broke or "")
        self.assertIsNone(difference(vector, emulator.play(vector)))

    def test_who_reads_decks_is_given_their_text(self) -> None:
        text, status = run("--quiet", "protocol=" + SERVER)
        self.assertEqual((last_row(text), status), ([len(VECTORS), len(VECTORS), 0, 0, 0], 0))

    def test_who_does_not_announce_that_it_reads_decks_is_asked_event_by_event(self) -> None:
        needing = sum("decks" in it.needs for it in VECTORS)
        text, status = run("protocol=" + SERVER + " --lacks decks", "--quiet")
        self.assertEqual((last_row(text), status), ([len(VECTORS), len(VECTORS) - needing, 0, needing, 0], 0))
        self.assertIn("%d left out: needs decks" % needing, text)

    def test_what_a_hello_has_and_lacks(self) -> None:
        self.assertEqual(what_it_lacks([]), {"decks"})
        self.assertEqual(what_it_lacks(["has", "decks"]), frozenset())
        for words in (["has", "decks", "lacks", "steps", "pci"], ["lacks", "steps", "pci", "has", "decks"]):
            self.assertEqual(what_it_lacks(words), {"steps", "pci"})
        self.assertEqual(what_it_lacks(["has", "decks", "lacks", "decks"]), {"decks"})

    def test_a_deck_that_is_read_wrongly_is_seen(self) -> None:
        vectors = {it.name: it for it in VECTORS}
        for name, says in (("deck-cases", "FAULT line 1: unknown event"), ("deck-cases", "DECK"), ("deck-cases", "DECK 5"), ("deck-cases", "DECK 54"),
                           ("deck-cases", "OK"), ("deck-bad-key", "DECK"), ("deck-bad-key", "FAULT line 2: bad operand"), ("deck-bad-key", "FAULT")):
            code = DECK_READER % says
            with ProtocolEmulator("%s -c \"%s\"" % (sys.executable, code)) as emulator, self.subTest(name, says=says):
                self.assertIsNotNone(difference(vectors[name], emulator.play(vectors[name])))
        with ProtocolEmulator("%s -c \"%s\"" % (sys.executable, DECK_READER % "FAULT line 1: bad operand")) as emulator:
            self.assertIsNone(difference(vectors["deck-bad-key"], emulator.play(vectors["deck-bad-key"])))

    def test_silence_ends_an_emulator(self) -> None:
        code = "import time; print(input().replace('1', '1 x'), flush=True); time.sleep(600)"
        emulator = ProtocolEmulator("%s -c \"%s\"" % (sys.executable, code))
        self.addCleanup(emulator.close)
        emulator.seconds = 0.5
        self.assertIn("was silent for 0.5 s, at BEGIN 1 65536", emulator.play(VECTORS[0]).broke or "")

    def test_how_long_silence_may_be_is_said_by_an_option(self) -> None:
        silent = "protocol=%s -c 'import time; time.sleep(600)'" % sys.executable
        for words in (["run.py", silent], ["differ.py", "model", silent], ["ask.py", silent, os.path.join(HERE, "hercules", "20-halt-idle.deck")]):
            ran = subprocess.run([sys.executable, os.path.join(HERE, words[0]), *words[1:], "--seconds", "0.5"], capture_output=True, text=True)
            self.assertEqual((ran.stderr[-44:], ran.returncode), (" ended, or was silent for 0.5 s, at HELLO 1\n", 2), words)

    def test_a_program_that_says_no_hello_is_refused(self) -> None:
        with self.assertRaises(Broke):
            ProtocolEmulator("true")
        self.assertEqual(run("protocol=true")[1], 2)
        self.assertEqual(run("no-such-thing")[1], 2)

    def test_a_declined_vector_is_neither_right_nor_wrong(self) -> None:
        code = "import sys\nfor it in sys.stdin: print('HELLO 1 x' if it.startswith('HELLO') else 'NO thanks', flush=True)"
        text, status = run("protocol=%s -c \"%s\"" % (sys.executable, code))
        vectors, right, wrong, left_out, declined = last_row(text)
        self.assertEqual((right, wrong, status), (0, 0, 0))
        self.assertEqual(vectors, left_out + declined)


    def test_files_and_options_stand_in_any_order(self) -> None:
        file = os.path.join(HERE, "vectors", "seeks.vectors")
        number = sum(it.group == "seeks" for it in VECTORS)
        for words in (["model", file, "--quiet"], ["model", "--quiet", file], ["--quiet", "model", file], ["model", "--without-profile=charges", file]):
            text, status = run(*words)
            self.assertEqual((last_row(text)[0], status), (number, 0), words)

    def test_a_name_that_is_none_is_refused(self) -> None:
        for word in ("--lacks=step", "--without-profile=charge", "--rule=seeks"):
            self.assertEqual(run("model", word), ("", 2), word)

    def test_the_table_is_headed_by_the_command(self) -> None:
        for kind, head in (("dasd", "false"), ("dasd-traced", "false, traced")):
            text, status = run(kind + "=false", "--only", "deck-of-comments", "--quiet")
            self.assertEqual((text.split("\n")[1], last_row(text), status), (head, [1, 0, 1, 0, 0], 1))

    def test_an_adapter_of_ones_own(self) -> None:
        file = os.path.join(HERE, "examples", "own_adapter.py")
        text, status = run("python=%s:NothingThere" % file, "--quiet")
        self.assertEqual(text.split("\n")[1], "nothing there, in Python")
        self.assertEqual((text.split("\n")[2:], status), (run("protocol=" + NOTHING, "--quiet")[0].split("\n")[2:], 1))

    def test_an_adapter_that_is_none_is_refused(self) -> None:
        file = os.path.join(HERE, "examples", "own_adapter.py")
        for word in ("python=" + file, file + "x:NothingThere", file + ":Vector", file + ":Nothing", "python=", "python=%s:" % file):
            word = word if word.startswith("python=") else "python=" + word
            self.assertEqual(run(word), ("", 2), word)


class Reports(unittest.TestCase):
    def test_a_table_has_a_row_for_each_rule(self) -> None:
        results = [Result(VECTORS[0], RIGHT), Result(VECTORS[1], WRONG, "x"), Result(VECTORS[2], LEFT_OUT, "needs steps")]
        lines = table(results, RULES).split("\n")
        self.assertEqual(lines[-1].split(), ["all", "3", "1", "1", "1", "0"])

    def test_junit_is_xml_with_each_verdict(self) -> None:
        results = [Result(VECTORS[0], RIGHT), Result(VECTORS[1], WRONG, "got <\x00>"), Result(VECTORS[2], LEFT_OUT, "needs steps")]
        again = xml.fromstring(xml.tostring(junit(results, "an emulator")))
        self.assertEqual((again.get("tests"), again.get("failures")), ("3", "1"))
        self.assertEqual([len(again.findall(".//" + it)) for it in ("testcase", "failure", "skipped")], [3, 1, 1])

    def test_a_run_writes_junit(self) -> None:
        with tempfile.TemporaryDirectory() as room:
            file = os.path.join(room, "out.xml")
            _, status = run("model", "--rule", "seek", "--junit", file)
            top = xml.parse(file).getroot()
            self.assertEqual((status, top.tag, top.get("tests")), (0, "testsuites", str(sum("seek" in it.rules for it in VECTORS))))

    def test_the_bundle_runs_by_itself(self) -> None:
        with tempfile.TemporaryDirectory() as room:
            file = os.path.join(room, "suite.tar.gz")
            subprocess.run([sys.executable, os.path.join(HERE, "bundle.py"), file], check=True)
            with tarfile.open(file) as archive:
                archive.extractall(room)
            ran = subprocess.run([sys.executable, os.path.join(room, "ckd-conformance", "run.py"), "model", "--quiet"], capture_output=True, text=True)
            self.assertEqual((last_row(ran.stdout)[1], ran.returncode), (len(VECTORS), 0))


if __name__ == "__main__":
    unittest.main()
