"""Types at real shells and looks at what they complete, by completions/; and plants faults in what make_completions.py compares.

    tools/run gate/test_completions

Each of bash, zsh and fish that is installed runs at a terminal of its own, in a folder with some files; another is skipped."""

import os
import pty
import re
import select
import shutil
import signal
import tempfile
import time
import unittest
from pathlib import Path

from tools import TOP
from tools.make import completions as make_completions, help_words

SECONDS = 30
# How each shell is begun, and what makes it know the completions.
SHELLS = {
    "bash": (["bash", "--norc", "--noprofile", "-i"], "bind 'set enable-bracketed-paste off'; source {completions}/dasd.bash"),
    "zsh": (["zsh", "-f", "-i"], "fpath=({completions} $fpath); autoload -U compinit; compinit -u -D"),
    "fish": (["fish", "--no-config", "-i"], "source {completions}/dasd.fish"),
}
# What is typed before the key Tab, and what stands there afterwards.
ROWS = [
    ("dasd fo", "dasd format"),
    ("dasd help vt", "dasd help vtoc"),
    ("dasd check --st", "dasd check --strict"),
    ("dasd format --cyl", "dasd format --cylinders"),
    ("dasd list pac", "dasd list pack.ckd"),
    ("dasd compare pack.ckd oth", "dasd compare pack.ckd other.ckd"),
    ("dasd explain se", "dasd explain sense"),
    ("dasd run --deck de", "dasd run --deck deck.txt"),
    ("dasd run 90=pac", "dasd run 90=pack.ckd"),
    ("dasd run 90=pack.ckd 91=oth", "dasd run 90=pack.ckd 91=other.ckd"),
    ("dasd extract --all ta", "dasd extract --all taken"),
    ("dasd extract --to ta", "dasd extract --to ta"),
    ("dasd format --cylinders pac", "dasd format --cylinders pac"),
    ("dasd explain csw pac", "dasd explain csw pac"),
]
HELP = """Does things

Usage: dasd <COMMAND>

Commands:
  list  Lists
  help  Print this

Options:
  -h, --help  Print help

Example: dasd list
"""
HELP_OF_LIST = """Lists

Usage: dasd list [OPTIONS] <PATH>...

Arguments:
  <PATH>...  the files

Options:
      --used      only some
      --form <M>  a form [default: a] [possible values: a, b]
  -h, --help      Print help
"""


class Terminal:
    """A shell at a terminal of its own."""

    def __init__(self, words: list[str], folder: str):
        self.process, self.terminal = pty.fork()
        if self.process == 0:
            os.chdir(folder)
            kept = {"PATH": os.environ["PATH"], "HOME": folder, "TERM": "dumb", "LC_ALL": "C.UTF-8", "XDG_CONFIG_HOME": folder}
            os.execvpe(words[0], words, kept)
        self.read_all = ""

    def type(self, text: str) -> None:
        """Types a text."""
        os.write(self.terminal, text.encode())

    def await_text(self, pattern: str) -> re.Match[str]:
        """Waits until something stands on the terminal, behind what was waited for before."""
        ends = time.monotonic() + SECONDS
        while True:
            found = re.search(pattern, self.read_all)
            if found:
                self.read_all = self.read_all[found.end() :]
                return found
            if not select.select([self.terminal], [], [], max(0, ends - time.monotonic()))[0]:
                raise AssertionError(f"{pattern} does not come: {self.read_all!r}")
            self.read_all += os.read(self.terminal, 65536).decode("utf-8", "replace")

    def close(self) -> None:
        """Ends the shell."""
        os.kill(self.process, signal.SIGKILL)
        os.close(self.terminal)
        os.waitpid(self.process, 0)


def settle(terminal: Terminal) -> None:
    """Reads until nothing has come for a moment, since a key typed too early is one of the shell's before it is ready."""
    while select.select([terminal.terminal], [], [], 0.3)[0]:
        terminal.read_all += os.read(terminal.terminal, 65536).decode("utf-8", "replace")


class Shells(unittest.TestCase):
    """What is completed."""

    def play(self, name: str) -> None:
        """All rows at a shell."""
        if not shutil.which(name):
            self.skipTest(f"no {name} here: apt-get install {name}")
        words, begins = SHELLS[name]
        with tempfile.TemporaryDirectory() as folder:
            for file in ("pack.ckd", "other.ckd", "deck.txt", "table.txt", "tally.txt"):
                Path(folder, file).touch()
            Path(folder, "taken").mkdir()
            terminal = Terminal(words, folder)
            try:
                settle(terminal)
                terminal.type(begins.format(completions=TOP / "completions") + "; echo be''gun\n")
                terminal.await_text("begun\r?\n")
                for typed, wanted in ROWS:
                    with self.subTest(shell=name, typed=typed):
                        self.assertEqual(self.completed(terminal, typed), wanted)
            finally:
                terminal.close()

    def completed(self, terminal: Terminal, typed: str) -> str:
        """What stands on the line behind the key, without a slash behind a folder, which zsh takes away again: the line's own words are put
        behind an echo, whose output is read."""
        settle(terminal)
        terminal.read_all = ""
        terminal.type(typed + "\t")
        settle(terminal)
        terminal.type("\x05 < /dev/null\x01echo the''line \n")
        found = terminal.await_text(r"(?:^|[\r\n])theline (dasd[^\r\n]*)\r?\n")
        return found[1].strip().rstrip("/")

    def test_bash(self) -> None:
        self.play("bash")

    def test_zsh(self) -> None:
        self.play("zsh")

    def test_fish(self) -> None:
        self.play("fish")


class Words(unittest.TestCase):
    """What is read of a help, and what of a manual page is told."""

    def test_help_is_read(self) -> None:
        command = help_words.command("list", HELP_OF_LIST)
        self.assertEqual((command.words, [it.long for it in command.options]), ("Lists", ["--used", "--form", "--help"]))
        self.assertEqual(help_words.sections(HELP)["Commands"], ["  list  Lists", "  help  Print this"])
        self.assertEqual(help_words.command("", HELP).options, [command.options[2]])
        self.assertEqual(command.arguments, [help_words.Word("PATH..", "the files")])
        self.assertEqual(command.options[1].takes, help_words.Word("M", "a form", ["a", "b"], "a"))
        self.assertEqual(help_words.kind(command.arguments[0]), help_words.FILES)

    def test_unknown_lines_and_places(self) -> None:
        for text in (HELP_OF_LIST.replace("      --used ", "      ++used "), HELP_OF_LIST.replace("  <PATH>...  the", "  PATH the")):
            with self.assertRaises(ValueError):
                help_words.command("list", text)
        with self.assertRaises(ValueError):
            help_words.kind(help_words.Word("STARS", "unknown"))

    def test_synopsis(self) -> None:
        commands = [help_words.command("list", HELP_OF_LIST)]
        manual = ".Sh SYNOPSIS\n.Nm\n.Cm list\n.Op Fl Fl used\n.Op Fl Fl form Ar M\n.Ar path\n.Sh DESCRIPTION\n"
        self.assertEqual(make_completions.synopsis_faults(manual, commands), [])
        for planted, told in (
            (manual.replace(".Op Fl Fl used\n", ""), "the synopsis of list lacks --used"),
            (manual.replace("used", "unused"), "the synopsis of list has another option: --unused"),
            (manual.replace(".Cm list", ".Cm lists"), "the synopsis has lists, which is no command"),
        ):
            self.assertIn(f"docs/dasd.1: {told}", make_completions.synopsis_faults(planted, commands))

    def test_section_is_put_in_its_place(self) -> None:
        manual = ".Sh DESCRIPTION\nwords\n.Sh FILES\nfiles\n"
        once = make_completions.with_options(manual, ".Sh OPTIONS\nold\n")
        self.assertEqual(once, ".Sh DESCRIPTION\nwords\n.Sh OPTIONS\nold\n.Sh FILES\nfiles\n")
        self.assertEqual(make_completions.with_options(once, ".Sh OPTIONS\nnew\n"), once.replace("old", "new"))


if __name__ == "__main__":
    unittest.main()
