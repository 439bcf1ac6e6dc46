"""What is printed of rows that come out wrong, by a stage that answers OK to everything, by one that ends, and by one that is silent."""
from __future__ import annotations

import os
import subprocess
import sys
import tempfile
import unittest
from pathlib import Path

TOP = Path(__file__).resolve().parent.parent.parent
AGREES = "import sys\nfor line in sys.stdin:\n    print('OK', flush=True)\n"
ENDS = "import sys\nsys.stdin.readline()\n"
IS_SILENT = "import sys\nsys.stdin.read()\n"


# a stage that answers may be so slow, on a machine that does much beside
SECONDS = 300


class Play(unittest.TestCase):
    """The command rows/play.py over stages that are no stages."""

    def play(self, program: str, seconds: int = SECONDS) -> tuple[int, str]:
        """Plays one row at a program of Python, which may be silent for so long; the status, and what is printed."""
        with tempfile.TemporaryDirectory() as folder:
            # as play.py names it, where the folder is reached by a link
            stage = Path(folder).resolve() / "stage"
            stage.write_text("#!%s\n%s" % (sys.executable, program))
            os.chmod(stage, 0o755)
            words = [sys.executable, str(TOP / "rows" / "play.py"), str(stage), "--seconds", str(seconds), "--only", "charge 2311 0 80",
                     "tracks"]
            ran = subprocess.run(words, stdin=subprocess.DEVNULL, capture_output=True, text=True, timeout=2 * SECONDS, check=False)
        return ran.returncode, ran.stdout.replace(str(stage), "STAGE")

    def test_wrong_row(self) -> None:
        """The line, what it wants, what came, and the command that plays it alone."""
        status, printed = self.play(AGREES)
        self.assertEqual(1, status)
        self.assertEqual(printed.splitlines()[:5], [
            "tracks: charge 2311 0 80",
            "    at:     < CHARGE 144 LAST 80 FIRST 75",
            "    wanted: CHARGE 144 LAST 80 FIRST 75",
            "    got:    OK",
            "    alone:  rows/play.py STAGE --show --only 'charge 2311 0 80' tracks",
        ])
        self.assertEqual("1 rows played, 1 wrong", printed.splitlines()[-1])

    def test_stage_that_ends_or_is_silent(self) -> None:
        """It is told at which line."""
        at = "at CHARGE 2311 0 80"
        for program, seconds, told in ((ENDS, SECONDS, "the stage ended"), (IS_SILENT, 1, "the stage was silent for 1 s")):
            status, printed = self.play(program, seconds)
            self.assertEqual((1, True), (status, "%s %s" % (told, at) in printed), printed)


if __name__ == "__main__":
    unittest.main()
