"""A command of `dasd` each of whose takings of memory is refused in turn, alone, and what must come of that."""
from __future__ import annotations

import os
import re
import subprocess
import tempfile
from dataclasses import dataclass
from pathlib import Path
from typing import NamedTuple

from .preload import library
from .text import Wrong

SECONDS = 60
JOURNAL = ".dasd-journal"
BEGUN = re.compile(r"  (.+): its save is begun and not ended; the next run that uses it ends it")


class Came(NamedTuple):
    """What came of a run: its status, what it printed and told, and the files of its folder after it, but for a trace; and the trace."""
    status: int
    printed: bytes
    told: bytes
    files: dict[str, bytes]
    trace: bytes


@dataclass(frozen=True)
class Refused:
    """A command: the program, the folder that it begins with, its words, and what is on its standard input."""
    program: str
    folder: Path
    words: list[str]
    deck: bytes

    def files(self) -> dict[str, bytes]:
        """The files of the folder."""
        return {str(it.relative_to(self.folder)): it.read_bytes() for it in self.folder.rglob("*") if it.is_file()}

    def put_back(self, old: dict[str, bytes]) -> None:
        """Puts these files back. One that is there stays that file, by which its journal knows it."""
        for name in self.files().keys() - old.keys():
            (self.folder / name).unlink()
        for name, held in old.items():
            (self.folder / name).write_bytes(held)

    def run(self, number: int, old: dict[str, bytes]) -> tuple[Came, int]:
        """Runs it over these files with one taking refused, or with none where that is 0; what came of it, and how many takings there were."""
        traces = self.words[self.words.index("--trace-to") + 1] if "--trace-to" in self.words else ""
        self.put_back(old)
        with tempfile.TemporaryDirectory() as room:
            log = Path(room, "log")
            given = dict(os.environ, REFUSE_AT=str(number), REFUSE_LOG=str(log), LD_PRELOAD=library("refusing"))
            words = [self.program, *self.words]
            with tempfile.TemporaryFile() as deck:
                deck.write(self.deck)
                deck.seek(0)
                ran = subprocess.run(words, stdin=deck, capture_output=True, cwd=self.folder, env=given, timeout=SECONDS, check=False)
            takings = int(log.read_text(encoding="ascii").splitlines()[-1].split()[0])
        files = self.files()
        trace = files.pop(traces, b"")
        return Came(ran.returncode, ran.stdout, ran.stderr, files, trace), takings

    def is_refused(self, came: Came, good: Came, old: dict[str, bytes]) -> bool:
        """Whether it said that there is no memory, printed a front of what it prints, and left all as it was. Of all data sets those that were whole
        before stay."""
        is_front = good.printed.startswith(came.printed) and good.trace.startswith(came.trace)
        if self.words[:2] == ["extract", "--all"]:
            old = {it: good.files[it] for it in good.files if it in old or it in came.files}
        return (came.status, came.told) == (1, b"dasd: out of memory\n") and is_front and came.files == old

    def is_begun(self, came: Came, good: Came, old: dict[str, bytes]) -> bool:
        """Whether it said that there is no memory, of a file whose save was cut off before it; and the next run ends that, as the remark says."""
        told = came.told.decode().splitlines()
        begun = [it[1] for it in map(BEGUN.fullmatch, told[1:]) if it]
        if not any(it.endswith(JOURNAL) for it in old) or (came.status, told[:1], len(begun)) != (1, ["dasd: out of memory"], len(told) - 1) or not begun:
            return False
        words = [self.program, "run", *("9%d=%s" % (at, name) for at, name in enumerate(begun))]
        ran = subprocess.run(words, input=b"", capture_output=True, cwd=self.folder, timeout=SECONDS, check=False)
        return (ran.returncode, self.files()) == (0, good.files)

    def is_untold(self, came: Came, good: Came) -> bool:
        """Whether `recover` or `format` did all, and had no memory to tell it."""
        return good.told != b"" and self.words[0] in ("recover", "format") and came == good._replace(told=b"")

    def without_effect(self) -> int:
        """Refuses each taking; how often that changed nothing. Otherwise it has to be refused."""
        old = self.files()
        (good, takings), count = self.run(0, old), 0
        for number in range(1, takings + 1):
            came, _ = self.run(number, old)
            if self.is_refused(came, good, old) or self.is_untold(came, good) or self.is_begun(came, good, old):
                continue
            if came != good:
                wanted = "out of memory, or all as without it"
                raise Wrong("taking %d of %d is refused" % (number, takings), wanted, "%d %s %s" % (came.status, came.told.decode(), sorted(came.files)))
            count += 1
        return count if takings else -1
