"""Libraries that are loaded before a program (LD_PRELOAD), and let calls of it fail or refuse it memory."""
from __future__ import annotations

import os
import subprocess
import tempfile
from contextlib import contextmanager
from pathlib import Path
from typing import Iterator

TOP = Path(__file__).resolve().parent.parent.parent
SOURCES = {"failing": TOP / "rows" / "failing_calls.c", "refusing": TOP / "rows" / "refused_memory.c"}
# names the folder of the compiled libraries to the processes that play
FOLDER = "ROWS_LIBRARIES"


@contextmanager
def compiled() -> Iterator[None]:
    """Compiles the libraries, which are there as long as this lasts, for this process and those that it starts."""
    with tempfile.TemporaryDirectory(prefix="rows-") as folder:
        for name, source in SOURCES.items():
            words = [os.environ.get("CC") or "cc", "-shared", "-fPIC", "-O1", "-o", "%s/%s.so" % (folder, name), str(source), "-ldl"]
            subprocess.run(words, check=True)
        os.environ[FOLDER] = folder
        yield


def library(name: str) -> str:
    """The path of a compiled library: `failing` or `refusing`."""
    return "%s/%s.so" % (os.environ[FOLDER], name)
