#!/usr/bin/env python3
"""Gives the catalogue packed files, lines of JSON and names of any bytes: catalogue.py SECONDS SEED

Whatever a file holds that is called as a packed one, it is unpacked or refused; whatever the program prints, its volume has an answer; a path that is
shown can be turned back, and is printable; and nothing becomes markup. Inputs are drawn by Hypothesis (Debian's python3-hypothesis)."""

from __future__ import annotations

import gzip
import lzma
import os
import random
import sys
import tempfile
import time
from collections.abc import Callable
from pathlib import Path
from unittest import mock

from hypothesis import HealthCheck, given, seed, settings, strategies

TOP = Path(__file__).resolve().parent.parent
sys.path.insert(0, str(TOP / "catalogue"))

from dasd_catalogue import names  # noqa: E402
from dasd_catalogue.answers import Task  # noqa: E402
from dasd_catalogue.asking import ask  # noqa: E402
from dasd_catalogue.images import BadPacking, first_bytes, unpack  # noqa: E402
from dasd_catalogue.markup import Html, tag  # noqa: E402
from dasd_catalogue.program import Volume, Way  # noqa: E402

AT_ONCE = 25
MOST = 100_000
HELD = b"CKD_P370" + bytes(500)
PACKED = [gzip.compress(HELD * 20, mtime=0), lzma.compress(HELD * 20), gzip.compress(b"", mtime=0) * 3, lzma.compress(random.Random(1).randbytes(3000))]
PRINTED = [b'{"errors":0,"warnings":0,"notes":0}', b'{"serial":"A","contents":[0,1,0,1]}', b'{"bytes":3,"name":"../x"}', b'{"name":"A","text":"B"}']

Bytes = strategies.binary(max_size=300)
Changes = strategies.lists(strategies.tuples(strategies.integers(0, 1 << 16), Bytes), max_size=4)
Values = strategies.recursive(
    strategies.none() | strategies.booleans() | strategies.integers() | strategies.text(max_size=9) | strategies.floats(),
    lambda inner: strategies.lists(inner, max_size=3) | strategies.dictionaries(strategies.text(max_size=9), inner, max_size=3),
)


def put(path: Path, kept: bytes, changes: list[tuple[int, bytes]]) -> None:
    """A file with these bytes, except for changes at places of it."""
    held = bytearray(kept)
    for at, new in changes:
        held[at % len(held) : at % len(held) + len(new)] = new
    path.write_bytes(held)


def packed_files(room: Path) -> Callable[[], None]:
    """A packed file with changes is unpacked or refused, and its first bytes are had or not."""

    @given(strategies.sampled_from(PACKED), Changes)
    def check(kept: bytes, changes: list[tuple[int, bytes]]) -> None:
        path, target = room / "x_1.ckd.gz", room / "unpacked"
        put(path, kept, changes)
        target.unlink(missing_ok=True)
        assert len(first_bytes(bytes(path), 18)) <= 18
        try:
            assert unpack(bytes(path), bytes(target), MOST) == target.stat().st_size <= MOST
        except BadPacking:
            pass

    return check


def printed_lines(room: Path) -> Callable[[], None]:
    """Whatever the program prints, the volume has an answer, and no file outside its folder goes."""
    pack, beside = room / "1.ckd", room / "x"
    pack.write_bytes(HELD)
    beside.write_bytes(b"stays")

    @given(strategies.lists(strategies.sampled_from(PRINTED) | Bytes | Values.map(lambda it: repr(it).encode("utf-8", "replace")), max_size=6))
    def check(lines: list[bytes]) -> None:
        def prints(volume: Volume, words: list[str], out: object, told: object) -> str:
            del words, told
            out.write(b"\n".join(lines))  # type: ignore[attr-defined]
            return "" if volume.names else "none"

        with mock.patch.object(Volume, "_run", prints):
            answer = ask(Task((1,), (bytes(pack),)), Way("none", scratch=str(room)))
        assert answer.state in ("volume", "fault") and (answer.state == "volume" or answer.faults), answer
        assert beside.read_bytes() == b"stays"

    return check


def names_and_markup(room: Path) -> Callable[[], None]:
    """Names are shown so that they can be turned back, and become no markup."""
    del room

    @given(Bytes, strategies.text(max_size=60))
    def check(path: bytes, text: str) -> None:
        shown = names.shown(path)
        assert shown.isprintable() and names.exact(shown) == path
        assert names.clean(text).isprintable() or "\u00a0" in text
        assert isinstance(names.plain_name(text), str) and len(names.split_name(text)) == 2
        names.fits(text, shown)
        held = tag("p", text, title=text)
        assert isinstance(held, Html) and held.count("<") == 2 and held.count('"') == 2

    return check


def main() -> int:
    """Runs until the seconds are over."""
    if len(sys.argv) != 3:
        sys.exit(__doc__)
    end, number, count = time.monotonic() + float(sys.argv[1]), int(sys.argv[2]), 0
    with tempfile.TemporaryDirectory(prefix="fuzz-") as folder:
        os.chdir(folder)
        how = settings(max_examples=AT_ONCE, deadline=None, database=None, suppress_health_check=list(HealthCheck))
        while count == 0 or time.monotonic() < end:
            for make in (packed_files, printed_lines, names_and_markup):
                seed(number + count)(how(make(Path(folder))))()
                count += 1
    print(f"catalogue: {count * AT_ONCE} inputs, nothing wrong")
    return 0


if __name__ == "__main__":
    sys.exit(main())
