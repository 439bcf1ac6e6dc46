#!/usr/bin/env python3
"""Puts a pack into a copy of the page, which then begins with it: one file that a browser opens from a disk, with no server.

    given_pack.py PAGE OUT --pack FILE [--name NAME]

PAGE is a page that `web/make_page` made. FILE is an image of at most 512 MiB, or the gzip of one; NAME is what the page calls it, FILE's own
name if it is not given. A FILE that is larger, also packed, or empty or a damaged gzip, and a PAGE that has no room for a pack, are refused with status 1, and
OUT stays as it was. The pack is read and written in pieces. `put` does the same from Python."""

import argparse
import base64
import gzip
import html
import os
import sys
import tempfile
import zlib
from pathlib import Path
from typing import BinaryIO, Iterator

MOST = 512 << 20
# a browser has no longer text
MOST_LETTERS = (1 << 29) - 24
PIECE = 3 << 18
PLACE = b"<!--GIVEN-->\n"


class Refused(Exception):
    """A pack or a page that is not taken; the text says why."""


def pieces(pack: Path) -> Iterator[bytes]:
    """The image's bytes, unpacked where it is a gzip."""
    with pack.open("rb") as file:
        is_packed = file.read(2) == b"\x1f\x8b"
    total = 0
    with gzip.open(pack) if is_packed else pack.open("rb") as source:
        while piece := source.read(PIECE):
            total += len(piece)
            if total > MOST:
                raise Refused(f"{pack}: more than {MOST:,} bytes, which the page does not take")
            yield piece
    if not total:
        raise Refused(f"{pack}: it is empty")


def packed(pack: Path) -> Iterator[bytes]:
    """The gzip of an image, in base64."""
    press, left = zlib.compressobj(9, zlib.DEFLATED, 31), b""
    for piece in pieces(pack):
        left += press.compress(piece)
        whole = len(left) - len(left) % 3
        yield base64.b64encode(left[:whole])
        left = left[whole:]
    yield base64.b64encode(left + press.flush())


def block(pack: Path, name: str) -> Iterator[bytes]:
    """The block of the page, which no browser runs."""
    said = html.escape(name).encode("utf-8", "replace")
    yield b'<script type="application/octet-stream" id="given-pack" data-name="' + said + b'">'
    letters = 0
    for part in packed(pack):
        letters += len(part)
        if letters > MOST_LETTERS:
            raise Refused(f"{pack}: packed it has more than {MOST_LETTERS:,} letters, which no browser reads")
        yield part
    yield b"</script>\n"


def fill(out: BinaryIO, page: Path, pack: Path, name: str) -> None:
    """Writes the page with the pack in its place."""
    before, place, after = page.read_bytes().partition(PLACE)
    if not place or PLACE in after:
        raise Refused(f"{page}: it has no one place for a pack; web/make_page makes one that has")
    out.write(before)
    for part in block(pack, name):
        out.write(part)
    out.write(after)


def put(page: Path, out: Path, pack: Path, name: str = "") -> None:
    """Puts a pack into a copy of the page: Refused says why it can't be, and then `out` stays as it was."""
    handle, room = tempfile.mkstemp(dir=out.parent, prefix=f".{out.name}.")
    try:
        with os.fdopen(handle, "wb") as file:
            fill(file, page, pack, name or pack.name)
        os.chmod(room, 0o644)
        os.replace(room, out)
    except (EOFError, zlib.error, gzip.BadGzipFile) as fault:
        raise Refused(f"{pack}: its gzip is damaged ({fault})") from fault
    finally:
        Path(room).unlink(missing_ok=True)


def main() -> int:
    """Does as the words say."""
    words = argparse.ArgumentParser(description=__doc__, formatter_class=argparse.RawDescriptionHelpFormatter)
    words.add_argument("page", type=Path)
    words.add_argument("out", type=Path)
    words.add_argument("--pack", type=Path, required=True)
    words.add_argument("--name", default="")
    given = words.parse_args()
    try:
        put(given.page, given.out, given.pack, given.name)
    except (Refused, OSError) as why:
        print(f"given_pack.py: {why}", file=sys.stderr)
        return 1
    print(f"{given.out}: {given.out.stat().st_size} bytes")
    return 0


if __name__ == "__main__":
    sys.exit(main())
