"""The page in the browser that shows a pack (docs/WEB.md): where it is, addresses of places in it, and copies of it that have a pack inside."""

from __future__ import annotations

import base64
import zlib
from collections.abc import Iterable, Iterator
from pathlib import Path
from urllib.parse import quote

from .markup import escaped

HERE = Path(__file__).resolve().parent
#: In a package it is beside the modules; in a clone where `make page` puts it.
FOUND_AT = (HERE / "pack_page.html", HERE.parent.parent / "web" / "out" / "page" / "index.html")
NO_PAGE = "there is no page that shows packs: in a clone `make page` makes it, or --page names one"
MOST_PAGE = 16 << 20
#: Where a pack goes inside it.
ROOM = b"<!--GIVEN-->"
#: What has the pack inside the page, before and after it.
BLOCK = '<script type="application/octet-stream" id="given-pack" data-name="{name}">', "</script>"
#: The pack that is inside, by what the page calls it.
GIVEN = "given"
#: Letters of base64 are made of so many bytes each time: a multiple of three.
SLICE = 3 << 18
#: A browser holds no longer text; so a packed pack may have three quarters of it.
MOST_LETTERS = (1 << 29) - 24


class BadPage(Exception):
    """There is no page, or a file is none, or it can't have a pack inside; the text says why."""


class PackPage:
    """The page, in a file."""

    def __init__(self, path: Path) -> None:
        try:
            with open(path, "rb") as file:
                self.text = file.read(MOST_PAGE + 1)
        except OSError as fault:
            raise BadPage(f"{path} can't be read: {fault.strerror}") from fault
        if len(self.text) > MOST_PAGE or self.text.count(ROOM) != 1:
            raise BadPage(f"{path} is not the page that shows packs")

    def with_pack(self, name: str, slices: Iterable[bytes]) -> Iterator[bytes]:
        """The page with a pack inside, in parts. BadPage where it is longer than a browser reads."""
        before, after = self.text.split(ROOM)
        yield before + BLOCK[0].format(name=escaped(name)).encode("utf-8", "replace")
        left = MOST_LETTERS
        for part in in_letters(packed(slices)):
            left -= len(part)
            if left < 0:
                raise BadPage(f"packed it has more than {MOST_LETTERS} letters, which no browser reads")
            yield part
        yield BLOCK[1].encode() + after


def page_at(named: str) -> PackPage:
    """The page: in the file that is named, or where it is found."""
    found = [Path(named)] if named else [it for it in FOUND_AT if it.is_file()]
    if not found:
        raise BadPage(NO_PAGE)
    return PackPage(found[0])


def place_in(pack: str, track: tuple[int, int] | None) -> str:
    """The end of an address of the page that opens this pack, `given` or the path of one that is served, at a cylinder and head."""
    return f"#pack={quote(pack, safe='/')}" + (f"&track={track[0]}.{track[1]}" if track else "")


def packed(slices: Iterable[bytes]) -> Iterator[bytes]:
    """Bytes as gzip packs them."""
    packer = zlib.compressobj(6, zlib.DEFLATED, 31)
    for part in slices:
        yield packer.compress(part)
    yield packer.flush()


def in_letters(parts: Iterable[bytes]) -> Iterator[bytes]:
    """Bytes in base64."""
    held = bytearray()
    for part in parts:
        held += part
        whole = len(held) // SLICE * SLICE
        if whole:
            yield base64.b64encode(held[:whole])
            del held[:whole]
    yield base64.b64encode(held)
