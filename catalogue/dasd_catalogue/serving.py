"""The pages over a catalogue, served by one process that only reads, on the loopback where no other address is named.

It answers GET and HEAD alone. On the loopback it answers those alone who ask for it by a name of the loopback, so that no page of another host can
read it through a visitor's browser. No page of the catalogue has a script, and its policy lets none run. The page that shows packs (`pack_page`) has
its own policy, and gets packs (`packs`) by the numbers of their volumes.
"""

from __future__ import annotations

import ipaddress
import sqlite3
import sys
from collections.abc import Callable, Iterator
from http import HTTPStatus
from http.server import BaseHTTPRequestHandler, ThreadingHTTPServer
from importlib import resources
from itertools import chain
from typing import ClassVar
from urllib.parse import parse_qs, quote, urlencode, urlsplit

from . import __version__, queries
from .database import open_to_read
from .markup import joined, table, tag
from .names import Places
from .pack_page import PackPage, place_in
from .packs import TOO_LARGE, NotGiven, Pack, is_too_large, name_of_pack
from .pages import ROWS, View
from .queries import KINDS, Place
from .sides import sides

POLICY = "default-src 'none'; style-src 'self'; form-action 'self'; base-uri 'none'; frame-ancestors 'none'"
#: The page that shows packs says all else itself.
PAGE_POLICY = "frame-ancestors 'none'"
#: A browser shows a reason of so many characters.
MOST_REASON = 200


class BadAddress(Exception):
    """An address or a port can't be served at; the text says why."""


class ServedLinks:
    """Where pages are served, with that which shows packs or without."""

    def __init__(self, has_page: bool = False) -> None:
        self.has_page = has_page

    def packs(self, page: int = 0) -> str:
        """A page of the list of packs."""
        return f"/?page={page}" if page else "/"

    def broken(self, page: int = 0) -> str:
        """A page of the list of what is broken."""
        return f"/broken?page={page}" if page else "/broken"

    def copies(self, kind: str, page: int = 0) -> str:
        """A page of the copies of a kind."""
        return f"/copies?{urlencode({'kind': kind, 'page': page})}"

    def place(self, place: Place) -> str:
        """The page of a volume, a data set or a member."""
        return "/at/" + spelled(place)

    def compare(self, first: Place, second: Place) -> str:
        """The page of two things side by side."""
        return f"/sides/{spelled(first)}/{spelled(second)}"

    def search(self) -> str:
        """Where the form for a search leads."""
        return "/search"

    def style(self) -> str:
        """The style sheet."""
        return "/page.css"

    def pack(self, volume: sqlite3.Row, track: tuple[int, int] | None = None) -> str:
        """The page that shows the pack of a volume."""
        if not self.has_page or is_too_large(volume):
            return ""
        return "/page" + place_in(f"/packs/{volume['file']}/{quote(name_of_pack(volume['shown']), safe='')}", track)

    def pack_fault(self, volume: sqlite3.Row) -> str:
        """Why it does not."""
        return TOO_LARGE if self.has_page and is_too_large(volume) else ""


def spelled(place: Place) -> str:
    """A place as it is in an address: its numbers, with hyphens between them."""
    return "-".join(str(it) for it in (place.volume, place.data_set, place.member) if it is not None)


def place_of(text: str) -> Place | None:
    """The place that is spelled so; None where none is."""
    numbers = text.split("-")
    if not 1 <= len(numbers) <= 3 or not all(it.isascii() and it.isdigit() and len(it) <= 18 for it in numbers):
        return None
    return Place(*map(int, numbers))


class Site:
    """What is answered to a path and what is asked after it: a page, or None where there is none."""

    def __init__(self, connection: sqlite3.Connection, has_page: bool = False) -> None:
        self.view = View(connection, ServedLinks(has_page))

    def answer(self, path: str, asked: dict[str, list[str]]) -> str | None:
        """The page at a path."""
        page = number_of(asked.get("page", ["0"])[0])
        fixed: dict[str, Callable[[], str]] = {
            "/": lambda: self.view.packs(page),
            "/broken": lambda: self.view.broken(page),
            "/copies": lambda: self.view.copies(kind_of(asked), page),
            "/search": lambda: self.search(asked.get("q", [""])[0]),
        }
        if path in fixed:
            return fixed[path]()
        words = path.split("/")[1:]
        places = [place_of(it) for it in words[1:]]
        if words[0] == "at" and len(places) == 1 and places[0]:
            return self.at(places[0])
        if words[0] == "sides" and len(places) == 2 and places[0] and places[1]:
            return sides(self.view, places[0], places[1])
        return None

    def at(self, place: Place) -> str:
        """The page of a place."""
        if place.data_set is None:
            return self.view.volume(place.volume)
        return self.view.data_set(place) if place.member is None else self.view.member(place)

    def search(self, asked: str) -> str:
        """What has a name, and where a word stands."""
        words = asked.split()
        connection, view = self.view.connection, self.view
        named = [it for it, _ in zip(queries.places_of_name(connection, asked.strip()), range(ROWS))] if words else []
        names = tag("ul", *(tag("li", view.named(it)) for it in named)) if named else tag("p", "Nothing has this name.")
        rows = []
        for number in queries.texts_with(connection, words, ROWS // 4) if words else []:
            lines = "\n".join(f"{at:5} {line}" for at, line in queries.lines_with(queries.text_of(connection, number), words))
            places = queries.places_of_text(connection, number)
            more = f" and {len(places) - 4} more" if len(places) > 4 else None
            rows.append((tag("ul", *(tag("li", view.named(it)) for it in places[:4]), more), tag("pre", lines)))
        found = table(["Where", "Lines"], rows, class_="wide") if rows else tag("p", "No text has these words.")
        body = joined([tag("h2", "Names"), names, tag("h2", "Texts"), found])
        return view.page(f"Search: {asked}", body, asked=asked)


def number_of(text: str) -> int:
    """The number of a page; 0 where it is none."""
    return int(text) if text.isascii() and text.isdigit() and len(text) < 10 else 0


def kind_of(asked: dict[str, list[str]]) -> str:
    """The kind of copies that is asked for."""
    kind = asked.get("kind", [""])[0]
    return kind if kind in KINDS else "member"


class Handler(BaseHTTPRequestHandler):
    """Answers one request."""

    server_version = f"dasd-catalogue/{__version__}"
    sys_version = ""
    protocol_version = "HTTP/1.1"
    timeout = 60
    database: ClassVar[str] = ""
    hosts: ClassVar[frozenset[str]] = frozenset()
    pack_page: ClassVar[PackPage | None] = None

    def do_GET(self) -> None:  # pylint: disable=invalid-name
        """A page, or that there is none."""
        if self.hosts and self.headers.get("Host", "") not in self.hosts:
            self.send(HTTPStatus.FORBIDDEN, "text/plain; charset=utf-8", b"not for this host\n")
            return
        try:
            address = urlsplit(self.path)
        except ValueError:
            self.send(HTTPStatus.BAD_REQUEST, "text/plain; charset=utf-8", b"no such address\n")
            return
        if address.path == "/page.css":
            self.send(HTTPStatus.OK, "text/css; charset=utf-8", style_sheet())
            return
        if address.path == "/page" and self.pack_page:
            self.send(HTTPStatus.OK, "text/html; charset=utf-8", self.pack_page.text, PAGE_POLICY)
            return
        words = address.path.split("/")
        if words[1:2] == ["packs"] and len(words) in (3, 4) and self.pack_page:
            self.send_pack(place_of(words[2]))
            return
        self.send_page(address.path, parse_qs(address.query, errors="replace"))

    do_HEAD = do_GET

    def send_page(self, path: str, asked: dict[str, list[str]]) -> None:
        """Sends the page at a path, by a connection of its own, or says that there is none."""
        connection = open_to_read(self.database)
        try:
            page = Site(connection, self.pack_page is not None).answer(path, asked)
        except queries.NothingThere:
            page = None
        finally:
            connection.close()
        if page is None:
            self.send(HTTPStatus.NOT_FOUND, "text/plain; charset=utf-8", b"there is no such page\n")
        else:
            self.send(HTTPStatus.OK, "text/html; charset=utf-8", page.encode("utf-8", "replace"))

    def send_pack(self, place: Place | None) -> None:
        """Sends the pack of a volume, or says why it is not given."""
        if self.request_version != self.protocol_version:  # which has no chunks
            self.send(HTTPStatus.HTTP_VERSION_NOT_SUPPORTED, "text/plain; charset=utf-8", b"packs are given by HTTP/1.1\n")
            return
        connection = open_to_read(self.database)
        try:
            if place is None or place.data_set is not None:
                raise queries.NothingThere
            pack = Pack(connection, Places.beside(self.database), place.volume)
            try:
                with pack:
                    self.send_slices(pack.slices())
            except NotGiven as fault:
                page = View(connection, ServedLinks(True)).page("This pack is not given", tag("p", f"{fault}."))
                self.send(HTTPStatus.CONFLICT, "text/html; charset=utf-8", page.encode("utf-8", "replace"), reason=str(fault))
        except queries.NothingThere:
            self.send(HTTPStatus.NOT_FOUND, "text/plain; charset=utf-8", b"there is no such pack\n")
        finally:
            connection.close()

    def send_slices(self, slices: Iterator[bytes]) -> None:
        """Sends bytes as they come, in chunks. NotGiven if there are none at all; what ends them later ends the connection, so that whoever asked has
        not all of them, and sees that."""
        part = next(slices)
        self.begin(HTTPStatus.OK, {"Content-Type": "application/octet-stream", "Transfer-Encoding": "chunked"})
        if self.command == "HEAD":
            return
        try:
            for it in chain([part], slices):
                if it:
                    self.wfile.write(b"%x\r\n%b\r\n" % (len(it), it))
            self.wfile.write(b"0\r\n\r\n")
        except NotGiven:
            self.close_connection = True

    def send(self, status: HTTPStatus, kind: str, body: bytes, policy: str = POLICY, reason: str = "") -> None:
        """Sends an answer, with a reason in the place of the status' own words."""
        self.begin(status, {"Content-Type": kind, "Content-Length": str(len(body)), "Content-Security-Policy": policy}, reason)
        if self.command != "HEAD":
            self.wfile.write(body)

    def begin(self, status: HTTPStatus, heads: dict[str, str], reason: str = "") -> None:
        """Sends what is before the body of an answer."""
        said = "".join(it for it in reason if it.isascii() and it.isprintable())[:MOST_REASON]
        self.send_response(status, said or None)
        fixed = {"Content-Security-Policy": POLICY, "X-Content-Type-Options": "nosniff", "Referrer-Policy": "no-referrer", "Cache-Control": "no-store"}
        for name, value in {**fixed, "Cross-Origin-Resource-Policy": "same-origin", **heads}.items():
            self.send_header(name, value)
        self.end_headers()

    def log_message(self, format: str, *args: object) -> None:  # pylint: disable=redefined-builtin
        """Nothing is logged."""

    def log_error(self, format: str, *args: object) -> None:  # pylint: disable=redefined-builtin
        """Nor is what a visitor asked wrongly."""


class Server(ThreadingHTTPServer):
    """Serves each visitor by a thread."""

    daemon_threads = True

    def handle_error(self, request: object, client_address: object) -> None:
        """A visitor who is gone is no fault; others are reported as they are."""
        if not isinstance(sys.exc_info()[1], ConnectionError):
            super().handle_error(request, client_address)  # type: ignore[arg-type]


def style_sheet() -> bytes:
    """The style sheet of the pages."""
    return resources.files(__package__).joinpath("page.css").read_bytes()


def is_loopback(address: str) -> bool:
    """Whether an address is this machine's own."""
    try:
        return address == "localhost" or ipaddress.ip_address(address).is_loopback
    except ValueError:
        return False


def server_for(database: str, address: str, port: int, page: PackPage | None = None) -> Server:
    """A server of a catalogue, and of its packs if there is the page that shows them."""
    open_to_read(database).close()
    handler = type("CatalogueHandler", (Handler,), {"database": database, "pack_page": page})
    try:
        server = Server((address, port), handler)
    except (OSError, OverflowError) as fault:
        raise BadAddress(f"{address}:{port} can't be served at: {fault}") from fault
    own = server.server_address[1]
    if is_loopback(address):
        handler.hosts = frozenset({f"{name}:{own}" for name in ("localhost", "127.0.0.1", address)})  # type: ignore[attr-defined]
    return server


def serve(database: str, address: str, port: int, page: PackPage | None) -> int:
    """Serves a catalogue until it is ended."""
    server = server_for(database, address, port, page)
    print(f"http://{quote(address)}:{server.server_address[1]}/ until it is ended", flush=True)
    try:
        server.serve_forever()
    except KeyboardInterrupt:
        pass
    finally:
        server.server_close()
    return 0
