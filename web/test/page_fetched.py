"""Checks of packs that no visitor picked: a file of the page's own server, by the page's address, and the pack inside a page."""

import gzip
import hashlib
import pathlib
import subprocess
import sys
import time
from urllib.parse import quote

from browser import Browser, Checks
from native import Native
from page_volume import example
from server import PAUSE, PIECE, Server

WEB = pathlib.Path(__file__).resolve().parent.parent
# The SHA-256 of the pack that is shown, as it would be saved.
SUM = """{
  const [[, bytes]] = await page.engine.ask('files', page.drives.shown.volume.number);
  const sum = await crypto.subtle.digest('SHA-256', await new Response(new Blob([bytes])).arrayBuffer());
  return [...new Uint8Array(sum)].map(it => it.toString(16).padStart(2, '0')).join('');
}"""
NAMED = "a \u00e4#1,@b.ckd"


def seen(browser: Browser) -> list[str]:
    """The pack that is shown, and what the page tells."""
    return [browser.text("#name"), browser.text("#notice-text")]


def check_fetched(browser: Browser, native: Native, checks: Checks) -> None:
    """Packs by address, over a server; and those that can't be had."""
    whole = (native.folder / "example.ckd").read_bytes()
    (native.folder / "fetched.ckd").unlink(missing_ok=True)
    native.run("format", "fetched.ckd", "--model", "2311", "--cylinders", "4")
    small = (native.folder / "fetched.ckd").read_bytes()
    other = Server({"/other.ckd": small})
    page = browser.page.read_bytes()
    files: dict[str, bytes | str | int] = {
        "/try/index.html": page,
        "/packs/whole.ckd.gz": gzip.compress(whole, 1),
        f"/try/{NAMED}": small,
        "/moved.ckd": f"{other.url}/other.ckd",
        "/round.ckd": "/packs/whole.ckd.gz",
        "/refused.ckd": 403,
        "/words.ckd": b"hello" * 100,
        "/cut.ckd": small,
        "/cut.ckd.gz": gzip.compress(whole, 1),
        "/huge.ckd": small,
        "/slow.ckd": whole[: 12 * PIECE],
    }
    server = Server(files)
    try:
        check_own(browser, native, checks, server)
        check_refused(browser, checks, server, other)
        check_progress(browser, checks, server)
    finally:
        server.close()
        other.close()
    browser.severe()
    browser.open()


def check_own(browser: Browser, native: Native, checks: Checks, server: Server) -> None:
    """Packs of the page's own server."""
    browser.go(f"{server.url}/try/index.html#track=1.1")
    checks.same("an address without a pack's asks the server for the page alone", server.asked, ["/try/index.html"])
    browser.go(f"{server.url}/try/index.html#pack=../packs/whole.ckd.gz&track=72.3")
    checks.same("a gzip beside the page is opened by its address", seen(browser), ["whole.ckd", ""])
    checks.same("at the track that is named", browser.text("#track-title"), "Cylinder 72, head 3")
    checks.same("with the bytes that the file has", browser.wait_for(SUM), hashlib.sha256((native.folder / "example.ckd").read_bytes()).hexdigest())
    address = f"#pack=./{quote(NAMED, safe='')}@191"
    browser.ask("(location.hash = arguments[0], 0)", address)
    opened = browser.until(f"document.getElementById('name').textContent === '{NAMED}'", 20)
    checks.that("a name with any character is found, at the drive that is named", opened and browser.ask("page.drives.shown.address") == 0x191, seen(browser))
    checks.same("and has that address again", browser.wait_for("{ page.show('first'); return page.places.address() }"), address)
    asked = len(server.asked)
    browser.ask("(location.hash = arguments[0], 0)", address + "&track=2.0")
    browser.until("document.getElementById('track-title').textContent === 'Cylinder 2, head 0'", 20)
    checks.same("another track of it asks for nothing", server.asked[asked:], [])
    browser.click("#undo")
    checks.that("Undo brings back the pack before it", browser.until("document.getElementById('name').textContent === 'whole.ckd'", 20))


def check_refused(browser: Browser, checks: Checks, server: Server, other: Server) -> None:
    """What the page does not open: each is named, and what was open stays."""
    before, asked = browser.text("#name"), len(server.asked)
    host = other.url.partition(":")[2]
    for address in [f"{other.url}/other.ckd", f"{host}/other.ckd", f"/%5C{host[2:]}/other.ckd", f"/%09{host}/other.ckd", "data:x", f"{server.url}/words.ckd"]:
        refused(browser, checks, address, "an address names a file of this page's own server")
    checks.same("none of them was asked for", [server.asked[asked:], other.asked], [[], []])
    for address, words in {
        "../moved.ckd": "the server names another place",
        "/round.ckd": "the server names another place",
        "../none.ckd": "the server answers 404",
        "../refused.ckd": "the server answers 403",
        "/words.ckd": "words.ckd: wrong length",
        "/cut.ckd": "the connection broke off",
        "/cut.ckd.gz": "the connection broke off",
        "/huge.ckd": "600,000,000 bytes. This page takes images of up to 536,870,912 bytes",
    }.items():
        refused(browser, checks, address, words)
    checks.same("no redirect was followed", [[it for it in server.asked[asked:] if "whole" in it], other.asked], [[], []])
    checks.same("and what was open stays", browser.text("#name"), before)
    answers = browser.wait_for("{ return fetch(%r).then(() => 'got', () => 'refused') }" % f"{other.url}/other.ckd")
    checks.same("the page's policy refuses another server too", [answers, other.asked], ["refused", []])
    browser.go(f"{server.url}/try/index.html#pack=../none.ckd")
    why = "../none.ckd could not be fetched: the server answers 404 Not Found"
    checks.same("a page that begins so has the example, and says why", seen(browser), ["example.ckd", why])


def refused(browser: Browser, checks: Checks, address: str, words: str) -> None:
    """An address that the page must refuse with these words."""
    browser.ask("(page.tell(''), location.hash = arguments[0], 0)", f"#pack={address}")
    told = browser.until("!document.getElementById('notice').hidden && document.getElementById('notice-part').hidden", 20)
    checks.that(
        f"pack={address.replace('127.0.0.1', 'other')} is refused: {words}", told and words in browser.text("#notice-text"), browser.text("#notice-text")
    )


def check_progress(browser: Browser, checks: Checks, server: Server) -> None:
    """What takes long is shown, and ends when another one is wanted."""
    browser.ask("(location.hash = '#pack=/slow.ckd', 0)")
    shown = browser.until(
        "document.getElementById('notice-part').value > 0 && document.getElementById('notice-part').value < document.getElementById('notice-part').max", 20
    )
    checks.that("a slow answer has its progress", shown and "Fetching slow.ckd" in browser.text("#notice-text"), seen(browser))
    browser.click("#notice-close")
    time.sleep(12 * PAUSE + 1)
    checks.same("closing the message ends it, and what was open stays", seen(browser), ["example.ckd", ""])
    browser.ask("(location.hash = '#pack=/slow.ckd&track=0.0', 0)")
    browser.until("document.getElementById('notice-part').value > 0", 20)
    browser.ask("(location.hash = '#pack=/packs/whole.ckd.gz', 0)")
    browser.until("document.getElementById('name').textContent === 'whole.ckd'", 30)
    time.sleep(12 * PAUSE + 1)
    checks.same("and so does another address, which is the one that counts", seen(browser), ["whole.ckd", ""])
    checks.that("the server was asked each time", server.asked.count("/slow.ckd") == 2, server.asked)


def check_given(browser: Browser, native: Native, checks: Checks) -> None:
    """A page with a pack in it, from a disk; and a page from a disk that is to fetch one."""
    example(browser)
    browser.ask("(location.hash = '#pack=./example.ckd', 0)")
    told = browser.until("document.getElementById('notice-text').textContent.includes('opened from a disk')", 20)
    checks.that("a page from a disk says that it can't fetch, and what to do", told and "drop the file here" in browser.text("#notice-text"), seen(browser))
    name, made = "<b>\"A&'B\u00e4.ckd", native.folder / "given.html"
    script = [sys.executable, str(WEB / "given_pack.py"), str(browser.page), str(made), "--pack", str(native.folder / "example.ckd")]
    subprocess.run([*script, "--name", name], check=True, stdout=subprocess.DEVNULL)
    page, browser.page = browser.page, made
    try:
        browser.open()
        checks.same("a page with a pack in it begins with it", [*seen(browser), browser.ask("page.tab")], [name, "", "volume"])
        checks.same("whole", browser.ask("page.view.volume.bytes"), (native.folder / "example.ckd").stat().st_size)
        browser.go(f"{made.as_uri()}#track=72.3")
        checks.same("at a track that is named", [browser.text("#name"), browser.text("#track-title")], [name, "Cylinder 72, head 3"])
        checks.same("which has an address", browser.wait_for("{ return page.places.address() }"), "#pack=given&track=72.3")
        browser.go(f"{made.as_uri()}#pack=example")
        checks.same("and an address that names another pack leads there", browser.text("#name"), "example.ckd")
        before, place, after = made.read_bytes().partition(b' data-name="')
        made.write_bytes(before + place + after.replace(b'">H4sI', b'">H4!I', 1))
        browser.open()
        checks.that(
            "one that is damaged is told, and the page begins as ever", seen(browser)[0] == "example.ckd" and "is damaged" in seen(browser)[1], seen(browser)
        )
    finally:
        browser.page = page
        browser.open()
    browser.ask("(location.hash = '#pack=given', 0)")
    checks.that("a page without one says so", browser.until("document.getElementById('notice-text').textContent === 'There is no pack inside this page.'", 20))
    browser.ask("page.tell('')")
