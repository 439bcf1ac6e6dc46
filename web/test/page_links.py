"""Checks of addresses: each link of the repository's pages into this page leads where it says; a deck is packed into an address and comes back."""

import pathlib
import re
from typing import Any
from urllib.parse import unquote

from browser import Browser, Checks
from page_deck import run, write

TOP = pathlib.Path(__file__).resolve().parent.parent.parent
LINK = re.compile(r"\]\(\.\./try/(#[^)\s]+)\)")
MINE = "* A deck of mine: \u00e4 \u20ac\nSIO 190\n"
AT_ONCE = 25


def links() -> list[str]:
    """The addresses in all pages."""
    return sorted({it for page in TOP.glob("docs/*.md") for it in LINK.findall(page.read_text(encoding="utf-8"))})


def check_links(browser: Browser, checks: Checks, examples: list[dict[str, Any]]) -> None:
    """All links: the deck that stands there then is the one that the address names, and it has run."""
    browser.open()
    wanted, wrong = {it["name"]: it["deck"] for it in examples}, []
    named = [it for it in links() if it.startswith(("#vector=", "#deck="))]
    for at in range(0, len(named), AT_ONCE):
        some = named[at : at + AT_ONCE]
        seen = browser.wait_for(
            "{ const seen = []; for (const link of %r) { await page.places.arrive(link); seen.push([page.deck.written.example?.name,"
            " page.deck.written.text, page.tab]); } return seen; }" % some
        )
        for link, (name, text, tab) in zip(some, seen):
            its = unquote(link.partition("=")[2])
            wrong += [] if (name, text, tab) == (its, wanted.get(its), "deck") else [(link, name)]
    returns = sum("\r" in wanted[unquote(it.partition("=")[2])] for it in named)
    checks.that(f"{returns} of their decks have carriage returns", returns == 5, returns)
    checks.that(f"{len(named)} links into the page lead to the deck that they name", len(named) >= 575 and not wrong, wrong)


def check_places(browser: Browser, checks: Checks) -> None:
    """Addresses of packs, tracks and texts, and those that lead nowhere."""
    page = browser.page.resolve().as_uri()
    browser.go(f"{page}#pack=example&track=72.3")
    checks.same("an address leads to a track", browser.text("#track-title"), "Cylinder 72, head 3")
    checks.same("which has that address", browser.wait_for("{ return page.places.address() }"), "#pack=example&track=72.3")
    write(browser, MINE)
    address = browser.wait_for("{ return page.places.address() }")
    browser.go(page + address)
    seen = browser.ask("[page.deck.editor.text, page.tab, page.drives.shown.volume.name]")
    checks.same("a deck is packed into an address and comes back, over its pack", seen, [MINE, "deck", "example.ckd"])
    browser.ask("(location.hash = '#vector=no-such', 0)")
    told = browser.until("document.getElementById('notice-text').textContent === 'This page has no vector no-such.'", 20)
    checks.that("one that leads nowhere is told, and the deck stays", told and browser.ask("page.deck.editor.text") == MINE)
    browser.ask("(page.tell(''), location.hash = '#pack=2315.5', 0)")
    told = browser.until("document.getElementById('notice-text').textContent === '#pack=2315.5 names no place of this page.'", 20)
    checks.that("so is one that names nothing that can be", told, browser.text("#notice-text"))
    browser.ask("(page.tell(''), location.hash = '#deck=~dAAAA', 0)")
    told = browser.until("document.getElementById('notice-text').textContent.includes('is damaged, or too long')", 20)
    checks.that("and so is a damaged one", told, browser.text("#notice-text"))
    browser.ask("page.tell('')")


def check_returns(browser: Browser, checks: Checks, examples: list[dict[str, Any]]) -> None:
    """A deck with carriage returns runs as it is, byte for byte, and not as a text field would have it, until the visitor changes it."""
    browser.open()
    for it in [it for it in examples if "\r" in it["deck"]]:
        link = f"#{'vector' if it['kind'] == 'vector' else 'deck'}={it['name']}"
        browser.wait_for("{ await page.places.arrive(%r) }" % link)
        wrong = browser.texts("#events .said.wrong")
        checks.that(f"{it['name']} runs, and nothing differs from what must come", not wrong, wrong)
        checks.same("and has its own address", browser.wait_for("{ return page.places.address() }"), link)
    write(browser, "TCH\r\r\nINT\r\n")
    shown = browser.ask("[page.deck.editor.field.value, page.deck.editor.text]")
    checks.same("a return that ends no line is seen as a sign", shown, ["TCH\u240d\nINT\n", "TCH\r\r\nINT\r\n"])
    browser.until("document.querySelectorAll('.gutter .wrong').length === 1", 20)
    checks.same("and its line is marked as wrong", browser.ask("[...document.querySelectorAll('.gutter span')].map(it => it.className)"), ["wrong", "", ""])
    browser.ask("page.deck.editor.field.setRangeText('', 3, 4)")
    run(browser)
    checks.same("once it is changed, the text is the visitor's", browser.ask("page.deck.ran"), "TCH\nINT\n")
