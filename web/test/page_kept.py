"""Checks that nothing is lost: packs that a deck changed, texts, drafts, packed files, and labels that would hold the page up."""

import gzip
import pathlib
import time

from browser import Browser, Checks
from native import Native
from page_deck import WRITING, add, pick, run, write
from page_volume import example, fetched

MINE = "* My own remark\nSIO 190\nRUN\n"
LEAVING = "(e => (dispatchEvent(e), e.defaultPrevented))(new Event('beforeunload', { cancelable: true }))"
EXTENT_COUNT, FIRST_EXTENT, EXTENT = 15, 61, 10


def mark(browser: Browser) -> tuple[bool, bool, bool]:
    """Whether leaving is asked about, Save is marked, and the window's title is."""
    return (
        browser.ask(LEAVING),
        browser.ask("document.getElementById('save').classList.contains('unsaved')"),
        browser.ask("document.title.startsWith('• ')"),
    )


def typed(browser: Browser, text: str) -> None:
    """Writes a deck as a visitor does."""
    browser.ask("(page.show('deck'), page.deck.write(''))")
    browser.find("#text").send_keys(text)


def check_packs(browser: Browser, native: Native, checks: Checks, downloads: pathlib.Path) -> None:
    """A pack that a deck changed is not lost: by leaving, by opening another one, or by taking its drive off."""
    example(browser)
    checks.same("an unchanged pack holds nobody up", mark(browser), (False, False, False))
    write(browser, WRITING)
    run(browser)
    browser.until("page.view.changed.size > 0", 30)
    checks.same("one that a deck changed asks before the page is left, and is marked", mark(browser), (True, True, True))
    (native.folder / "small.ckd").unlink(missing_ok=True)
    native.run("format", "small.ckd", "--model", "2311", "--cylinders", "3")
    browser.take(native.folder / "small.ckd")
    browser.until("document.getElementById('name').textContent === 'small.ckd'")
    checks.same("opened over it, another pack has no mark, and leaving asks still", mark(browser), (True, False, False))
    browser.click("#undo")
    browser.until("document.getElementById('name').textContent === 'example.ckd'")
    checks.that(
        "Undo brings it back as the deck left it, with its mark",
        browser.until("page.view.volume.tracks[4059].records.length === 2", 20) and mark(browser) == (True, True, True),
        mark(browser),
    )
    check_drive_off(browser, checks)
    browser.click("#save")
    fetched(downloads / "example.ckd")
    browser.until("!document.getElementById('save').classList.contains('unsaved')", 20)
    checks.same("saved, it has no mark and holds nobody up", mark(browser), (False, False, False))


def check_drive_off(browser: Browser, checks: Checks) -> None:
    """A drive that is taken off comes back."""
    browser.ask("page.show('deck')")
    add(browser, "191", "2311 5")
    browser.until("page.drives.all.length === 2")
    browser.click("#drives .off")
    off = browser.until("page.drives.all.length === 1", 10) and browser.ask(LEAVING)
    browser.click("#undo")
    back = browser.until("page.drives.all.length === 2 && page.drives.all[0].volume.name === 'example.ckd'", 20)
    checks.that("a drive that is taken off comes back by Undo", off and back, (off, back))


def check_texts(browser: Browser, checks: Checks) -> None:
    """A text is not lost: by picking another one, nor with the page."""
    browser.ask("localStorage.clear()")
    example(browser)
    typed(browser, MINE)
    checks.same("a text is kept as it is typed, and the page says so", browser.text("#draft"), "Kept in this browser")
    pick(browser, 1)
    checks.that("another one is picked", browser.ask("page.deck.editor.text") != MINE)
    browser.click("#undo")
    checks.that("Undo brings mine back", browser.until(f"page.deck.editor.text === {MINE!r}", 20), browser.ask("page.deck.editor.text"))
    browser.open()
    checks.that(
        "and it is there when the page is opened again",
        browser.ask("page.deck.editor.text") == MINE and browser.text("#draft").startswith("Your draft of "),
        browser.text("#draft"),
    )
    pick(browser, 1)
    browser.click("#pick")
    checks.same("mine is among those to be picked", browser.texts("#picker .draft .choice")[0][: len("My own remark")], "My own remark")
    browser.click("#picker .draft .choice")
    checks.that("and picked, it stands there", browser.until(f"page.deck.editor.text === {MINE!r}", 20))
    browser.ask("(Storage.prototype.setItem = () => { throw new Error('full'); }, 0)")
    typed(browser, "SIO 191")
    checks.that(
        "where the browser stores nothing, the page says so, and leaving it asks",
        browser.text("#draft").startswith("Not kept") and browser.ask(LEAVING),
        browser.text("#draft"),
    )
    browser.ask("localStorage.clear()")
    browser.open()


def check_packed(browser: Browser, native: Native, checks: Checks) -> None:
    """Files that are gzips, right and wrong ones."""
    whole = (native.folder / "example.ckd").read_bytes()
    packed = gzip.compress(whole, 1)
    example(browser)
    browser.ask("(page.drives.shown.volume.name = '', document.getElementById('name').textContent = '')")
    (native.folder / "packed.ckd.gz").write_bytes(packed)
    browser.take(native.folder / "packed.ckd.gz")
    checks.that("a gzip is opened", browser.until("document.getElementById('name').textContent === 'packed.ckd'"), browser.text("#notice"))
    for name, data, words in [
        ("cut.ckd.gz", packed[:-4000], "its gzip is damaged"),
        ("odd.ckd.gz", packed[:2000] + b"\xff" * 9 + packed[2009:], "its gzip is damaged"),
        ("bomb.ckd.gz", gzip.compress(bytes(600_000_000), 6), "unpacked it has more than 536,870,912 bytes"),
    ]:
        (native.folder / name).write_bytes(data)
        browser.ask("page.tell('')")
        browser.take(native.folder / name)
        browser.until("!document.getElementById('notice').hidden", 60)
        checks.that(f"{name} is refused: {words}", words in browser.text("#notice-text"), browser.text("#notice-text"))
    checks.same("and what was open stays", browser.text("#name"), "packed.ckd")


def check_slices(browser: Browser, native: Native, checks: Checks) -> None:
    """A large pack is read in slices, is whole once a deck changed it, and is missed when its file changes."""
    path = native.folder / "large.ckd"
    native.run("format", "large.ckd", "--model", "2314", "--cylinders", "600")
    browser.take(path)
    opened = browser.until("document.getElementById('name').textContent === 'large.ckd'")
    number = browser.ask("page.drives.shown.volume.number")
    held = browser.wait_for("{ return page.engine.ask('weigh', [%d]) }" % number)
    checks.that("of a pack of 92 MB at most 8 MiB are in memory", opened and held <= 8 << 20, held)
    write(browser, WRITING)
    run(browser)
    browser.until("page.view.changed.size === 1", 60)
    path.write_bytes(path.read_bytes()[:-1] + b"\1")
    checks.that(
        "one that a deck changed does not depend on its file",
        "HELLO FROM A PAG" in browser.wait_for("{ return (await page.engine.ask('dump', page.drives.shown.volume.number, 202, 19)).text }"),
    )
    browser.click("#undo")
    checks.that(
        "one whose file has changed since is missed, and that is said",
        browser.until("document.getElementById('notice-text').textContent.includes(\"large.ckd can't be read any more\")", 30),
        browser.text("#notice-text"),
    )
    browser.ask("page.tell('')")
    path.unlink()


def check_extents(browser: Browser, native: Native, checks: Checks) -> None:
    """A label whose extents have 65,536 cylinders each."""
    data = bytearray((native.folder / "example.ckd").read_bytes())
    at = data.index("PAYROLL.TRANS".ljust(44).encode("cp037")) + 44
    data[at + EXTENT_COUNT] = 3
    for number in range(3):
        data[at + FIRST_EXTENT + number * EXTENT + 2 : at + FIRST_EXTENT + (number + 1) * EXTENT] = bytes(4) + b"\xff" * 4
    (native.folder / "extents.ckd").write_bytes(data)
    browser.take(native.folder / "extents.ckd")
    browser.until("document.getElementById('name').textContent === 'extents.ckd'")
    browser.ask("page.show('volume')")
    start = time.monotonic()
    browser.ask("[...document.querySelectorAll('.set-name button.plain')].find(it => it.textContent === 'PAYROLL.TRANS').click()")
    lit = browser.until("page.view.picture.lit?.size === 4060", 20)
    taken = time.monotonic() - start
    checks.that("a label with hostile extents lights up the volume's own tracks, at once", lit and taken < 2, taken)
