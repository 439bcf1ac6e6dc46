"""Checks of a record's fields: bytes and their meaning light up each other, and the bytes stay what dasd prints."""

from browser import Browser, Checks, Keys
from native import Native
from page_volume import example

LIT = "[...document.querySelectorAll('#bytes i.lit')].map(it => it.textContent)"
FIELD = "document.querySelector('.fields .lit')?.textContent ?? ''"


def record(browser: Browser, track: int, place: int) -> None:
    """Chooses a record of a track."""
    browser.ask("(page.show('volume'), page.view.pick(arguments[0]))", track)
    browser.until(f"document.querySelectorAll('#records tr[data-place]').length > {place}", 20)
    browser.click(f'#records tr[data-place="{place}"] button')
    browser.until("document.querySelectorAll('.fields button').length > 0", 20)


def check_fields(browser: Browser, native: Native, checks: Checks) -> None:
    """The label, a block of the table of contents, a directory block."""
    example(browser)
    record(browser, 0, 3)
    shown = browser.text("#bytes pre").rstrip("\n")
    checks.same("a record's bytes are those that dasd prints", shown, native.text("dump", "example.ckd", "0", "0", "3").rstrip("\n"))
    browser.ask("[...document.querySelectorAll('.fields button')].find(it => it.textContent.startsWith('Volume serial')).focus()")
    checks.same("a field lights up its bytes and their characters", browser.ask(LIT), ["E2 C9 E7 F0 F0 F1", "SIX001"])
    browser.press(Keys.TAB)
    checks.that("so it goes by keys", browser.ask(FIELD).startswith("Security"), browser.ask(FIELD))
    browser.ask("[...document.querySelectorAll('#bytes i')].find(it => it.textContent === '00 00 00 01 01').click()")
    checks.same("a byte lights up its field", browser.ask(FIELD), "Table of contents atcylinder 0, head 1, record 1")
    record(browser, 1, 3)
    names = browser.ask("[...document.querySelectorAll('.fields button')].map(it => [...it.children].map(part => part.textContent))")
    checks.that(
        "a data set's block has its name and its extents",
        ["Data set name", "SYS1.PROCLIB"] in names and any(it[0] == "First extent" and it[1].startswith("type 01") for it in names),
        names,
    )
    record(browser, 20, 1)
    members = browser.ask("[...document.querySelectorAll('.fields b')].filter(it => it.textContent === 'Member').length")
    checks.that("and a directory block its members", members > 3, members)
