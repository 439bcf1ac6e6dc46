#!/usr/bin/env python3
"""Makes the pictures of docs/pictures from the page itself, in both lights: shots.py OUT FOLDER [NAME..]

OUT is the folder with index.html and examples.json. It wants Debian's chromium-driver and python3-selenium."""

import json
import pathlib
import sys
import time

sys.dont_write_bytecode = True

from browser import Browser
from page_deck import pick, run, stand, write
from page_volume import example, place

MOST = 300_000
SIZE = (1440, 980)
PHONE = {"width": 390, "height": 844, "deviceScaleFactor": 1, "mobile": True}
# How long the disc turns, in seconds.
TURN = 1.2
UPDATE = """* The payroll's first record: seek, search for record 1, write its data.
STORE 48 00000400
STORE 400 0700050040000006 3100050240000005
STORE 410 0800040800000000 0500060000000960
STORE 500 00000024000001
STORE 600 F9F9F9F9F9F940E9C5D9D6
SIO 190
RUN
INT
"""


def set_press(browser: Browser, name: str) -> None:
    """Presses a data set's name."""
    browser.ask("[...document.querySelectorAll('.set-name button.plain')].find(it => it.textContent === arguments[0]).click()", name)
    browser.until(f"document.getElementById('bytes-title').textContent === {name!r}", 20)


def volume(browser: Browser) -> None:
    """The volume as a whole, with a record of a track."""
    example(browser)
    browser.press_at(*place(browser, 0, 1))
    browser.until("document.getElementById('track-title').textContent === 'Cylinder 0, head 1'")
    browser.click("#records tbody tr:nth-child(5) button")
    browser.until("document.getElementById('bytes-title').textContent.startsWith('Record')")
    browser.point(*place(browser, 72, 3))


def contents(browser: Browser) -> None:
    """A library with its members, and one of them as text."""
    example(browser)
    browser.ask("[...document.querySelectorAll('.turn')].find(it => it.getAttribute('aria-label') === 'Members of SOURCE.ALP').click()")
    browser.until("document.querySelectorAll('#contents .member').length > 5")
    browser.ask("[...document.querySelectorAll('.member button')].find(it => it.textContent === 'PGM004').click()")
    browser.until("document.getElementById('bytes-title').textContent === 'SOURCE.ALP(PGM004)'")


def deck(browser: Browser) -> None:
    """A deck that has written: the track that it changed is framed."""
    example(browser)
    write(browser, UPDATE)
    run(browser)
    browser.until("page.view.changed.size > 0")


def trace(browser: Browser) -> None:
    """A deck that fails, at the moment at which it does."""
    examples = json.loads((browser.page.parent / "examples.json").read_text())["examples"]
    pick(browser, next(at for at, it in enumerate(examples) if it["name"] == "A write without its search"))
    number = browser.ask("page.deck.time.units.findIndex(it => it > 0)")
    stand(browser, number + 1, 0)
    browser.point(700, -30)


def start(browser: Browser) -> None:
    """The first program, when it has read its record."""
    browser.ask("localStorage.clear()")
    browser.open()
    browser.until("page.view.picture.arms[0]?.cylinder === 95")
    browser.click("#tour-actions button")
    for at in range(browser.ask("page.tour.steps.length")):
        browser.wait_for("{ await page.tour.hold(%d) }" % at)
    time.sleep(TURN)


def phone(browser: Browser) -> None:
    """The same on a telephone."""
    browser.driver.execute_cdp_cmd("Emulation.setDeviceMetricsOverride", PHONE)
    start(browser)
    browser.wait_for("{ await page.tour.hold(7) }")
    time.sleep(TURN)


def fields(browser: Browser) -> None:
    """A block of the table of contents, with one of its fields lit."""
    browser.driver.execute_cdp_cmd("Emulation.clearDeviceMetricsOverride", {})
    example(browser)
    browser.press_at(*place(browser, 0, 1))
    browser.until("document.getElementById('track-title').textContent === 'Cylinder 0, head 1'")
    browser.click("#records tbody tr:nth-child(7) button")
    browser.until("document.querySelectorAll('.fields button').length > 20")
    browser.ask("[...document.querySelectorAll('.fields button')].find(it => it.textContent.startsWith('First extent')).click()")


def address(browser: Browser) -> None:
    """A vector by its address, stepped back in."""
    browser.open()
    browser.wait_for("{ await page.places.arrive('#vector=write-data-not-in-the-next-program') }")
    stand(browser, browser.ask("page.deck.time.units.findIndex(it => it > 0)"), 9)


def kept(browser: Browser) -> None:
    """What is kept: a changed pack that is not saved, and decks of one's own."""
    example(browser)
    for text in ["* The same for record 2", "* Formats a track: cylinder 202, head 19"]:
        browser.ask("(page.show('deck'), page.deck.write(''))")
        browser.find("#text").send_keys(text)
    write(browser, UPDATE)
    run(browser)
    browser.until("page.view.changed.size > 0")
    browser.click("#pick")
    browser.until("document.querySelectorAll('#picker .draft').length === 2")


PICTURES = {
    "volume": volume,
    "contents": contents,
    "deck": deck,
    "trace": trace,
    "start": start,
    "phone": phone,
    "fields": fields,
    "address": address,
    "kept": kept,
}


def save(browser: Browser, path: pathlib.Path) -> int:
    """Saves what is seen, and answers how large the file is."""
    browser.driver.save_screenshot(str(path))
    return path.stat().st_size


def main() -> int:
    """Makes all of them."""
    if len(sys.argv) < 3:
        print(__doc__, file=sys.stderr)
        return 2
    out, folder = map(pathlib.Path, sys.argv[1:3])
    folder.mkdir(parents=True, exist_ok=True)
    browser = Browser(out / "index.html", SIZE)
    large = 0
    try:
        for name in sys.argv[3:] or PICTURES:
            PICTURES[name](browser)
            for light in ["light", "dark"]:
                browser.ask(
                    "(document.documentElement.dataset.theme = arguments[0], page.view.redraw(), document.activeElement.blur())", light
                )
                path = folder / (f"{name}.png" if light == "light" else f"{name}-dark.png")
                size = save(browser, path)
                large += size > MOST
                print(f"{path}: {size} bytes")
    finally:
        browser.close()
    return 1 if large else 0


if __name__ == "__main__":
    sys.exit(main())
