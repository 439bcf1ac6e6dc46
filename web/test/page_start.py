"""Checks of the first minute: the program that runs by itself, words before hexadecimal, answers as characters, and what the page says of itself."""

import pathlib

from browser import Browser, Checks
from native import Native
from page_deck import run

TOP = pathlib.Path(__file__).resolve().parent.parent.parent
SEEN = """({ told: document.getElementById('tour-told').textContent, card: [...document.querySelectorAll('#cards li')].findIndex(it =>
  it.classList.contains('now')), lit: document.querySelector('#disc .unequal, #disc .equal')?.getAttribute('class') ?? '' })"""

# Where the arm is, and whether it moves, each time that it is drawn while the program begins again.
SWAY = """{
  const seen = [], { hooks } = page.tour, { arm } = hooks;
  hooks.arm = (cylinder, moves) => {
    seen.push([cylinder, moves]);
    arm(cylinder, moves);
  };
  await page.tour.start();
  while (seen.at(-1)?.[1] !== false) await new Promise(done => setTimeout(done, 20));
  hooks.arm = arm;
  return seen;
}"""


def check_start(browser: Browser, native: Native, checks: Checks) -> None:
    """A page that nobody has touched: the example is there, and its first program runs, word by word, as the program's trace has it."""
    browser.ask("localStorage.clear()")
    browser.open()
    checks.that("without a pack the example is there", browser.text("#name") == "example.ckd" and browser.ask("page.tab") == "first")
    there = browser.until("page.view.picture.arms[0]?.cylinder === 95 && !page.view.picture.arms[0].moves")
    checks.that("the arm arrives by itself", there, browser.ask("page.view.picture.arms"))
    seen = browser.wait_for(SWAY)
    checks.that("and moves before it does", seen[0][1] and seen[-1] == [95, False], seen)
    browser.click("#tour-actions button")
    steps: list[dict[str, object]] = []
    for at in range(browser.ask("page.tour.steps.length")):
        browser.wait_for("{ await page.tour.hold(%d) }" % at)
        steps.append(browser.ask(SEEN))
    checks.same("its words light up in their order, the search until it finds", [it["card"] for it in steps], [0, 1, 2, 1, 2, 1, 2, 1, 3])
    lit = [str(it["lit"]).removeprefix("record ") for it in steps]
    checks.same("with the record that is under the head", lit, ["", *["unequal", ""] * 3, "equal", "equal"])
    deck = native.run("assemble", deck=browser.ask("page.deck.editor.text")).stdout.decode()
    shown = [it.split()[2] for it in native.answers(deck, "90=example.ckd") if it.startswith("SHOW")]
    cells = "".join(browser.texts("#fetched small"))[:128]
    checks.same("and main storage has what dasd reads", cells, "".join(shown))
    checks.same("as characters too", browser.text("#tour-text"), bytes.fromhex("".join(shown)).decode("cp037").strip())
    check_pause(browser, checks)
    check_words_first(browser, checks)


def check_pause(browser: Browser, checks: Checks) -> None:
    """What moves can be stopped, and stepped."""
    browser.click("#tour-actions button:nth-child(2)")
    browser.until("page.tour.at === page.tour.steps.length - 2", 20)
    stays = not browser.until("page.tour.at !== page.tour.steps.length - 2", 3)
    checks.that("it is paused, and stepped back in", stays and browser.text("#tour-told").startswith("Record 3 is under the head"))
    browser.click("#tour-actions button")
    checks.that("and goes on", browser.until("page.tour.at === page.tour.steps.length - 1", 20))


def check_words_first(browser: Browser, checks: Checks) -> None:
    """The deck that stands there is in words; what it shows of storage stands beside it in characters, and nothing is cut off."""
    browser.ask("page.show('deck')")
    checks.same("the deck is in words to begin with", browser.ask("page.deck.editor.language"), "words")
    run(browser)
    checks.that("which run", browser.until("page.deck.played?.events.length === 7", 20), browser.text("#trace"))
    rows = browser.ask("[...document.querySelectorAll('#events .shown')].map(it => [...it.children].map(part => part.textContent))")
    wanted = [["F0F0F0F0 F2F440C9 D9E6C9D5 40404040", "000024 IRWIN    "], ["404040F0 F0F0F3F7 F5F04BF0 F040C4C5", "   0003750.00 DE"]]
    checks.same("its answers have EBCDIC beside hexadecimal", rows[:2], wanted)
    for width in [1440, 390]:
        size = {"width": width, "height": 900, "deviceScaleFactor": 1, "mobile": False}
        browser.driver.execute_cdp_cmd("Emulation.setDeviceMetricsOverride", size)
        cut = browser.ask(
            "[...document.querySelectorAll('#events .said, #answer')].filter(it => it.checkVisibility() && it.scrollWidth > it.clientWidth + 1"
            " && getComputedStyle(it).display !== 'inline').map(it => it.textContent)"
        )
        checks.that(f"and are not cut off at a width of {width}", not cut, cut)
    browser.driver.execute_cdp_cmd("Emulation.clearDeviceMetricsOverride", {})


def check_about(browser: Browser, checks: Checks) -> None:
    """What the page says of itself."""
    browser.click("#about-page")
    browser.until("document.getElementById('origin').open", 10)
    said, version = browser.text("#origin"), (TOP / "VERSION").read_text().strip()
    checks.that("About has the version and the commit", f"Sixambra {version}" in said and "commit " in said, said[:200])
    notices = [(TOP / name).read_text() for name in ["LICENSE", "THIRD_PARTY"]]
    checks.that("and the licence of each part, whole", all(it in said for it in notices))
    links = browser.ask("[...document.querySelectorAll('#origin a')].map(it => it.href)")
    checks.that("and a link to where it is at home", len(links) >= 1, links)
    browser.click("#origin button")
