"""Checks of manners: keys alone, light and dark, narrow and wide, names for a screen reader, no network, and files that are hostile."""

import pathlib
import random

from browser import Browser, Checks, Keys
from native import Native
from page_deck import WRITING, run, stand, write
from page_volume import example

CONTRASTS = """(() => {
  const on = document.createElement('canvas').getContext('2d', { willReadFrequently: true });
  const read = text => {
    on.fillStyle = text;
    on.fillRect(0, 0, 1, 1);
    return [...on.getImageData(0, 0, 1, 1).data].slice(0, 3);
  };
  const linear = v => v <= .03928 ? v / 12.92 : ((v + .055) / 1.055) ** 2.4;
  const light = c => c.map(v => linear(v / 255)).reduce((s, v, i) => s + v * [.2126, .7152, .0722][i], 0);
  const below = it => {
    const c = it ? getComputedStyle(it).backgroundColor : 'white';
    return /, 0\\)$|transparent/.test(c) ? below(it.parentElement) : read(c);
  };
  const poor = [];
  for (const it of document.querySelectorAll('h1, h2, h3, p, span, td, th, b, label, button:not(:disabled), a, pre, dt, dd, small.on')) {
    const own = [...it.childNodes].some(n => n.nodeType === 3 && n.textContent.trim());
    if (!own || !it.checkVisibility() || it.closest('.hidden, .skip, [aria-hidden=true]')) continue;
    const a = light(read(getComputedStyle(it).color)), b = light(below(it));
    const ratio = (Math.max(a, b) + .05) / (Math.min(a, b) + .05);
    if (ratio < 4.5) poor.push(`${it.tagName} ${it.id} ${it.className} ${it.textContent.slice(0, 20)} ${ratio.toFixed(2)}`);
  }
  return poor;
})()"""

TABS = ["first", "volume", "deck", "compare"]
NAMELESS = """[...document.querySelectorAll('button, input, select, textarea, table, [role=application], [role=listbox], [role=tab]')]
  .filter(it => it.checkVisibility() && !it.labels?.length && (it.tagName === 'TABLE' || !it.textContent.trim()))
  .filter(it => !it.getAttribute('aria-label') && !it.getAttribute('aria-labelledby'))
  .map(it => it.outerHTML.slice(0, 120))"""

# What is pressed and is smaller than 24 pixels to a side; of a tick its label counts.
SMALL = """[...document.querySelectorAll('button, select, input, summary, a, [role=button], [role=tab]')]
  .filter(it => it.checkVisibility() && !it.closest('.skip, .hidden'))
  .map(it => [it.labels?.[0] ?? it, (it.labels?.[0] ?? it).getBoundingClientRect()])
  .filter(([it, box]) => Math.min(box.width, box.height) < 23.9)
  .map(([it, box]) => `${it.outerHTML.slice(0, 90)} ${box.width} ${box.height}`)"""

NETWORK = """{
  let refused = 0;
  addEventListener('securitypolicyviolation', () => refused++);
  const image = new Promise(done => {
    const it = Object.assign(new Image(), { onload: () => done('got'), onerror: () => done('refused') });
    it.src = 'https://example.invalid/x.png';
  });
  const asked = [fetch('https://example.invalid/').then(() => 'got', () => 'refused'), image];
  const answers = await Promise.all(asked);
  try { new WebSocket('wss://example.invalid/'); } catch { refused++; }
  await new Promise(done => setTimeout(done, 300));
  return [...answers, refused];
}"""


def check_keys(browser: Browser, native: Native, checks: Checks) -> None:
    """From an empty page to a step of a deck, by keys alone."""
    browser.open()
    for _ in range(30):
        browser.press(Keys.TAB)
        if browser.ask("document.activeElement.id") == "empty-example":
            break
    browser.press(Keys.ENTER)
    checks.that(
        "the example is looked at by keys",
        browser.until("!document.getElementById('volume').hidden && document.querySelectorAll('#contents tbody tr').length > 3"),
    )
    checks.same("and the picture has the focus then", browser.ask("document.activeElement.id"), "pointer")
    check_keys_of_picture(browser, checks)
    check_keys_of_deck(browser, native, checks)


def check_keys_of_picture(browser: Browser, checks: Checks) -> None:
    """From the example's picture, where the arm is at cylinder 95, to its findings."""
    browser.press(Keys.ARROW_RIGHT, Keys.ARROW_DOWN, Keys.PAGE_DOWN)
    checks.that(
        "arrows lead through the picture, and tell each track",
        browser.until("document.getElementById('told').textContent.startsWith('Cylinder 106, head 1')", 20),
        browser.text("#told"),
    )
    browser.press("n")
    checks.that(
        "N leads to the next finding",
        browser.until("document.getElementById('told').textContent.startsWith('Cylinder 171, head 11')", 20),
        browser.text("#told"),
    )


def check_keys_of_deck(browser: Browser, native: Native, checks: Checks) -> None:
    """From the view of a volume to a step of a deck."""
    browser.ask("document.getElementById('tab-volume').focus()")
    browser.press(Keys.ARROW_RIGHT)
    checks.that(
        "arrows lead through the views", browser.ask("document.activeElement.id === 'tab-deck' && !document.getElementById('deck').hidden")
    )
    browser.ask("document.getElementById('as-deck').focus()")
    browser.press(Keys.ENTER)
    browser.until("page.deck.editor.language === 'deck'", 20)
    browser.ask("document.getElementById('text').focus()")
    browser.press(Keys.CONTROL + "a")
    browser.press(
        "SIO 190",
        Keys.ENTER,
        "STORE 48 00000400",
        Keys.ENTER,
        "STORE 400 0400060000000006",
        Keys.ENTER,
        "SIO 190",
        Keys.ENTER,
        "RUN",
        Keys.ENTER,
        Keys.CONTROL + Keys.ENTER,
    )
    ran = browser.until("page.deck.time && page.deck.moment === page.deck.time.end", 30)
    browser.press(Keys.ARROW_LEFT, Keys.ARROW_LEFT)
    checks.that(
        "a deck is written, run and stepped back in",
        ran and browser.until("page.deck.time.placeOf(page.deck.moment).unit === 5 && document.activeElement.id === 'trace'", 20),
        browser.text("#moment"),
    )
    checks.that("and its panel follows", "unit" in browser.text("#moment") and native is not None)


def check_light(browser: Browser, checks: Checks) -> None:
    """Both lights, with enough contrast, by the system's wish and by the button."""
    example(browser)
    browser.ask("[...document.querySelectorAll('.set-name button.plain')][3].click()")
    write(browser, WRITING)
    run(browser)
    browser.ask("page.compare.changes.click()")
    stand(browser, 7, 20)
    for wish in ["light", "dark"]:
        browser.driver.execute_cdp_cmd("Emulation.setEmulatedMedia", {"features": [{"name": "prefers-color-scheme", "value": wish}]})
        browser.ask("delete document.documentElement.dataset.theme")
        paper = browser.colour_of("sheet")
        checks.that(f"the system's wish for {wish} is followed", (max(paper) < 80) == (wish == "dark"), paper)
        for tab in TABS:
            browser.ask("page.show(arguments[0])", tab)
            poor = browser.ask(CONTRASTS)
            checks.that(f"all words of the view {tab} stand out by 4.5 to 1 in the {wish}", not poor, poor)
    browser.ask("page.show('volume')")
    before = browser.colour_at(400, 5)
    browser.click("#theme")
    checks.that(
        "the button turns the light on, and the picture with it",
        max(browser.colour_of("sheet")) > 200 and browser.colour_at(400, 5) != before,
    )
    browser.driver.execute_cdp_cmd("Emulation.setEmulatedMedia", {"features": []})


def check_widths(browser: Browser, checks: Checks) -> None:
    """Narrow and wide: nothing stands out to the side, and the picture has bands."""
    example(browser)
    for width in [360, 768, 1280, 2560]:
        browser.driver.execute_cdp_cmd(
            "Emulation.setDeviceMetricsOverride", {"width": width, "height": 900, "deviceScaleFactor": 1, "mobile": False}
        )
        for tab in TABS:
            browser.ask("page.show(arguments[0])", tab)
            beyond = browser.ask("document.documentElement.scrollWidth - document.documentElement.clientWidth")
            checks.that(f"at a width of {width} the view {tab} has no bar to the side", beyond <= 0, beyond)
        browser.ask("page.show('volume')")
        browser.until(f"Math.abs(page.view.picture.layout.width - {width}) < 60", 10)
        x, y = browser.ask("(p => [p.x + p.w / 2, p.y + p.h / 2])(page.view.picture.placeOf(180 * 20 + 4))")
        browser.point(x, y)
        told = browser.until("document.getElementById('told').textContent.startsWith('Cylinder 180, head 4: SYS1.DUMP')", 10)
        checks.that(
            f"and the pointer finds its track, in {browser.ask('page.view.picture.layout.bands')} bands", told, browser.text("#told")
        )
    browser.driver.execute_cdp_cmd("Emulation.clearDeviceMetricsOverride", {})


def check_names(browser: Browser, checks: Checks) -> None:
    """What a screen reader is given."""
    for tab in TABS:
        browser.ask("page.show(arguments[0])", tab)
        nameless = browser.ask(NAMELESS)
        checks.that(f"in the view {tab} nothing that is pressed or filled in lacks a name, and no table", not nameless, nameless)
        small = browser.ask(SMALL)
        checks.that("and all that is pressed has 24 pixels", not small, small)
    tree = browser.driver.execute_cdp_cmd("Accessibility.getFullAXTree", {})["nodes"]
    roles = {it.get("role", {}).get("value") for it in tree if not it.get("ignored")}
    checks.that(
        "its tree has landmarks, tabs, live words and the picture",
        {"banner", "main", "tablist", "tab", "status", "application"} <= roles,
        roles,
    )
    checks.that("one heading of the first level", browser.ask("document.querySelectorAll('h1').length") == 1)


def check_network(browser: Browser, checks: Checks) -> None:
    """The page's policy lets nothing in or out."""
    answers = browser.wait_for(NETWORK)
    checks.that(
        "no network: a fetch, an image and a socket are refused by the page's policy",
        answers[:2] == ["refused", "refused"] and answers[2] >= 3,
        answers,
    )
    browser.severe()


def check_hostile(browser: Browser, native: Native, checks: Checks) -> None:
    """Files that are no images, cut, changed or too large: a clear word, and the page goes on."""
    example(browser)
    folder, good = native.folder, (native.folder / "small.ckd")
    native.run("format", "small.ckd", "--model", "2311", "--cylinders", "3")
    whole = good.read_bytes()
    cases = {
        "words.ckd": b"hello" * 100,
        "nothing.ckd": b"",
        "header.ckd": whole[:300],
        "cut.ckd": whole[:-5000],
        "odd.ckd": whole[:8] + b"\7\0\0\0" + whole[12:],
        "compressed.ckd": b"CKD_C370" + whole[8:],
    }
    for name, data in cases.items():
        (folder / name).write_bytes(data)
        refused(browser, checks, [folder / name], native.run("list", name).stderr.decode().removeprefix("dasd: ").strip())
    with (folder / "huge.ckd").open("wb") as file:
        file.write(whole[:512])
        file.truncate(800_000_000)
    refused(browser, checks, [folder / "huge.ckd"], "800,000,000 bytes")
    refused(browser, checks, [folder / name for name in [*cases, "huge.ckd", "small.ckd", "example.ckd"]], "9 files")
    checks.that(
        "the pack that was there is there still",
        browser.text("#name") == "example.ckd" and browser.until("document.querySelectorAll('#contents tbody tr').length > 3", 5),
    )
    check_changed(browser, native, checks, whole)
    browser.take(good)
    checks.that("and a good image is opened behind them", browser.until("document.getElementById('name').textContent === 'small.ckd'", 30))


def refused(browser: Browser, checks: Checks, files: list[pathlib.Path], words: str) -> None:
    """Files that the page must refuse, with these words."""
    browser.ask("page.tell('')")
    browser.take(*files)
    told = browser.until("!document.getElementById('notice').hidden", 60)
    checks.that(
        f"{files[0].name} of {len(files)} is refused: {words}",
        told and words and words in browser.text("#notice-text"),
        browser.text("#notice-text"),
    )


def check_changed(browser: Browser, native: Native, checks: Checks, whole: bytes) -> None:
    """Images with bytes changed by chance: each is shown as the program lists it, or refused in its words."""
    chance, wrong = random.Random(5), []
    for number in range(20):
        data = bytearray(whole)
        for _ in range(chance.randrange(1, 30)):
            data[chance.randrange(512 if number % 4 == 0 else len(data))] = chance.randrange(256)
        name = f"changed-{number}.ckd"
        (native.folder / name).write_bytes(data)
        listed = native.run("list", name)
        browser.ask("page.tell('')")
        browser.take(native.folder / name)
        browser.until(f"document.getElementById('name').textContent === '{name}' || !document.getElementById('notice').hidden", 30)
        said = (
            browser.text("#notice-text")
            if listed.returncode
            else str(browser.ask("page.drives.shown.volume.tracks.filter(it => it.unreadable !== null).length"))
        )
        wanted = (
            listed.stderr.decode().removeprefix("dasd: ").strip() if listed.returncode else str(listed.stdout.decode().count("unreadable"))
        )
        wrong += [] if wanted in said else [(name, wanted, said)]
    checks.that("20 images with bytes changed by chance: shown as dasd lists them, or refused in its words", not wrong, wrong)
