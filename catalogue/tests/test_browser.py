"""The pages in headless Chromium: what a visitor sees, and that the browser's console tells nothing of them. With a folder as its only word it makes
the pictures of docs/pictures instead: test_browser.py FOLDER"""

from __future__ import annotations

import functools
import importlib
import importlib.util
import os
import shutil
import subprocess
import sys
import threading
import time
import unittest
from collections.abc import Callable
from pathlib import Path
from typing import Any, ClassVar

from archive import catalogue, reading, room, scanned
from make_packs import TOP, pack

from dasd_catalogue.pack_page import PackPage
from dasd_catalogue.report import write_report
from dasd_catalogue.serving import server_for

HAS_BROWSER = bool(importlib.util.find_spec("selenium") and shutil.which("chromium") and shutil.which("chromedriver"))
SIZE = (1240, 860)
PATIENCE = 300.0
LIGHTS = {"light": "", "dark": "-dark"}


#: Ready with a volume.
IS_SHOWN = "document.documentElement.dataset.ready === 'yes' && !document.getElementById('map').hidden && Boolean(page.view.volume)"
#: Of a picture beside the page's own, over the same sheet: how many tracks there are, of how many the colours are apart, and which share of all pixels.
COMPARED = """
const [mine, width, height] = arguments, done = arguments[arguments.length - 1];
const drawn = new Image();
drawn.onload = () => {
  const pen = Object.assign(document.createElement('canvas'), { width, height }).getContext('2d');
  pen.fillStyle = page.view.picture.tracks.colours().sheet;
  pen.fillRect(0, 0, width, height);
  pen.drawImage(document.getElementById('tracks'), 0, 0);
  const theirs = pen.getImageData(0, 0, width, height).data;
  pen.drawImage(drawn, 0, 0);
  const own = pen.getImageData(0, 0, width, height).data, { cylinders, heads } = page.view.volume, apart = [];
  const difference = at => Math.max(...[0, 1, 2].map(it => Math.abs(own[at + it] - theirs[at + it])));
  for (let track = 0; track < cylinders * heads; track++) {
    const { x, y, w, h } = page.view.picture.placeOf(track), at = 4 * (Math.floor(y + h / 2) * width + Math.floor(x + w / 5));
    apart.push(difference(at));
  }
  let far = 0;
  for (let at = 0; at < own.length; at += 4) far += difference(at) > 24;
  done({ tracks: apart.length, far: apart.filter(it => it > 4).length, pixels: far / (own.length / 4), size: [drawn.width, drawn.height] });
};
drawn.src = 'data:image/png;base64,' + mine;
"""


def made_page() -> PackPage | None:
    """The page in the browser, of the modules in compiled/; None where they are not there."""
    path = room() / "page.html"
    done = subprocess.run([str(TOP / "web/make_page"), str(path)], capture_output=True, check=False)
    return PackPage(path) if done.returncode == 0 else None


class Browser:
    """A browser before a catalogue that is served."""

    def __init__(self, database: Path, page: PackPage | None = None) -> None:
        webdriver: Any = importlib.import_module("selenium.webdriver")
        self.server = server_for(str(database), "127.0.0.1", 0, page)
        threading.Thread(target=self.server.serve_forever, daemon=True).start()
        options: Any = webdriver.ChromeOptions()
        plain = ("--headless=new", "--no-sandbox", "--disable-gpu", "--force-device-scale-factor=1", "--hide-scrollbars")
        for word in (*plain, f"--window-size={SIZE[0]},{SIZE[1]}"):
            options.add_argument(word)
        options.set_capability("goog:loggingPrefs", {"browser": "ALL"})
        self.driver: Any = webdriver.Chrome(options=options)

    def close(self) -> None:
        """Ends browser and server."""
        self.driver.quit()
        self.server.shutdown()
        self.server.server_close()

    def open(self, path: str) -> None:
        """Opens a page."""
        self.driver.get(f"http://127.0.0.1:{self.server.server_address[1]}{path}")

    def light(self, name: str) -> None:
        """Shows pages in this light."""
        self.driver.execute_cdp_cmd("Emulation.setEmulatedMedia", {"features": [{"name": "prefers-color-scheme", "value": name}]})

    def until(self, script: str) -> None:
        """Waits until a script's expression holds."""
        end = time.monotonic() + PATIENCE
        while not self.ask(script):
            if time.monotonic() > end:
                raise AssertionError(f"it does not hold: {script}")
            time.sleep(0.1)

    def ask(self, script: str, *words: object) -> Any:
        """What a script's expression comes to, in the page."""
        return self.driver.execute_script("return " + script, *words)

    def press(self, text: str) -> None:
        """Presses the first link with this text."""
        self.ask("[...document.querySelectorAll('a')].find(it => it.textContent === arguments[0]).click()", text)

    def seek(self, text: str) -> None:
        """Types into the field for searches."""
        self.ask("(document.querySelector('input').value = arguments[0], document.querySelector('form').submit())", text)

    def title(self) -> str:
        """What the page is called."""
        return str(self.ask("document.querySelector('h1').textContent"))


@unittest.skipUnless(HAS_BROWSER, "chromium, chromium-driver or python3-selenium is not here")
class InBrowser(unittest.TestCase):
    """A visitor's way through the pages."""

    browser: ClassVar[Browser]

    @classmethod
    def setUpClass(cls) -> None:
        """Starts the browser."""
        cls.browser = Browser(catalogue())
        cls.addClassCleanup(cls.browser.close)

    def test_from_the_packs_to_a_text_and_its_copies(self) -> None:
        """By links, as a visitor goes."""
        browser = self.browser
        browser.open("/")
        self.assertEqual(browser.title(), "Packs")
        name = browser.ask("document.querySelector('tbody a').textContent")
        browser.press(name)
        self.assertEqual(browser.title(), name)
        drawn = browser.ask("[...document.querySelectorAll('svg path')].map(it => it.getBoundingClientRect().width)")
        self.assertTrue(drawn and all(it > 0 for it in drawn), drawn)
        seen = browser.ask("[...document.querySelectorAll('svg path')].map(it => getComputedStyle(it).fill + getComputedStyle(it).opacity)")
        self.assertEqual(len(set(seen)), len(seen))
        browser.press("SYS1.MACLIB")
        browser.press("OPEN")
        self.assertEqual(browser.title(), "SYS1.MACLIB(OPEN)")
        self.assertIn("&LABEL   OPEN", browser.ask("document.querySelector('pre').textContent"))
        browser.press("side by side")
        self.assertEqual(browser.title(), "Side by side")
        self.assertEqual(self.told(), [])

    def test_a_search(self) -> None:
        """A name, a word, and what would be markup."""
        browser = self.browser
        browser.open("/")
        for asked, wanted in (("NOTES.N00005", "NOTES.N00005"), ("IEBCOPY", "PGM=IEBCOPY"), ("<b>*", "<B>A&B'\"</B>")):
            browser.seek(asked)
            self.assertEqual(browser.title(), f"Search: {asked}")
            self.assertIn(wanted, browser.ask("document.querySelector('main').textContent"))
        self.assertEqual(browser.ask("document.querySelectorAll('main b, script').length"), 0)
        self.assertEqual(self.told(), [])

    def test_what_is_broken(self) -> None:
        """With why, and a broken track in the picture."""
        browser = self.browser
        browser.open("/broken")
        self.assertIn("wrong length", browser.ask("document.querySelector('main').textContent"))
        number = reading().execute("SELECT file FROM volumes WHERE errors > 0 ORDER BY file LIMIT 1").fetchone()[0]
        browser.open(f"/at/{number}")
        self.assertGreater(browser.ask("document.querySelector('svg use').getBoundingClientRect().width"), 0)
        self.assertEqual(self.told(), [])

    def test_a_pack_is_opened_in_the_page(self) -> None:
        """By the link of a volume, at its broken track by that of a finding, and inside a page of a report; a changed file is reported there."""
        page = made_page()
        if page is None:
            self.skipTest("the page can't be made: compiled/ has no modules of this commit")
        database = example()
        browser = Browser(database, page)
        self.addCleanup(browser.close)
        browser.driver.set_script_timeout(PATIENCE)
        for light in LIGHTS:
            browser.light(light)
            self.compare(browser, "packs/001.ckd", 20, 0)
            self.compare(browser, "packs/large.ckd", 4060, 50)
        browser.open("/broken")
        where = browser.ask("[...document.querySelectorAll('a')].find(it => it.textContent === 'cylinder 45 head 7').href")
        browser.driver.get("about:blank")
        browser.driver.get(where)
        browser.until(IS_SHOWN)
        browser.until("page.view.picture.chosen === 45 * 20 + 7")
        self.assertEqual(browser.ask("document.getElementById('name').textContent"), "large.ckd")
        report = database.parent / "report"
        write_report(str(database), str(report), page)
        browser.driver.get((report / "volumes/1/pack.html").as_uri() + "#pack=given&track=1.2")
        browser.until(IS_SHOWN)
        browser.until("page.view.picture.chosen === 12")
        self.assertEqual(browser.ask("document.getElementById('name').textContent"), "001.ckd")
        os.utime(database.parent / "packs/large.ckd", ns=(1, 1))
        browser.driver.get("about:blank")
        browser.driver.get(where)
        browser.until("document.getElementById('notice').textContent.includes('packs/large.ckd has changed since it was scanned')")

    def compare(self, browser: Browser, name: str, tracks: int, hidden: int) -> None:
        """The picture of the catalogue beside that of the page, in the same width: each track has the same colour, except for those that names and marks hide,
        and little else differs."""
        browser.open("/")
        browser.press(name)
        size = browser.ask("(it => [it.width, it.height])(document.querySelector('svg').getBoundingClientRect())")
        shot = browser.driver.find_element("css selector", "svg").screenshot_as_base64
        where = browser.ask("[...document.querySelectorAll('a')].find(it => it.textContent === 'Open this pack').href")
        browser.driver.get("about:blank")
        browser.driver.get(where)
        browser.until(IS_SHOWN)
        browser.ask(f"document.getElementById('picture').style.width = '{size[0]}px'")
        browser.until(f"page.view.picture.layout.width === {size[0]}")
        found = browser.driver.execute_async_script(COMPARED, shot, *size)
        self.assertEqual((found["tracks"], found["size"]), (tracks, size))
        self.assertLessEqual(found["far"], hidden, found)
        self.assertLess(found["pixels"], 0.01, found)

    def told(self) -> list[Any]:
        """What the browser tells of the pages, but that there is no icon."""
        return [it for it in self.browser.driver.get_log("browser") if "favicon" not in it["message"]]


@functools.cache
def example() -> Path:
    """A catalogue of larger packs beside the shared archive's, for the pictures."""
    folder = room() / "archive"
    (folder / "packs").mkdir(parents=True)
    for number in range(1, 25):
        (folder / f"packs/{number:03}.ckd").write_bytes(pack(number).volume.bytes())
    make_large(folder / "packs/large.ckd")
    scanned(folder / "catalogue.db", [folder / "packs"])
    return folder / "catalogue.db"


def make_large(path: Path) -> None:
    """The full 2314 of the page in the browser (docs/WEB.md)."""
    subprocess.run([sys.executable, str(TOP / "web/example_pack.py"), str(path)], check=True)


def volume(browser: Browser) -> None:
    """A volume."""
    browser.open("/")
    browser.press("packs/large.ckd")


def sides(browser: Browser) -> None:
    """Two members that differ."""
    browser.open("/search?q=SYS1.MACLIB(GET)")
    browser.press("packs/001.ckd: SYS1.MACLIB(GET)")
    browser.ask("[...document.querySelectorAll('li')].find(it => it.textContent.startsWith('packs/003.ckd')).lastElementChild.click()")


PICTURES: dict[str, Callable[[Browser], None]] = {"catalogue-volume": volume, "catalogue-sides": sides}


def make_pictures(folder: Path) -> int:
    """Makes the pictures, in both lights."""
    browser = Browser(example(), made_page())
    try:
        for name, shown in PICTURES.items():
            for light, suffix in LIGHTS.items():
                browser.light(light)
                shown(browser)
                path = folder / f"{name}{suffix}.png"
                browser.driver.save_screenshot(str(path))
                print(f"{path}: {path.stat().st_size} bytes")
    finally:
        browser.close()
    return 0


if __name__ == "__main__":
    if len(sys.argv) == 2 and not sys.argv[1].startswith("-"):
        sys.exit(make_pictures(Path(sys.argv[1])))
    unittest.main()
