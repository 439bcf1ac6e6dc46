"""Looks at the built site in headless Chromium, opened as a file, as a telephone shows it: `/usr/bin/python3 site/test_look.py`.

It wants Debian's chromium-driver and python3-selenium, and what site/check has built."""

# mypy: allow-untyped-calls

import time
import unittest
from pathlib import Path
from typing import Any, ClassVar

from selenium import webdriver
from selenium.webdriver.chrome.options import Options
from selenium.webdriver.chrome.service import Service

HTML = Path(__file__).resolve().parent / "out" / "html"
WIDTH, HEIGHT = 390, 844
# The first page, pages with wide tables and with long names, and one below another folder.
PAGES = ("index", "docs/HERCULES", "docs/DEFINITIONS", "docs/RULES", "docs/DECKS", "conformance/FORMAT")
# How much of the first screen is text, the title and what is below it; and the edge of what is wide and can't be moved sideways.
LOOK = """const body = document.querySelector('div.body').getBoundingClientRect();
return [body.top, Math.min(body.bottom, innerHeight) - Math.max(body.top, 0), document.documentElement.scrollWidth,
    document.querySelector('div.sphinxsidebar').getBoundingClientRect().top - body.bottom];"""


class Look(unittest.TestCase):
    """A telephone's screen."""

    driver: ClassVar[Any]

    @classmethod
    def setUpClass(cls) -> None:
        options = Options()
        for word in ("--headless=new", "--no-sandbox", "--disable-gpu"):
            options.add_argument(word)
        cls.driver = webdriver.Chrome(service=Service("/usr/bin/chromedriver"), options=options)
        screen = {"width": WIDTH, "height": HEIGHT, "deviceScaleFactor": 1, "mobile": True}
        cls.driver.execute_cdp_cmd("Emulation.setDeviceMetricsOverride", screen)

    @classmethod
    def tearDownClass(cls) -> None:
        cls.driver.quit()

    def show(self, name: str) -> None:
        """Opens a page of the site."""
        self.driver.get(f"{HTML.as_uri()}/{name}")

    def test_the_first_screen_is_text(self) -> None:
        for name in PAGES:
            with self.subTest(page=name):
                self.show(f"{name}.html")
                top, text, width, below = self.driver.execute_script(LOOK)
                self.assertLess(top, 100)
                self.assertGreater(text, HEIGHT - 100)
                self.assertEqual(width, WIDTH)
                self.assertGreaterEqual(below, 0)

    def test_the_first_screen_leads_on(self) -> None:
        self.show("index.html")
        found = self.driver.execute_script(
            "return [...document.querySelectorAll('p.leads a')].map(it => [it.getBoundingClientRect().bottom, it.getAttribute('href')])"
        )
        self.assertEqual(len(found), 3)
        for bottom, link in found:
            self.assertLess(bottom, HEIGHT)
            path, _, place = link.partition("#")
            if path == "try/index.html" and not (HTML / "try").exists():
                continue  # site/check has said that it is not there
            self.assertTrue((HTML / (path or "index.html")).is_file(), link)
            self.assertTrue(not place or self.driver.execute_script("return !!document.getElementById(arguments[0])", place), link)

    def test_a_search_shows_lines(self) -> None:
        self.show("search.html?q=TIC")
        ends = time.monotonic() + 20
        lines: list[str] = []
        while time.monotonic() < ends and not lines:
            lines = self.driver.execute_script("return [...document.querySelectorAll('#search-results p.context')].map(it => it.textContent)")
            time.sleep(0.1)
        self.assertTrue(any("TIC" in it for it in lines), lines)


if __name__ == "__main__":
    unittest.main()
