"""The page in headless Chromium, opened as a file: what a visitor does, what is seen then, and checks that are counted.

It wants Debian's chromium-driver and python3-selenium."""

import base64
import pathlib
import time
import zlib
from typing import Any

from selenium import webdriver
from selenium.webdriver.common.by import By
from selenium.webdriver.common.keys import Keys
from selenium.webdriver.remote.webelement import WebElement

PATIENCE = 120.0
Colour = tuple[int, int, int]


class Browser:
    """One page, and what is asked of it."""

    def __init__(self, page: pathlib.Path, size: tuple[int, int] = (1600, 1000), downloads: pathlib.Path | None = None):
        options = webdriver.ChromeOptions()
        for word in [
            "--headless=new",
            "--no-sandbox",
            "--disable-gpu",
            f"--window-size={size[0]},{size[1]}",
            "--force-device-scale-factor=1",
            "--hide-scrollbars",
        ]:
            options.add_argument(word)  # type: ignore[no-untyped-call]
        options.set_capability("goog:loggingPrefs", {"browser": "ALL"})
        self.driver = webdriver.Chrome(options=options)
        self.driver.set_script_timeout(300)
        if downloads:
            self.driver.execute_cdp_cmd("Browser.setDownloadBehavior", {"behavior": "allow", "downloadPath": str(downloads)})
        self.page = page
        self.open()

    def open(self) -> None:
        """Opens the page again, as a file."""
        self.go(self.page.resolve().as_uri())

    def go(self, url: str) -> None:
        """Opens a page by its whole address. One that would ask before it is left is not asked: Chromium then tells its console that it can't
        ask, if no visitor has clicked yet, and would wait for an answer, if one has."""
        self.ask("void addEventListener('beforeunload', it => it.stopImmediatePropagation(), true)")
        self.driver.get("about:blank")
        self.driver.get(url)
        self.until("document.documentElement.dataset.ready === 'yes'")

    def close(self) -> None:
        """Ends the browser."""
        self.driver.quit()

    def ask(self, script: str, *words: object) -> Any:
        """What a script's expression comes to."""
        return self.driver.execute_script("return " + script, *words)  # type: ignore[no-untyped-call]

    def wait_for(self, script: str) -> Any:
        """What a promise comes to, or the text of its fault after 'fault: '."""
        return self.driver.execute_async_script(
            "const done = arguments[arguments.length - 1]; Promise.resolve((async () => "
            + script
            + ")()).then(done, fault => done('fault: ' + fault.message))"
        )

    def until(self, script: str, seconds: float = PATIENCE) -> bool:
        """Waits until a script's expression holds."""
        end = time.monotonic() + seconds
        while time.monotonic() < end:
            if self.ask(script):
                return True
            time.sleep(0.03)
        return False

    def find(self, selector: str) -> WebElement:
        """The first element of a selector."""
        return self.driver.find_element(By.CSS_SELECTOR, selector)

    def click(self, selector: str) -> None:
        """Presses what a selector names, as a visitor's pointer would."""
        it = self.find(selector)
        self.ask("arguments[0].scrollIntoView({ block: 'nearest' })", it)
        it.click()

    def text(self, selector: str) -> str:
        """The text of an element."""
        return str(self.ask("document.querySelector(arguments[0])?.textContent ?? ''", selector))

    def texts(self, selector: str) -> list[str]:
        """The texts of all elements of a selector."""
        return [str(it) for it in self.ask("[...document.querySelectorAll(arguments[0])].map(it => it.textContent)", selector)]

    def press(self, *keys: str) -> None:
        """Presses keys, at what has the focus."""
        for key in keys:
            self.driver.switch_to.active_element.send_keys(key)

    def take(self, *files: pathlib.Path) -> None:
        """Gives files to the page, as its file dialog does."""
        self.ask("page.incoming.wanted = 'volume'")
        self.find("#files").send_keys("\n".join(str(it.resolve()) for it in files))

    def point(self, x: float, y: float) -> None:
        """Moves the pointer to a place of the picture."""
        box = self.ask("(r => [r.left, r.top])(document.getElementById('pointer').getBoundingClientRect())")
        self.driver.execute_cdp_cmd("Input.dispatchMouseEvent", {"type": "mouseMoved", "x": box[0] + x, "y": box[1] + y})

    def press_at(self, x: float, y: float) -> None:
        """Presses the pointer at a place of the picture."""
        self.point(x, y)
        box = self.ask("(r => [r.left, r.top])(document.getElementById('pointer').getBoundingClientRect())")
        for kind in ["mousePressed", "mouseReleased"]:
            self.driver.execute_cdp_cmd(
                "Input.dispatchMouseEvent", {"type": kind, "x": box[0] + x, "y": box[1] + y, "button": "left", "clickCount": 1}
            )

    def colour_at(self, x: float, y: float) -> Colour:
        """The colour that is seen at a place of the picture's tracks, over the sheet below them."""
        found = self.ask(
            (
                "(() => { const c = document.getElementById('tracks'), p = c.getContext('2d').getImageData(Math.round(arguments[0]),"
                " Math.round(arguments[1]), 1, 1).data; const s ="
                " [...page.view.picture.tracks.colours().sheet.matchAll(/[\\d.]+/g)].map(Number); return [0, 1, 2].map(i => Math.round(p[i]"
                " * p[3] / 255 + s[i] * (1 - p[3] / 255))); })()"
            ),
            x,
            y,
        )
        return found[0], found[1], found[2]

    def colour_of(self, name: str) -> Colour:
        """The colour of the page that has a name, as it is drawn."""
        found = self.ask(
            (
                "(() => { const p = document.createElement('canvas').getContext('2d', { willReadFrequently: true }), i ="
                " document.createElement('i'); document.body.append(i); i.style.color = `var(--${arguments[0]})`; p.fillStyle ="
                " getComputedStyle(i).color; i.remove(); p.fillRect(0, 0, 1, 1); return [...p.getImageData(0, 0, 1, 1).data]; })()"
            ),
            name,
        )
        return found[0], found[1], found[2]

    def severe(self) -> list[str]:
        """What the console has of errors since it was asked last."""
        return [str(it["message"]) for it in self.driver.get_log("browser") if it["level"] == "SEVERE"]  # type: ignore[no-untyped-call]


def apart(one: Colour, other: Colour) -> int:
    """How far two colours are apart, by their parts."""
    return max(abs(a - b) for a, b in zip(one, other))


def ungzipped(text: str) -> bytes:
    """The bytes of a base64 of a gzip."""
    return zlib.decompress(base64.b64decode(text), 31)


class Checks:
    """Checks, each a line that is printed, and how many came out wrong."""

    def __init__(self) -> None:
        self.done = 0
        self.wrong: list[str] = []

    def that(self, what: str, holds: object, seen: object = "") -> None:
        """A check: it holds, or what was seen in its place is printed."""
        self.done += 1
        if not holds:
            self.wrong.append(what)
        print(f"{'ok   ' if holds else 'WRONG'} {what}" + ("" if holds else f": {str(seen)[:400]}"), flush=True)

    def same(self, what: str, one: object, other: object) -> None:
        """A check that two things are the same."""
        self.that(what, one == other, f"{str(one)[:180]!r} and {str(other)[:180]!r}")


__all__ = ["Browser", "Checks", "Colour", "Keys", "apart", "ungzipped"]
