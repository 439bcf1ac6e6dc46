#!/usr/bin/env python3
"""Opens the page in headless Firefox, by its own protocol (Marionette), and does there what is done once before a version is tagged.

    firefox.py OUT [PICTURE.png]

The first program runs, the example pack is looked at, a data set lights up, a deck is run, stepped back in and undone; a record's fields, an
address, a pack that is fetched, About and a draft are looked at. It wants Debian's firefox-esr."""

import base64
import gzip
import json
import pathlib
import shutil
import socket
import subprocess
import sys
import tempfile
import time
from typing import Any

sys.dont_write_bytecode = True

from server import Server

PORT = 29281
ABOUT = "document.getElementById('origin').textContent.includes('Permission is hereby granted')"
READY = "document.documentElement.dataset.ready === 'yes'"
WRITING = """STORE 48 00000400
STORE 400 0700050040000006 3100050240000005 0800040800000000
STORE 418 1D00051080000008 0000052000000020
STORE 500 000000CA001300
STORE 510 00CA001301000020
SIO 190
RUN
INT
"""


class Firefox:
    """A browser that answers over a socket, each message with its length before it."""

    def __init__(self, home: pathlib.Path):
        (home / "user.js").write_text(f'user_pref("marionette.port", {PORT});\n')
        words = ["firefox-esr", "--headless", "--marionette", "--profile", str(home), "--width", "1600", "--height", "1000"]
        self.process = subprocess.Popen(words, stdout=subprocess.DEVNULL, stderr=subprocess.DEVNULL)
        self.line = self.connected()
        self.number = 0
        self.read()
        self.ask("WebDriver:NewSession", strictFileInteractability=False)

    @staticmethod
    def connected() -> socket.socket:
        """The socket, once the browser listens."""
        for _ in range(600):
            try:
                return socket.create_connection(("127.0.0.1", PORT))
            except OSError:
                time.sleep(0.2)
        sys.exit("firefox.py: Firefox does not listen")

    def read(self) -> Any:
        """One message."""
        length = b""
        while not length.endswith(b":"):
            length += self.line.recv(1)
        data = b""
        while len(data) < int(length[:-1]):
            data += self.line.recv(int(length[:-1]) - len(data))
        return json.loads(data)

    def ask(self, name: str, **words: object) -> Any:
        """A command and its answer."""
        self.number += 1
        text = json.dumps([0, self.number, name, words]).encode()
        self.line.sendall(str(len(text)).encode() + b":" + text)
        _, _, fault, answer = self.read()
        if fault:
            sys.exit(f"firefox.py: {fault}")
        return answer

    def run(self, script: str) -> Any:
        """What an expression of the page comes to."""
        return self.ask("WebDriver:ExecuteScript", script="return " + script, args=[], sandbox=None)["value"]

    def until(self, script: str, seconds: float = 120) -> bool:
        """Waits until an expression holds."""
        end = time.monotonic() + seconds
        while time.monotonic() < end:
            if self.run(script):
                return True
            time.sleep(0.05)
        return False

    def close(self) -> None:
        """Ends it."""
        self.process.terminate()
        self.process.wait(30)


def steps(firefox: Firefox, page: pathlib.Path) -> list[tuple[str, object]]:
    """What is done, and whether it came out right."""
    firefox.ask("WebDriver:Navigate", url=page.resolve().as_uri())
    done: list[tuple[str, object]] = [("the page is ready", firefox.until(READY))]
    read = "document.getElementById('tour-text').textContent === '000024 IRWIN       0003750.00 DEPT 024'"
    done.append(("the first program reads its record", firefox.until(read)))
    firefox.run("document.getElementById('empty-example').click()")
    done.append(("the example has twelve data sets", firefox.until("document.querySelectorAll('#contents tbody tr').length === 12")))
    done.append(("and three errors", firefox.run("document.getElementById('wrong').textContent === '3 errors'")))
    corner = "document.getElementById('tracks').getContext('2d').getImageData(60, 20, 1, 1).data[3]"
    done.append(("it is drawn", firefox.run(f"{corner} > 0")))
    firefox.run("document.querySelectorAll('.set-name button.plain')[3].click()")
    done.append(("a data set lights up", firefox.until("page.view.picture.lit?.size === 480")))
    firefox.run(f"(page.show('deck'), page.deck.write({json.dumps(WRITING)}), document.getElementById('run').click())")
    done.append(
        ("a deck runs, and its track is framed", firefox.until("page.view.changed.size === 1 && page.deck.moment === page.deck.time.end"))
    )
    leaving = "(e => (dispatchEvent(e), e.defaultPrevented))(new Event('beforeunload', { cancelable: true }))"
    unsaved = "document.getElementById('save').classList.contains('unsaved')"
    done.append(("leaving it asks, and Save is marked", firefox.run(leaving) and firefox.run(unsaved)))
    firefox.run("document.querySelector('[data-step=unit-back]').click(), document.querySelector('[data-step=event-back]').click()")
    done.append(("it is stepped back in", firefox.until("page.deck.time.placeOf(page.deck.moment).event === 6 && !page.deck.isAsking")))
    firefox.run("document.getElementById('undo').click()")
    done.append(("and undone", firefox.until("page.view.changed.size === 0")))
    firefox.run("(page.show('volume'), page.view.pick(36 * 20))")
    done.append(("a track's records are shown", firefox.until("document.querySelectorAll('#records tbody tr').length === 4")))
    firefox.run("document.querySelector('#records tr[data-place=\"1\"] button').click()")
    done.append(("a record has fields", firefox.until("document.querySelectorAll('.fields button').length === 6")))
    firefox.run("document.querySelectorAll('.fields button')[5].focus()")
    done.append(("which light up its bytes", firefox.until("document.querySelectorAll('#bytes i.lit').length > 100")))
    firefox.run("void (location.hash = '#deck=A%20read')")
    done.append(("an address leads to a deck", firefox.until("page.deck.written.example?.name === 'A read'")))
    done += fetches(firefox, page)
    firefox.run("document.getElementById('about-page').click()")
    done.append(("About has the licences", firefox.until(ABOUT)))
    firefox.run("(document.getElementById('origin').close(), localStorage.clear(), page.deck.write(''))")
    firefox.run("document.getElementById('text').dispatchEvent(new Event('input'))")
    done.append(("a text is kept", firefox.run("document.getElementById('draft').textContent") == "Kept in this browser"))
    return done


def fetches(firefox: Firefox, page: pathlib.Path) -> list[tuple[str, object]]:
    """A pack by its address, over a server; one where the server names another server; and none for a page from a disk."""
    firefox.run("void (location.hash = '#pack=./example.ckd')")
    told = "document.getElementById('notice-text').textContent"
    done: list[tuple[str, object]] = [("a page from a disk says that it can't fetch", firefox.until(f"{told}.includes('opened from a disk')", 20))]
    other = Server({"/p.ckd": b"x"})
    server = Server({"/index.html": page.read_bytes(), "/p.ckd.gz": gzip.compress((page.parent / "example.ckd").read_bytes(), 1), "/m": f"{other.url}/p.ckd"})
    try:
        firefox.ask("WebDriver:Navigate", url=f"{server.url}/index.html#pack=./p.ckd.gz&track=72.3")
        title = "document.getElementById('track-title').textContent === 'Cylinder 72, head 3'"
        done.append(("a pack is opened by its address", firefox.until(f"{READY} && page.drives.shown.volume.name === 'p.ckd' && {title}")))
        firefox.run("void (location.hash = '#pack=/m')")
        done.append(("another server that is named is not asked", firefox.until(f"{told}.includes('names another place')", 20) and not other.asked))
        firefox.run(f"void (location.hash = '#pack={other.url}/p.ckd')")
        done.append(("nor one in the address", firefox.until(f"{told}.includes('own server')", 20) and not other.asked))
        firefox.run(f"void fetch('{other.url}/p.ckd').then(() => window.got = 1, () => window.got = 2)")
        done.append(("and the page's policy refuses it", firefox.until("window.got === 2", 20) and not other.asked))
    finally:
        server.close()
        other.close()
    firefox.ask("WebDriver:Navigate", url=page.resolve().as_uri())
    return [*done, ("the page is ready again", firefox.until(READY))]


def main() -> int:
    """Opens, looks and tells."""
    if len(sys.argv) < 2 or not shutil.which("firefox-esr"):
        print(__doc__, file=sys.stderr)
        return 2
    with tempfile.TemporaryDirectory() as folder:
        firefox = Firefox(pathlib.Path(folder))
        try:
            done = steps(firefox, pathlib.Path(sys.argv[1]) / "index.html")
            print(firefox.run("navigator.userAgent"))
            if len(sys.argv) > 2:
                picture = firefox.ask("WebDriver:TakeScreenshot", full=False)["value"]
                pathlib.Path(sys.argv[2]).write_bytes(base64.b64decode(picture))
        finally:
            firefox.close()
    for what, holds in done:
        print(f"{'ok   ' if holds else 'WRONG'} {what}")
    return 0 if all(holds for _, holds in done) else 1


if __name__ == "__main__":
    sys.exit(main())
