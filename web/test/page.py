#!/usr/bin/env python3
"""Tries the page in headless Chromium, opened as a file, and compares what it shows with what the program `dasd` says.

    page.py OUT DASD.. [--only NAME,NAME..]

OUT is the folder with index.html, example.ckd and examples.json; DASD the words that run the program: another build of it, beside the page.
NAME is one of the checks that are listed below in CHECKS. It wants Debian's chromium-driver and python3-selenium. Each line is a check; the
status is 1 where one came out wrong."""

import argparse
import json
import pathlib
import shutil
import sys
import tempfile
from dataclasses import dataclass
from typing import Any, Callable

sys.dont_write_bytecode = True

import page_deck as deck
import page_fetched as fetched
import page_fields as fields
import page_kept as kept
import page_links as links
import page_manners as manners
import page_start as start
import page_volume as volume
from browser import Browser, Checks
from native import Native


@dataclass
class Tried:
    """What all checks have."""

    browser: Browser
    native: Native
    checks: Checks
    downloads: pathlib.Path
    examples: dict[str, Any]


# Each check by its name, in the order in which they are made.
CHECKS: dict[str, Callable[[Tried], None]] = {
    "start": lambda it: start.check_start(it.browser, it.native, it.checks),
    "about": lambda it: start.check_about(it.browser, it.checks),
    "contents": lambda it: volume.check_contents(it.browser, it.native, it.checks),
    "picture": lambda it: volume.check_picture(it.browser, it.native, it.checks),
    "findings": lambda it: volume.check_findings(it.browser, it.native, it.checks),
    "pointer": lambda it: volume.check_pointer(it.browser, it.native, it.checks),
    "lights": lambda it: volume.check_lights(it.browser, it.native, it.checks),
    "members": lambda it: volume.check_members(it.browser, it.native, it.checks, it.downloads),
    "archive": lambda it: volume.check_archive(it.browser, it.checks, it.downloads),
    "fields": lambda it: fields.check_fields(it.browser, it.native, it.checks),
    "large": lambda it: volume.check_large(it.browser, it.native, it.checks),
    "help": lambda it: deck.check_help(it.browser, it.checks),
    "words": lambda it: deck.check_words(it.browser, it.native, it.checks),
    "examples": lambda it: deck.check_examples(it.browser, it.checks, it.examples["examples"]),
    "steps": lambda it: deck.check_steps(it.browser, it.native, it.checks, it.examples),
    "trace": lambda it: deck.check_trace(it.browser, it.checks),
    "drives": lambda it: deck.check_drives(it.browser, it.checks),
    "changes": lambda it: deck.check_changes(it.browser, it.native, it.checks, it.downloads),
    "packs": lambda it: kept.check_packs(it.browser, it.native, it.checks, it.downloads),
    "texts": lambda it: kept.check_texts(it.browser, it.checks),
    "packed": lambda it: kept.check_packed(it.browser, it.native, it.checks),
    "slices": lambda it: kept.check_slices(it.browser, it.native, it.checks),
    "extents": lambda it: kept.check_extents(it.browser, it.native, it.checks),
    "keys": lambda it: manners.check_keys(it.browser, it.native, it.checks),
    "light": lambda it: manners.check_light(it.browser, it.checks),
    "widths": lambda it: manners.check_widths(it.browser, it.checks),
    "names": lambda it: manners.check_names(it.browser, it.checks),
    "places": lambda it: links.check_places(it.browser, it.checks),
    "links": lambda it: links.check_links(it.browser, it.checks, it.examples["examples"]),
    "returns": lambda it: links.check_returns(it.browser, it.checks, it.examples["examples"]),
    "fetched": lambda it: fetched.check_fetched(it.browser, it.native, it.checks),
    "given": lambda it: fetched.check_given(it.browser, it.native, it.checks),
    "network": lambda it: manners.check_network(it.browser, it.checks),
    "hostile": lambda it: manners.check_hostile(it.browser, it.native, it.checks),
}

# Those before which the example pack is opened again.
OPENED = {"contents", "picture", "findings", "pointer", "lights", "members"}


def read_words() -> argparse.Namespace:
    """The words of the command."""
    words = argparse.ArgumentParser(description=__doc__, formatter_class=argparse.RawDescriptionHelpFormatter)
    words.add_argument("out", type=pathlib.Path)
    words.add_argument("dasd", nargs="+")
    words.add_argument("--only", type=lambda it: it.split(","), default=list(CHECKS))
    return words.parse_args()


def main() -> int:
    """Tries what is asked for."""
    given, checks = read_words(), Checks()
    with tempfile.TemporaryDirectory() as folder:
        room, downloads = pathlib.Path(folder, "room"), pathlib.Path(folder, "downloads")
        room.mkdir()
        downloads.mkdir()
        shutil.copyfile(given.out / "example.ckd", room / "example.ckd")
        command = [str(pathlib.Path(it).resolve()) if pathlib.Path(it).exists() else it for it in given.dasd]
        browser = Browser(given.out / "index.html", downloads=downloads)
        tried = Tried(browser, Native(command, room), checks, downloads, json.loads((given.out / "examples.json").read_text()))
        try:
            for name in given.only:
                if name in OPENED:
                    volume.example(browser)
                CHECKS[name](tried)
            severe = browser.severe()
            checks.that("the console has no error", not severe, severe)
        finally:
            browser.close()
    print(f"{checks.done} checks, {len(checks.wrong)} wrong")
    return 1 if checks.wrong else 0


if __name__ == "__main__":
    sys.exit(main())
