"""Checks of decks: written with help, picked, run over several drives and channels, stepped through, and what they change."""

import pathlib
import random
import re
import time
from typing import Any

from browser import Browser, Checks, ungzipped
from native import Native
from page_volume import example, fetched

PLACES = 200
WRITING = """* Cylinder 202, head 19: write a count, key and data behind record 0.
STORE 48 00000400
STORE 400 0700050040000006 3100050240000005 0800040800000000
STORE 418 1D00051080000008 0000052000000020
STORE 500 000000CA001300
STORE 510 00CA001301000020
STORE 520 C8C5D3D3D640C6D9D6D440C140D7C1C7C5404040404040404040404040404040
SIO 190
RUN
INT
"""


def write(browser: Browser, text: str) -> None:
    """Puts a deck into the page, as if it were written."""
    browser.ask("(page.show('deck'), page.deck.write(arguments[0]))", text)


def run(browser: Browser) -> bool:
    """Runs the deck that stands there, and waits for its end."""
    browser.click("#run")
    return browser.until(
        "!document.getElementById('run').hasAttribute('aria-busy') && (page.deck.played === null || page.deck.moment ==="
        " page.deck.time?.end)"
    )


def pick(browser: Browser, number: int) -> None:
    """Picks an example by its place in the list, and waits until it has run."""
    browser.wait_for("{ await page.pickExample(%d) }" % number)
    browser.until("!document.getElementById('run').hasAttribute('aria-busy')")


def stand(browser: Browser, event: int, unit: int) -> None:
    """Brings the page to a moment."""
    browser.wait_for("{ await page.deck.go(page.deck.time.numberOf({ event: %d, unit: %d })) }" % (event, unit))


def panel(browser: Browser) -> dict[str, Any]:
    """What the panel, the storage and the trace show."""
    seen = browser.ask(
        "({ labels: [...document.querySelectorAll('#panel [aria-label]')].map(it => it.getAttribute('aria-label')), storage:"
        " document.getElementById('storage').textContent, answer: document.getElementById('answer').textContent, said:"
        " [...document.querySelectorAll('.trace-line:not(.later)')].map(it => it.textContent), lit: document.querySelectorAll('#panel"
        " .lamp.on').length })"
    )
    rows = re.findall(r"^([0-9A-F]{6})  ((?:[0-9A-F]{8} ){4})", seen["storage"], flags=re.M)
    return {**seen, "bytes": {int(at, 16): digits.replace(" ", "") for at, digits in rows}}


def check_help(browser: Browser, checks: Checks) -> None:
    """A deck is written with help: what is wrong in a line as one types, forms of events, words of commands."""
    browser.ask("page.show('deck')")
    write(browser, "")
    field = browser.find("#text")
    field.send_keys("STO")
    checks.that(
        "events that begin so are offered",
        browser.until("document.querySelector('#deck-help .choices')?.textContent === 'STORE'", 20),
        browser.text("#deck-help"),
    )
    field.send_keys("RE 400 070005004000000")
    checks.that(
        "a line that is wrong is told, in dasd's words",
        browser.until("document.getElementById('deck-help').textContent.includes('Line 1: bad operand')", 20),
        browser.text("#deck-help"),
    )
    checks.that("and marked", browser.ask("document.querySelectorAll('.gutter .wrong').length") == 1)
    checks.that("beside the form of its event", "STORE aaaaaa hex.." in browser.text("#deck-help"), browser.text("#deck-help"))
    field.send_keys("6")
    checks.that(
        "and no more when it is right; the word's command is named",
        browser.until(
            "document.getElementById('deck-help').textContent.includes('07 Seek') && !document.querySelector('.gutter .wrong')", 20
        ),
        browser.text("#deck-help"),
    )
    check_builder(browser, checks)


def check_builder(browser: Browser, checks: Checks) -> None:
    """A word is made of names; and a deck with a fault is run."""
    browser.click(".builder summary")
    browser.until("document.querySelectorAll('.builder select option').length > 20", 30)
    browser.ask(
        "(it => { it.value = '6'; it.dispatchEvent(new Event('change', { bubbles: true })); })(document.querySelector('.builder select'))"
    )
    browser.click(".builder button")
    checks.same(
        "a word is made of a command's name",
        browser.ask("document.getElementById('text').value"),
        "STORE 400 0700050040000006 0600050000000050",
    )
    browser.click(".builder summary")
    write(browser, "SIO 190\nFOO\n")
    browser.click("#run")
    checks.that(
        "a faulty deck runs nothing, and says why",
        browser.until("document.getElementById('trace').textContent.includes('line 2: unknown event')", 20),
        browser.text("#trace"),
    )


WORDED = "STORE 48 00000400\nSTORE 400 1600060000000010\nSIO 190\nRUN\nINT\n"
WRONG_WORDS = "         ORG X'400'\n         SEAK 0,CC,6\n"


def check_words(browser: Browser, native: Native, checks: Checks) -> None:
    """A deck in words: turned both ways, as dasd has it; a fault is marked at its line and column; and it is run."""
    example(browser)
    write(browser, WORDED)
    browser.click("#as-words")
    browser.until("page.deck.editor.language === 'words'", 30)
    words = browser.ask("document.getElementById('text').value")
    checks.same("a deck is put into words, in dasd's own", words, native.run("disassemble", deck=WORDED).stdout.decode())
    checks.that("and the switch says so", browser.ask("document.getElementById('as-words').getAttribute('aria-pressed')") == "true")
    checks.that("words run, and the deck stands with its answers", run(browser), browser.text("#trace"))
    answers = browser.ask("page.deck.played?.events.map(it => it.answer)")
    checks.same("with the same answers", answers, ["STORE OK", "STORE OK", "SIO 190 CC 0", "RUN 17", "INT 190 00000408 0C000000"])
    browser.click("#edit")
    checks.same("edited, they are words again", browser.ask("document.getElementById('text').value"), words)
    browser.click("#as-deck")
    browser.until("page.deck.editor.language === 'deck'", 30)
    checks.same("turned back unchanged, it is the deck that it was", browser.ask("document.getElementById('text').value"), WORDED)
    check_wrong_words(browser, native, checks)


def check_wrong_words(browser: Browser, native: Native, checks: Checks) -> None:
    """Words that are wrong."""
    browser.ask("page.deck.editor.write(arguments[0], 'words')", WRONG_WORDS)
    said = native.run("assemble", deck=WRONG_WORDS).stderr.decode().splitlines()[0].partition(": line 2, column 10: ")[2]
    checks.that(
        "what is wrong is told with its line and column, in dasd's words",
        browser.until("document.getElementById('deck-help').textContent.includes('Line 2, column 10: ')", 30)
        and said != ""
        and said in browser.text("#deck-help"),
        browser.text("#deck-help"),
    )
    checks.same("its line is marked", browser.texts("#editor .gutter .wrong"), ["2"])
    checks.same("and its word", browser.texts("#editor .echo mark"), ["SEAK"])
    apart = browser.ask(
        "(([mark, line, field]) => [mark.top - line.top, mark.left - field.left - 10 - 9 * mark.width / 4])(['#editor .echo mark',"
        " '#editor .gutter .wrong', '#text'].map(it => document.querySelector(it).getBoundingClientRect()))"
    )
    checks.that("which the mark is right below", all(abs(it) < 6 for it in apart), apart)
    browser.click("#as-deck")
    time.sleep(0.5)
    checks.same("such words are not turned, and stay", browser.ask("document.getElementById('text').value"), WRONG_WORDS)
    browser.click("#run")
    checks.that(
        "nor run", browser.until("document.getElementById('trace').textContent.includes('Line 2, column 10')", 20), browser.text("#trace")
    )
    write(browser, "CHANNEL 2\nINT\n")
    browser.click("#as-words")
    checks.that(
        "a deck with lines that are the page's alone is not put into words, and says where",
        browser.until("document.getElementById('deck-help').textContent.includes('Line 1: unknown event')", 20),
        browser.text("#deck-help"),
    )


def check_examples(browser: Browser, checks: Checks, all_examples: list[dict[str, Any]]) -> None:
    """Examples of the pages, vectors, and decks in which Hercules differs: their answers come, and Hercules' stand beside."""
    kinds = {kind: [at for at, it in enumerate(all_examples) if it["kind"] == kind] for kind in ["page", "hercules", "vector"]}
    chosen = kinds["page"] + kinds["hercules"] + random.Random(3).sample(kinds["vector"], 40)
    wrong, beside = [], 0
    for at in chosen:
        it = all_examples[at]
        pick(browser, at)
        if it.get("fault"):
            wrong += [it["name"]] if it["fault"] not in browser.text("#trace") else []
            continue
        came = browser.ask("page.deck.played?.events.map(it => it.answer)")
        wrong += [(it["name"], came)] if it["answers"] and came != it["answers"] else []
        others = [answer for answer in it.get("hercules") or [] if answer]
        beside += len(others)
        wrong += (
            [(it["name"], "Hercules")]
            if sorted(f"Hercules answers {answer}" for answer in others) != sorted(browser.texts("#events .said.other"))
            else []
        )
        wrong += [(it["name"], "must")] if browser.texts("#events .said.wrong") else []
    counts = {kind: len(its) for kind, its in kinds.items()}
    checks.that(
        f"all of {counts} are to be picked; {len(chosen)} were run and answer as they must, with {beside} answers of Hercules beside them",
        not wrong and counts["vector"] >= 530 and counts["hercules"] == 34,
        wrong,
    )
    browser.click("#pick")
    browser.find("#picker-find").send_keys("seek-head")
    checks.that(
        "the choice is narrowed by a word",
        browser.until(
            "document.querySelectorAll('#picker .choice').length > 0 && document.querySelectorAll('#picker .choice').length < 60", 10
        ),
    )
    browser.ask("document.getElementById('picker').close()")


def check_steps(browser: Browser, native: Native, checks: Checks, all_examples: dict[str, Any]) -> None:
    """Steps forwards and back, at places by chance: panel, storage and trace are what the program gives for the deck up to there."""
    names = ["A write without its search", "A search that loops", "An update in place", "A halt in the middle", "A cylinder formatted"]
    chance, wrong, count = random.Random(11), [], 0
    for name in names:
        at = next(i for i, it in enumerate(all_examples["examples"]) if it["name"] == name)
        it = all_examples["examples"][at]
        image = it["volumes"][0]["images"][0]
        (native.folder / image).write_bytes(ungzipped(all_examples["images"][image]))
        pick(browser, at)
        browser.ask("(page.deck.panel.from = 0x400, 0)")
        events, units = browser.ask("page.deck.played.events.map(it => it.line)"), browser.ask("page.deck.time.units")
        for _ in range(PLACES // len(names)):
            event = chance.randrange(len(events) + 1)
            unit = chance.randrange(units[event]) if event < len(events) and units[event] else 0
            stand(browser, event, unit)
            wrong += differing(panel(browser), given(native, image, events[:event], unit), (name, event, unit))
            count += 1
    checks.that(
        f"at {count} places, forwards and back, the panel, storage and trace are what dasd gives", count >= PLACES and not wrong, wrong
    )


def given(native: Native, image: str, events: list[str], unit: int) -> dict[str, Any]:
    """What the program gives for the first events of a deck, and so many units more."""
    (native.folder / "step.ckd").write_bytes((native.folder / image).read_bytes())
    deck = [*events, *([f"RUN {unit}"] if unit else [])]
    shown = [f"SHOW {at:X} 16" for at in [0x40, 0x400, 0x500, 0x5F0]]
    answers = native.answers("\n".join([*deck, *shown]) + "\n", "90=step.ckd")
    (native.folder / "step.ckd").write_bytes((native.folder / image).read_bytes())
    trace = native.run("run", "--trace", "--trace-whole", "90=step.ckd", deck="\n".join(deck) + "\n").stderr.decode().splitlines()
    return {
        "bytes": [it.split(" ")[2] for it in answers[-4:]],
        "answer": "" if unit or not events else answers[len(events) - 1],
        "trace": trace,
        "unit": unit,
    }


def differing(seen: dict[str, Any], wanted: dict[str, Any], where: object) -> list[object]:
    """What of the panel is not what the program gives."""
    csw, caw = wanted["bytes"][0][:16], wanted["bytes"][0][16:24]
    labels = [
        label
        for label in seen["labels"]
        if label.startswith((f"CSW: {csw[:8]}", f"CAW: {caw}", f"Unit {csw[8:10]}", f"Channel {csw[10:12]}", f"Count: {csw[12:]}"))
    ]
    wrong: list[object] = [] if len(labels) == 5 else [(where, "lamps", csw, seen["labels"])]
    wrong += (
        []
        if [seen["bytes"].get(at) for at in [0x400, 0x500, 0x5F0]] == wanted["bytes"][1:]
        else [(where, "storage", wanted["bytes"], seen["bytes"])]
    )
    wrong += [] if seen["answer"] == wanted["answer"] else [(where, "answer", wanted["answer"], seen["answer"])]
    trace = [it for it in wanted["trace"] if not (wanted["unit"] and it == f"RUN {wanted['unit']}")]
    said = seen["said"]
    return wrong + ([] if said == trace[: len(said)] and len(trace) - len(said) <= 3 else [(where, "trace", trace[-2:], said[-2:])])


def check_trace(browser: Browser, checks: Checks) -> None:
    """Each line of the trace leads to its moment; steps by event, word and unit."""
    lines = browser.ask("document.querySelectorAll('.trace-line').length")
    wrong = []
    for line in range(0, lines, max(1, lines // 8)):
        browser.ask("document.querySelectorAll('.trace-line')[arguments[0]].click()", line)
        reached = browser.until(
            (
                f"document.querySelector('.trace-line.now') && (it => Number(it) >= {line} &&"
                " page.deck.time.numberOf(page.deck.time.lines[it]) ==="
                f" page.deck.time.numberOf(page.deck.time.lines[{line}]))(document.querySelector('.trace-line.now').dataset.line)"
            ),
            20,
        )
        wrong += [] if reached else [line]
    checks.that("each line of the trace leads to its moment", lines > 10 and not wrong, wrong)
    browser.wait_for("{ await page.deck.go(0) }")
    seen = []
    for by in ["event", "word", "unit"]:
        before = browser.ask("page.deck.moment")
        browser.click(f"[data-step={by}-on]")
        browser.until(f"page.deck.moment > {before} && !page.deck.isAsking", 20)
        middle = browser.ask("page.deck.moment")
        browser.click(f"[data-step={by}-back]")
        back = browser.until(f"page.deck.moment < {middle} && !page.deck.isAsking", 20)
        seen.append(middle > before and back)
        browser.wait_for("{ await page.deck.go(page.deck.time.words[1]) }")
    checks.that("steps by event, by word and by unit go on and back", all(seen), seen)


def check_drives(browser: Browser, checks: Checks) -> None:
    """Up to eight drives on a channel, and several channels."""
    example(browser)
    browser.ask("page.show('deck')")
    for address in range(0x191, 0x198):
        add(browser, f"{address:X}", "2311 5")
        browser.until(f"page.drives.all.length === {address - 0x18F}")
    add(browser, "198", "2311 5")
    time.sleep(0.3)
    count = browser.ask("page.drives.all.length")
    add(browser, "290", "2314 5")
    browser.until("page.drives.all.length === 9")
    checks.same(
        "eight drives on a channel, and no ninth; another channel has its own", [count, browser.ask("page.drives.all.length")], [8, 9]
    )
    # one program on each channel: a No-Operation and a Seek, whose arm is then in motion
    write(
        browser,
        (
            "STORE 48 00000400\nSTORE 400 0300000020000001\nSIO 197\nSTORE 48 00000500\nSTORE 500 0700060000000006\nSTORE 600"
            " 000000030002\nSIO 290\nCHANNEL 2\nRUN\nINT\nCHANNEL 1\nTCH\n"
        ),
    )
    ran = run(browser)
    answers = browser.ask("page.deck.played?.events.map(it => it.answer)") or []
    wanted = ["SIO 197 CC 1 0C00", "STORE OK", "STORE OK", "STORE OK", "SIO 290 CC 0", "RUN 7", "INT 290 00000508 08000000", "TCH CC 0"]
    checks.that("a deck runs on two channels", ran and answers[2:] == wanted, answers)
    labels = panel(browser)["labels"]
    checks.that(
        "whose panel has both, and the arm in motion",
        any(it.startswith("Subchannel of channel 2") for it in labels) and "Drive 290, 2314: arm in motion, cylinder 3, head 2" in labels,
        labels,
    )


def add(browser: Browser, address: str, kind: str) -> None:
    """Adds a drive, as a visitor does."""
    browser.ask(
        (
            "(page.drives.address.value = arguments[0], page.drives.kind.value = arguments[1], page.drives.kind.dispatchEvent(new"
            " Event('change')))"
        ),
        address,
        kind,
    )


def check_changes(browser: Browser, native: Native, checks: Checks, downloads: pathlib.Path) -> None:
    """What a deck has changed is framed in the picture; two packs are compared, track by track; saved, and undone."""
    example(browser)
    write(browser, WRITING)
    checks.that("a deck that writes is run", run(browser) and browser.until("page.view.changed.size > 0", 30), browser.text("#trace"))
    checks.same("the track that it changed is framed", browser.ask("[...page.view.changed]"), [202 * 20 + 19])
    written = native.folder / "written.ckd"
    written.write_bytes((native.folder / "example.ckd").read_bytes())
    native.run("run", "90=written.ckd", deck=WRITING)
    browser.click("#save")
    checks.that(
        "the pack that is saved is the one that dasd writes, byte for byte", fetched(downloads / "example.ckd") == written.read_bytes()
    )
    browser.click("#undo")
    checks.that(
        "undone, nothing is framed, and the record is gone",
        browser.until("page.view.changed.size === 0 && page.view.volume.tracks[4059].records.length === 1", 30),
    )
    other = native.folder / "other.ckd"
    changed = bytearray(written.read_bytes())
    changed[512 + 7680 * (36 * 20 + 5) + 60] ^= 0xFF
    other.write_bytes(changed)
    browser.ask("(page.show('compare'), page.incoming.wanted = 'other')")
    browser.find("#files").send_keys(str(other))
    browser.until("document.querySelectorAll('.compare-list [data-track]').length > 0")
    wanted = [line for line in native.text("compare", "other.ckd", "example.ckd").splitlines() if "differ" not in line]
    shown = browser.ask(
        "[...document.querySelectorAll('.compare-list [data-track]')].map(it => [...it.children].map(part => part.textContent).join(' '))"
    )
    checks.same("two packs are compared, in dasd's words", shown, wanted)
    checks.same("and framed in the same picture", sorted(browser.ask("[...page.view.changed]")), [36 * 20 + 5, 202 * 20 + 19])
    x, y = browser.ask("(p => [p.x - 2, p.y + p.h / 2])(page.view.picture.placeOf(36 * 20 + 5))")
    frame, blue = browser.colour_at(x, y), browser.colour_of("blue")
    checks.that("by a frame that is drawn", max(abs(a - b) for a, b in zip(frame, blue)) < 40, (frame, blue))
    checks.that(
        "both sides of a track stand beside each other", browser.until("document.querySelectorAll('#compare pre .differs').length > 0", 20)
    )
