"""Checks of the picture, of the table of contents, of records and bytes, and of what is taken out of a volume."""

import pathlib
import random
import tarfile
import time
from typing import Any

from browser import Browser, Checks, apart
from native import Native

CYLINDERS, HEADS = 203, 20
LEFT, RIGHT, TOP, TALL = 26, 2, 15, 9


def place(browser: Browser, cylinder: int, head: int, cylinders: int = CYLINDERS) -> tuple[float, float]:
    """The middle of a track in a picture of one band: cylinders from left to right over the width, heads from top to bottom."""
    width = browser.ask("document.getElementById('picture').clientWidth")
    return LEFT + (cylinder + 0.5) * (width - LEFT - RIGHT) / cylinders, TOP + head * TALL + TALL / 2 - 0.5


def owners(native: Native, name: str) -> tuple[list[dict[str, Any]], dict[int, int]]:
    """The data sets of a volume, and which of them a track belongs to, by the program."""
    sets = [it for it in native.objects("vtoc", name) if "extents" in it]
    of = {track: at for at, it in enumerate(sets) for a, b, c, d in it["extents"] for track in range(a * HEADS + b, c * HEADS + d + 1)}
    return sets, of


def example(browser: Browser) -> None:
    """Opens the example pack."""
    browser.open()
    browser.click("#empty-example")
    browser.until("page.tab === 'volume'")
    browser.until("document.querySelectorAll('#contents tbody tr').length > 3")
    browser.until("document.getElementById('bytes').textContent.includes(' HA ')")


def check_picture(browser: Browser, native: Native, checks: Checks) -> None:
    """The colours of tracks are those of the data sets that own them, at the cylinder and head that they have."""
    _, of = owners(native, "example.ckd")
    tracks = native.objects("list", "example.ckd")[1:]
    capacity, wrong, seen = 7294, [], 0
    colours = [browser.colour_of(f"set-{at}") for at in range(8)]
    sheet = browser.colour_of("sheet")
    found = {
        it["cylinder"] * HEADS + it["head"] for it in native.objects("check", "--strict", "example.ckd") if it.get("severity") == "error"
    }
    for track in random.Random(7).sample(range(CYLINDERS * HEADS), 700):
        cylinder, head = divmod(track, HEADS)
        if any(abs(cylinder - it // HEADS) <= 2 and abs(head - it % HEADS) <= 2 for it in found) or 4 <= head <= 15 or of.get(track, 0) > 7:
            continue
        used = tracks[track].get("used", 0)
        depth = (0.42 + 0.58 * used / capacity) if used else 0.2
        if track in of:
            wanted = tuple(round(a * depth + b * (1 - depth)) for a, b in zip(colours[of[track]], sheet))
            seen += 1
            at = browser.colour_at(*place(browser, cylinder, head))
            if apart((wanted[0], wanted[1], wanted[2]), at) > 6:
                wrong.append((cylinder, head, wanted, at))
    checks.that(f"{seen} tracks by chance have the colour of their data set, as deep as they are full", seen > 100 and not wrong, wrong)


def check_findings(browser: Browser, native: Native, checks: Checks) -> None:
    """Each error of the strict check is drawn at its track, in the colour of alarms, and listed."""
    errors = [it for it in native.objects("check", "--strict", "example.ckd") if it.get("severity") == "error"]
    alarm = browser.colour_of("alarm")
    for it in errors:
        x, y = place(browser, it["cylinder"], it["head"])
        near = [browser.colour_at(x + dx, y + dy) for dx, dy in [(0, -4), (4, 0), (0, 4), (-4, 0)]]
        drawn = any(apart(at, alarm) < 12 for at in near)
        checks.that(f"the finding '{it['text']}' is drawn at cylinder {it['cylinder']}, head {it['head']}", drawn, near)
    quiet = browser.colour_at(*place(browser, 150, 10))
    checks.that("a track without one is not in that colour", apart(quiet, alarm) > 40, quiet)
    listed = browser.texts("#findings li")
    checks.that(
        "they are listed with their texts",
        len(listed) == len(errors) and all(any(it["text"] in line for line in listed) for it in errors),
        listed,
    )
    browser.click("#findings li:nth-child(2) button")
    checks.that(
        "and a finding leads to its track",
        browser.until("document.getElementById('track-title').textContent === 'Cylinder 72, head 3'"),
        browser.text("#track-title"),
    )


def check_pointer(browser: Browser, native: Native, checks: Checks) -> None:
    """A track under the pointer is told in words; a press shows its records, a record its bytes."""
    browser.point(*place(browser, 45, 7))
    browser.until("document.getElementById('told').textContent.startsWith('Cylinder 45')", 10)
    told = browser.text("#told")
    checks.that(
        "a track under the pointer is told in words",
        told.startswith("Cylinder 45, head 7") and "PAYROLL.MASTER" in told and "record past end at" in told,
        told,
    )
    browser.press_at(*place(browser, 36, 2))
    browser.until("document.getElementById('track-title').textContent === 'Cylinder 36, head 2'", 10)
    listed = [it for it in native.objects("list", "--cylinder", "36", "example.ckd") if it.get("head") == 2][0]
    rows = browser.texts("#records tbody tr")[1:]
    wanted = [f"R{at}{it['identifier']}{it['key_length']}{it['data_length']}" for at, it in enumerate(listed["records"])]
    checks.same("a press shows its records", rows, wanted)
    browser.click("#records tbody tr:nth-child(3) button")
    browser.until("document.getElementById('bytes-title').textContent.startsWith('Record')", 20)
    checks.same(
        "a record shows its bytes, as dasd dump prints them", browser.text("#bytes pre"), native.text("dump", "./example.ckd", 36, 2, 1)
    )
    browser.click("#records tbody tr:nth-child(3) button")
    browser.until("document.getElementById('bytes-title').textContent.startsWith('Cylinder')", 20)
    checks.same("and the track again, all of its", browser.text("#bytes pre"), native.text("dump", "./example.ckd", 36, 2))


def check_lights(browser: Browser, native: Native, checks: Checks) -> None:
    """The extents of a data set light up, and the tracks of a member."""
    sets, of = owners(native, "example.ckd")
    at = next(i for i, it in enumerate(sets) if it["name"] == "PAYROLL.TRANS")
    browser.ask("[...document.querySelectorAll('.set-name button.plain')].find(it => it.textContent === 'PAYROLL.TRANS').click()")
    browser.until("document.getElementById('bytes-title').textContent === 'PAYROLL.TRANS'")
    lit = browser.ask("[...page.view.picture.lit]")
    checks.same("the extents of a data set light up", sorted(lit), sorted(track for track, owner in of.items() if owner == at))
    dim, sheet = browser.colour_at(*place(browser, 20, 2)), browser.colour_of("sheet")
    checks.that("and all others fade", apart(dim, sheet) < 60, (dim, sheet))
    text = native.text("extract", "example.ckd", "PAYROLL.TRANS", "--text").splitlines()
    shown = [
        line.split("  ", 1)[1] if "  " in line else line for line in (it.lstrip() for it in browser.text("#bytes pre").splitlines()[:400])
    ]
    checks.same("its text is shown", [it.strip() for it in shown], [it.strip() for it in text[:400]])
    browser.ask("[...document.querySelectorAll('.set-name button.plain')].find(it => it.textContent === 'PAYROLL.TRANS').click()")
    checks.that("and a second press lights nothing", browser.until("page.view.picture.lit === null", 20))


def check_members(browser: Browser, native: Native, checks: Checks, downloads: pathlib.Path) -> None:
    """Members of libraries with their sizes and text, and the tracks that they stand on."""
    browser.ask("[...document.querySelectorAll('.turn')].find(it => it.getAttribute('aria-label') === 'Members of SYS1.MACLIB').click()")
    browser.until("document.querySelectorAll('#contents .member').length > 5")
    unloaded = downloads / "native"
    unloaded.mkdir(exist_ok=True)
    made = [it for it in native.objects("extract", "--all", unloaded, "example.ckd") if it.get("name", "").startswith("SYS1.MACLIB(")]
    wanted = [f"{it['name'][12:-1]}{it['bytes']:,} bytes" for it in made]
    checks.same(f"the {len(wanted)} members of a library, with their sizes", browser.texts("#contents .member"), wanted)
    name = made[7]["name"]
    browser.ask("[...document.querySelectorAll('.member button')].find(it => it.textContent === arguments[0]).click()", name[12:-1])
    browser.until("document.getElementById('bytes-title').textContent === arguments[0]".replace("arguments[0]", repr(name)))
    lit = sorted(browser.ask("[...page.view.picture.lit]"))
    stands = b"".join(
        bytes.fromhex(it["data"])
        for track in lit
        for it in native.objects("dump", "./example.ckd", *divmod(track, HEADS))
        if it.get("data") and not it["identifier"].endswith("00")
    )
    member = (unloaded / name).read_bytes()
    checks.that(
        f"a member's tracks light up: its {len(member)} bytes stand on these {len(lit)}",
        member in stands and len(lit) <= len(member) // 4000 + 2,
        (lit, len(member)),
    )
    browser.ask("[...document.querySelectorAll('#bytes-actions button')].find(it => it.textContent === 'as it stands').click()")
    checks.same("a member is taken out by a press", fetched(downloads / name), member)


def fetched(path: pathlib.Path) -> bytes:
    """A file that the page saves, once it is there."""
    for _ in range(600):
        if path.is_file() and path.stat().st_size and not path.with_suffix(path.suffix + ".crdownload").exists():
            return path.read_bytes()
        time.sleep(0.05)
    return b""


def check_contents(browser: Browser, native: Native, checks: Checks) -> None:
    """The table of contents is the program's; names and texts are found."""
    sets, _ = owners(native, "example.ckd")
    rows = browser.ask("[...document.querySelectorAll('#contents tbody tr')].map(it => [...it.cells].map(cell => cell.textContent))")
    wanted = [
        [
            it["name"],
            it["organisation"],
            it["format"],
            str(it["record_length"]),
            str(it["block_length"]),
            f"{it['used']:,} of {it['tracks']:,}",
        ]
        for it in sets
    ]
    checks.same("the table of contents", [[row[0].lstrip("▸▾"), *row[1:]] for row in rows], wanted)
    browser.find("#find").send_keys("ledger")
    browser.until("document.querySelectorAll('#contents tbody tr').length === 2", 10)
    checks.same(
        "a name is found as it is typed",
        [it.lstrip("▸▾").split("P")[0] for it in browser.texts("#contents tbody tr")],
        ["LEDGER.D74", "LEDGER.D75"],
    )
    browser.find("#find").clear()
    browser.find("#find").send_keys("000090 KLEIN")
    browser.click("#find-text")
    found = browser.until("document.querySelectorAll('#contents .hit').length > 0")
    checks.that(
        "a text is found in data sets and members",
        found and "PAYROLL.MASTER, line " in browser.text("#contents .hit button"),
        browser.texts("#contents .hit")[:3],
    )
    browser.find("#find").clear()
    browser.find("#find").send_keys("data set PAYROLL.MASTER\n")  # a text is looked for where it is sent
    none = browser.until("document.querySelector('#contents p')?.textContent.startsWith('No line has')")
    checks.that("and not in what is said of them", none, browser.texts("#contents .hit")[:3])
    browser.click("#find-text")
    browser.find("#find").clear()
    browser.ask("(page.view.contents.field.value = '', page.view.contents.draw())")


def check_archive(browser: Browser, checks: Checks, downloads: pathlib.Path) -> None:
    """All data sets and members as a tar, each as dasd extract takes it out."""
    folder = downloads / "native"
    browser.click("#take-all")
    path = downloads / "SIX001.tar"
    fetched(path)
    with tarfile.open(path) as tar:
        inside = {it.name: tar.extractfile(it).read() for it in tar.getmembers() if it.isfile()}  # type: ignore[union-attr]
    wanted = {it.name: it.read_bytes() for it in folder.iterdir()}
    checks.same(f"a tar of all {len(wanted)} data sets and members: their names", sorted(inside), sorted(wanted))
    checks.that("and their bytes", all(inside.get(name) == data for name, data in wanted.items()))


def check_large(browser: Browser, native: Native, checks: Checks) -> None:
    """A volume of 800 cylinders is drawn at once; the page's own thread never waits for it."""
    native.run("format", "large.ckd", "--model", "2314", "--cylinders", "800")
    browser.open()
    browser.ask(
        "(globalThis.longest = 0, globalThis.last = performance.now(), globalThis.ticks = setInterval(() => { const now ="
        " performance.now(); longest = Math.max(longest, now - last); last = now; }, 10), 0)"
    )
    start = time.monotonic()
    browser.take(native.folder / "large.ckd")
    shown = browser.until("page.drives.shown?.volume.cylinders === 800 && page.view.picture.volume === page.drives.shown.volume")
    took, longest = time.monotonic() - start, browser.ask("longest")
    checks.that(
        f"800 cylinders, 122,880,512 bytes, are shown in {took:.1f} s; the page's thread stood still for {longest:.0f} ms at most",
        shown and longest < 1500,
        longest,
    )
    layout = browser.ask("page.view.picture.layout")
    checks.that("in bands of which each cell can be seen", layout["cell"] >= 3 and layout["bands"] * layout["columns"] >= 800, layout)
    x, y = browser.ask("(p => [p.x + p.w / 2, p.y + p.h / 2])(page.view.picture.placeOf(799 * 20 + 19))")
    browser.point(x, y)
    checks.that(
        "the last track of the last band is told",
        browser.until("document.getElementById('told').textContent.startsWith('Cylinder 799, head 19')", 10),
        browser.text("#told"),
    )
