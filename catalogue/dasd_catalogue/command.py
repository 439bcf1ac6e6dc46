"""The command `dasd-catalogue`."""

from __future__ import annotations

import argparse
import io
import json
import os
import signal
import sqlite3
import sys
from collections.abc import Callable, Iterable

from . import __version__, queries
from .database import BadCatalogue, open_to_read
from .engines import BadEngine, engine_for
from .names import Places, clean, quantity
from .pack_page import BadPage, page_at
from .program import NoProgram, Object, Way, find_program
from .report import write_report
from .scan import Wanted, scan
from .serving import BadAddress, serve
from .taking import Taking, take

DATABASE = "catalogue.db"
KIND_WORDS = {"volumes": "volume", "data-sets": "data set", "members": "member"}
PORT = 8370
Words = argparse.Namespace


def main() -> int:
    """Runs the command; 0, or 1 where something was found or went wrong, as each command says, or 2 for bad words."""
    signal.signal(signal.SIGTERM, lambda *_: sys.exit(1))
    if isinstance(sys.stdout, io.TextIOWrapper):
        sys.stdout.reconfigure(encoding="utf-8", errors="replace")
    words = parser().parse_args()
    try:
        run: Callable[[Words], int] = words.run
        status = run(words)
        sys.stdout.flush()
        return status
    except (BadCatalogue, BadEngine, NoProgram, BadAddress, BadPage, sqlite3.Error, OSError) as fault:
        if isinstance(fault, BrokenPipeError):
            os.dup2(os.open(os.devnull, os.O_WRONLY), sys.stdout.fileno())
            return 1
        print(f"dasd-catalogue: {clean(str(fault))}", file=sys.stderr)
        return 1
    except KeyboardInterrupt:
        print("dasd-catalogue: ended; the next scan goes on from here", file=sys.stderr)
        return 130


def parser() -> argparse.ArgumentParser:
    """The words of the command."""
    words = argparse.ArgumentParser(prog="dasd-catalogue", description="A catalogue of an archive of packs.")
    words.add_argument("--version", action="version", version=f"dasd-catalogue {__version__}")
    commands = words.add_subparsers(title="commands", metavar="COMMAND", required=True)
    base = argparse.ArgumentParser(add_help=False)
    base.add_argument("--database", "-d", default=DATABASE, metavar="FILE", help=f"the catalogue; {DATABASE} where it is not named")
    asked = argparse.ArgumentParser(add_help=False, parents=[base])
    asked.add_argument("--json", action="store_true", help="prints one object of JSON a line")
    program = program_words()
    add_scan(commands, [base, program])
    add_questions(commands, asked, program)
    add_pages(commands, base)
    return words


def positive(text: str) -> int:
    """A number above 0."""
    number = int(text)
    if number <= 0:
        raise ValueError(text)
    return number


def program_words() -> argparse.ArgumentParser:
    """The words of the commands that run `dasd`: which, where, and within what limits."""
    words = argparse.ArgumentParser(add_help=False)
    words.add_argument("--dasd", default="", metavar="FILE", help="the program dasd, if not that of DASD_PROGRAM or of the path")
    words.add_argument("--scratch", default="", metavar="DIR", help="a folder for what is unloaded, if not memory or the system's")
    words.add_argument("--patience", type=float, default=Way.patience, metavar="SECONDS", help="how long one command of dasd may take; 120")
    words.add_argument("--memory", type=positive, default=Way.memory, metavar="BYTES", help="how much memory it may have; 1 GiB")
    more = "how much longer a file that it writes may be than three times the pack; 16 MiB"
    words.add_argument("--spare", type=positive, default=Way.spare, metavar="BYTES", help=more)
    words.add_argument("--largest", type=positive, default=Way.most, metavar="BYTES", help="how much a packed file may hold; 16 GiB")
    return words


def way_of(words: Words) -> Way:
    """How these words have volumes asked."""
    scratch = os.path.abspath(words.scratch) if words.scratch else ""
    return Way(find_program(words.dasd), words.patience, words.largest, scratch, words.memory, words.spare)


def add_scan(commands: argparse._SubParsersAction[argparse.ArgumentParser], parents: list[argparse.ArgumentParser]) -> None:
    """The words of `scan`."""
    it = commands.add_parser("scan", parents=parents, help="asks the packs of folders, and keeps what they answer")
    it.add_argument("paths", nargs="*", metavar="PATH", help="folders and files; without any, those of earlier scans")
    how = it.add_mutually_exclusive_group()
    how.add_argument("--processes", type=int, default=0, metavar="N", help="so many processes; as many as there are processors where it is not named")
    how.add_argument("--scheduler", default="", metavar="ADDRESS", help="the workers of this Dask scheduler, which see the same files")
    it.add_argument("--again", action="store_true", help="asks all, also what has not changed")
    it.add_argument("--quiet", action="store_true", help="tells nothing of how far it is")
    it.set_defaults(run=run_scan)


def add_questions(
    commands: argparse._SubParsersAction[argparse.ArgumentParser], asked: argparse.ArgumentParser, program: argparse.ArgumentParser
) -> None:
    """The words of the commands that ask the catalogue."""
    it = commands.add_parser("find", parents=[asked], help="where a volume, a data set or a member of a name is")
    it.add_argument("name", metavar="NAME", help="as PAYROLL, 'SYS1.*', OPEN or 'SYS1.MACLIB(OPEN)'; * and ? stand for others")
    it.set_defaults(run=run_find)
    it = commands.add_parser("broken", parents=[asked], help="which files could not be read, and which packs have errors")
    it.add_argument("--warnings", action="store_true", help="warnings too")
    it.set_defaults(run=run_broken)
    it = commands.add_parser("copies", parents=[asked], help="which volumes, data sets and members say the same")
    it.add_argument("kinds", nargs="*", choices=[*KIND_WORDS, []], metavar="KIND", help=f"{', '.join(KIND_WORDS)}; all where none is named")
    it.add_argument("--other-names", action="store_true", help="those alone that stand under more than one name")
    it.add_argument("--most", type=int, default=-1, metavar="N", help="so many groups of each kind; all where it is not named")
    it.set_defaults(run=run_copies)
    it = commands.add_parser("text", parents=[asked], help="in which data sets and members words stand")
    it.add_argument("words", nargs="+", metavar="WORD", help="words that must all be there; one that ends with * begins so")
    it.add_argument("--most", type=int, default=-1, metavar="N", help="so many different texts; all where it is not named")
    it.set_defaults(run=run_text)
    it = commands.add_parser("extract", parents=[asked, program], help="takes what is found out of the packs")
    it.add_argument("names", nargs="+", metavar="NAME", help="names as for find; with --words words as for text")
    it.add_argument("--to", required=True, metavar="DIR", help="the folder for it; made if need be")
    it.add_argument("--words", action="store_true", help="takes that in which all of these words stand")
    it.add_argument("--text", action="store_true", help="as lines of text")
    it.set_defaults(run=run_extract)


def add_pages(commands: argparse._SubParsersAction[argparse.ArgumentParser], base: argparse.ArgumentParser) -> None:
    """The words of the commands that show the catalogue in a browser."""
    paged = argparse.ArgumentParser(add_help=False, parents=[base])
    paged.add_argument("--page", default="", metavar="FILE", help="the page that shows packs, where it is not found")
    it = commands.add_parser("serve", parents=[paged], help="shows the catalogue in a browser, and opens packs there")
    it.add_argument("--port", type=int, default=PORT, metavar="N", help=f"{PORT} where it is not named; 0 is any that is free")
    it.add_argument("--address", default="127.0.0.1", metavar="A", help="an address of this machine; its own, the loopback, where it is not named")
    it.set_defaults(run=run_serve)
    it = commands.add_parser("report", parents=[paged], help="writes the same pages as files")
    it.add_argument("--to", required=True, metavar="DIR", help="a folder that is not there yet")
    it.add_argument("--packs", action="store_true", help="writes for each pack of 512 MiB at most a page that has it inside and shows it")
    it.set_defaults(run=run_report)


def run_scan(words: Words) -> int:
    """`scan`: 0 where all that is there was asked, whatever came of it."""
    if words.processes < 0:
        raise BadEngine("--processes wants a number above 0")
    engine = engine_for(words.processes or os.cpu_count() or 1, words.scheduler)
    if words.scratch and not words.scheduler and not os.path.isdir(words.scratch):
        raise BadEngine(f"there is no folder {words.scratch}")
    paths = [os.fsencode(it) for it in words.paths]
    came = scan(Wanted(words.database, paths, engine, way_of(words), words.again, words.quiet))
    states = ", ".join(f"{count} {state}" for state, count in came.states.items())
    print(f"{came.known} names: {states}", flush=True)
    rate = came.asked / came.seconds if came.seconds else 0.0
    if not words.quiet:
        print(f"{came.asked} asked in {came.seconds:.1f} seconds, {rate:.1f} a second", file=sys.stderr)
    return 0


def told(found: Iterable[Object], words: Words, line: Callable[[Object], str]) -> int:
    """Prints what was found, as lines or as objects; how many."""
    count = 0
    for it in found:
        count += 1
        print(json.dumps(it) if words.json else line(it))
    return count


def run_find(words: Words) -> int:
    """`find`: 1 where nothing is found."""
    connection = open_to_read(words.database)
    return 0 if told(queries.find(connection, words.name), words, line_of_place) else 1


def line_of_place(it: Object) -> str:
    """What is at a place, for people."""
    if "data_set" not in it:
        more = f"{it['model']}, {quantity(it['cylinders'], 'cylinder')}, {quantity(it['errors'], 'error')}"
    else:
        size = "" if it["bytes"] is None else f", {quantity(it['bytes'], 'byte')}"
        more = f"{it['organisation']} {it['format']}{size}{'' if it['whole'] in (True, None) else ', not whole'}"
    return f"{it['path']}: {clean(queries.name_of(it))}: {more}"


def run_broken(words: Words) -> int:
    """`broken`: 1 where something is."""
    connection = open_to_read(words.database)
    return 1 if told(queries.broken(connection, words.warnings), words, line_of_fault) else 0


def line_of_fault(it: Object) -> str:
    """A fault or a finding, for people."""
    place = f" cylinder {it['cylinder']} head {it['head']}" if "cylinder" in it else ""
    place += f" file {it['part']}" if "part" in it else ""
    name = f" {clean(it['name'])}" if "name" in it else ""
    return f"{it['path']}: {it['severity']} ({it['source']}){place}{name}: {clean(it['text'])}"


def run_copies(words: Words) -> int:
    """`copies`: 1 where there are none."""
    connection = open_to_read(words.database)
    kinds = [KIND_WORDS[it] for it in words.kinds or KIND_WORDS]
    return 0 if told(queries.copies(connection, kinds, words.other_names, words.most), words, lines_of_copies) else 1


def lines_of_copies(it: Object) -> str:
    """A group of copies, for people."""
    places = [f"  {place['path']}: {clean(queries.name_of(place))}" for place in it["places"]]
    return "\n".join([f"{it['count']} times the same {it['kind']} of {quantity(it['bytes'], 'byte')}:", *places])


def run_text(words: Words) -> int:
    """`text`: 1 where nothing is found."""
    connection = open_to_read(words.database)
    return 0 if told(queries.text(connection, words.words, words.most), words, lines_of_text) else 1


def lines_of_text(it: Object) -> str:
    """A text in which words stand, for people."""
    lines = [f"  {line['number']:5} {clean(line['text'])}" for line in it["lines"]]
    return "\n".join([f"{it['path']}: {clean(queries.name_of(it))}", *lines])


def run_extract(words: Words) -> int:
    """`extract`: 1 where something could not be taken out, or nothing is found."""
    connection = open_to_read(words.database)
    if words.words:
        texts = queries.texts_with(connection, words.names)
        places = [place for number in texts for place in queries.places_of_text(connection, number)]
    else:
        places = [place for name in words.names for place in queries.places_of_name(connection, name)]
    taking = Taking(words.to, Places.beside(words.database), way_of(words), words.text)
    taken = list(take(connection, places, taking))
    told(taken, words, line_of_taken)
    return 0 if taken and all("file" in it for it in taken) else 1


def line_of_taken(it: Object) -> str:
    """What was taken out, for people."""
    what = f"{it['path']}: {clean(queries.name_of(it))}: "
    return what + clean(it["file"] if "file" in it else f"not taken: {it['fault']}")


def run_serve(words: Words) -> int:
    """`serve`, until it is ended. Without the page that shows packs nothing links to it."""
    try:
        page = page_at(words.page)
    except BadPage as fault:
        if words.page:
            raise
        page = None
        print(f"dasd-catalogue: packs are not opened: {fault}", file=sys.stderr)
    return serve(words.database, words.address, words.port, page)


def run_report(words: Words) -> int:
    """`report`: 1 where a pack is left out."""
    count, has_all = write_report(words.database, words.to, page_at(words.page) if words.packs else None)
    print(f"{count} pages")
    return 0 if has_all else 1
