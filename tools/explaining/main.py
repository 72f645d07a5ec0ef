"""The command line of `tools/explain`."""

from __future__ import annotations

import argparse
import sys
import time
from collections import Counter
from collections.abc import Callable, Iterator
from typing import NoReturn

from model.answers import Entry, Report
from model.check import first_wrong_line
from model.reader import Refusal, read_scenario
from model.report import end_lines
from model.scenario import PAGE, Scenario

from .answers import explain_entry, is_done
from .endings import explain_end
from .header import cut, explain_header
from .history import History
from .journal import actor_of, explain_wrong_line, lines_of, shown
from .refusals import explain_refusal, twice_reasons
from .source import Source
from .words import count, did_you_mean, labelled, listed, visible

MAX_INPUT = 16_777_216
MOST_BLOCKS = 20
MANY_LINES = 10_000
LEAST_ADDRESS = 0x1000000
HELP = """Says in words what happened in a run: the place of each entry in the scenario, what its answer means,
what it is due to, and what to do. Without a journal, the model's replay of the scenario is explained. A journal
is first judged by the model's check. A scenario that is refused is explained with its line and a caret.

Without options, the entries are shown that were reported, refused or had to wait, and then the end: what is
still loaded, allocated or lent, and which syncs are missing.

What is shown is the reading of model/, an independent model in Python. It is not proved.

status: 0 explained, 1 the journal is not right, 64 wrong words, 65 the scenario is refused, 66 a file cannot be
read or has more than 16777216 bytes"""

Chooser = Callable[[History, Entry], bool]


class Failure(Exception):
    """An error that is printed in one line."""

    def __init__(self, status: int, text: str) -> None:
        super().__init__(text)
        self.status = status


class Words(argparse.ArgumentParser):
    """The words of the command line; a mistake is one line, with the status 64."""

    def error(self, message: str) -> NoReturn:
        raise Failure(64, f"{visible(message, 200)} (see --help)")


def parse(words: list[str]) -> argparse.Namespace:
    """Returns the options."""
    parser = Words("explain", description=HELP, formatter_class=argparse.RawDescriptionHelpFormatter)
    parser.add_argument("scenario", metavar="SCENARIO", help="a file with a scenario")
    parser.add_argument("journal", metavar="JOURNAL", nargs="?", help="a file with a journal of it, - for standard input")
    which = parser.add_mutually_exclusive_group()
    which.add_argument("--line", type=int, metavar="N", help="only line N of the journal, from 1, as `check` counts them")
    which.add_argument("--map", metavar="M", help="only the entries of map or memory M")
    which.add_argument("--reports", action="store_true", help="only the entries that are reports, all of them")
    which.add_argument("--all", action="store_true", help="every entry")
    parser.add_argument("--check", action="store_true", help="SCENARIO is the input of `check`: a header, a scenario and its journal")
    parser.add_argument("--driver", type=int, metavar="D", help="with --map: the map of driver D only")
    return parser.parse_args(words)


def read(name: str) -> bytes:
    """Returns the bytes of a file."""
    try:
        if name == "-":
            data = sys.stdin.buffer.read(MAX_INPUT + 1)
        else:
            with open(name, "rb") as file:
                data = file.read(MAX_INPUT + 1)
    except OSError as damage:
        raise Failure(66, f"{visible(name, 200)}: {damage.strerror or 'cannot be read'}") from damage
    except ValueError as damage:
        raise Failure(66, f"{visible(name, 200)}: no name of a file") from damage
    if len(data) > MAX_INPUT:
        raise Failure(66, f"{visible(name, 200)}: input is too long, the program takes {MAX_INPUT} bytes")
    return data


class Progress:
    """Says how far the work is, on a terminal only."""

    def __init__(self, total: int) -> None:
        self.total = total
        self.next = time.monotonic() + 1
        self.is_shown = False

    def at(self, number: int) -> None:
        """Says that so many entries are done."""
        if number % 256 == 0 and sys.stderr.isatty() and time.monotonic() > self.next:
            self.next = time.monotonic() + 0.2
            self.is_shown = True
            total = f" of {self.total}" if self.total else ""
            sys.stderr.write(f"\rexplain: entry {number}{total} ")
            sys.stderr.flush()

    def end(self) -> None:
        """Clears the line."""
        if self.is_shown:
            sys.stderr.write("\r\033[K")


def replayed(history: History) -> Iterator[Entry]:
    """Takes the steps of a replay, by the model's rounds."""
    for actor in history.world.scenario.order:
        entry = history.step(actor)
        if entry is not None:
            yield entry
    actors = history.world.actors()
    went_on = True
    while went_on:
        went_on = False
        for actor in actors:
            entry = history.step(actor)
            if entry is not None:
                went_on = True
                yield entry


def followed(history: History, lines: list[bytes], wrong: int | None) -> Iterator[Entry]:
    """Takes the steps of a journal, up to a line that is not right."""
    for line in lines[: len(lines) if wrong is None else wrong - 1]:
        entry = history.step(actor_of(line))
        if entry is None:
            return
        yield entry


def chooser(words: argparse.Namespace) -> Chooser:
    """Returns which entries are shown."""
    if words.line is not None:
        return lambda history, entry: entry.number == words.line - 1
    if words.map is not None:
        return lambda history, entry: history.map_of(entry) == words.map and words.driver in (None, int(entry.actor[1:]))
    if words.reports:
        return lambda history, entry: isinstance(entry.answer, Report)
    if words.all:
        return lambda history, entry: True
    return lambda history, entry: not is_done(entry)


class Blocks:
    """Shows the entries that are chosen, and counts those that are left out."""

    def __init__(self, words: argparse.Namespace, write: Callable[[str], object]) -> None:
        self.choose = chooser(words)
        self.is_default = words.line is None and words.map is None and not words.reports and not words.all
        self.write = write
        self.count = 0
        self.left_out: Counter[str] = Counter()

    def take(self, history: History, entry: Entry) -> None:
        """Shows an entry, if it is chosen."""
        if not self.choose(history, entry):
            return
        self.count += 1
        if self.is_default and self.count > MOST_BLOCKS:
            self.left_out[getattr(entry.answer, "name", entry.answer.text().split(" ")[0])] += 1
            return
        self.write("\n".join([*explain_entry(history, entry), "", ""]))

    def end(self) -> None:
        """Says what was left out."""
        if self.left_out:
            total = sum(self.left_out.values())
            names = listed([f"{number} {name}" for name, number in self.left_out.most_common()])
            self.write(f"{total} more such entries are left out ({names}): mend the first ones first. "
                       "--reports shows every report, --all every entry\n\n")


def explain(words: argparse.Namespace, write: Callable[[str], object]) -> int:
    """Explains a scenario, with its journal if there is one."""
    data = read(words.scenario)
    journal = read(words.journal) if words.journal is not None else None
    name = words.scenario
    if words.check:
        if journal is not None:
            raise Failure(64, "--check: the journal is in the same file as the scenario")
        parts = cut(data)
        if parts is None:
            write("\n".join(explain_header(words.scenario, data)) + "\n")
            return 65
        data, journal = parts
        name, words.journal = f"{words.scenario} after its header", "the journal"
    source = Source(name, data)
    try:
        scenario = read_scenario(data)
    except Refusal as refusal:
        write("\n".join(explain_refusal(source, refusal)) + "\n")
        return 65
    for note in twice_reasons(source):
        write("\n".join(labelled("note", note)) + "\n")
    for note in frames_like_addresses(scenario):
        write("\n".join(labelled("note", note)) + "\n")
    check_words(words, scenario)
    history = History(scenario, source)
    if journal is None:
        return explain_replay(words, history, write)
    return explain_journal(words, history, journal, write)


def frames_like_addresses(scenario: Scenario) -> list[str]:
    """Returns what to say of frames whose numbers are probably addresses."""
    return [
        f"frames[{place}] begins with frame {first:#x}, which is at address {first * PAGE:#x}. Frame numbers are address / 4096: "
        "did you give an address?"
        for place, (first, _) in enumerate(scenario.frames)
        if first >= LEAST_ADDRESS and first % PAGE == 0
    ]


def check_words(words: argparse.Namespace, scenario: Scenario) -> None:
    """Refuses options that name nothing in the scenario."""
    if words.driver is not None and not 0 <= words.driver < len(scenario.drivers):
        raise Failure(64, f"--driver {words.driver}: the scenario has {count(len(scenario.drivers), 'driver')}, numbered from 0")
    if words.map is None:
        return
    names = {getattr(step, "name") for driver in scenario.drivers for step in driver.script if step.word in ("map", "dmamem")}
    if words.map not in names:
        asked = "".join(f"; {each}" for each in did_you_mean(words.map, names))
        raise Failure(64, f"--map {visible(words.map)}: the scenario makes no such map or memory{asked}")


def explain_replay(words: argparse.Namespace, history: History, write: Callable[[str], object]) -> int:
    """Explains the model's replay."""
    blocks, progress = Blocks(words, write), Progress(0)
    for entry in replayed(history):
        blocks.take(history, entry)
        progress.at(entry.number)
    progress.end()
    finish(words, history, blocks, end_lines(history.world, history.entries), write)
    return 0


def explain_journal(words: argparse.Namespace, history: History, journal: bytes, write: Callable[[str], object]) -> int:
    """Explains a journal, up to its first line that is not right."""
    lines = lines_of(journal)
    if len(lines) > MANY_LINES and sys.stderr.isatty():
        sys.stderr.write(f"explain: the check judges {len(lines)} lines\n")
    wrong = first_wrong_line(history.world.scenario, journal)
    blocks, progress = Blocks(words, write), Progress(len(lines))
    for entry in followed(history, lines, wrong):
        blocks.take(history, entry)
        progress.at(entry.number)
    progress.end()
    if wrong is not None:
        blocks.end()
        write("\n".join(explain_wrong_line(history, lines, wrong, words.journal)) + "\n")
        return 1
    finish(words, history, blocks, [shown(line) + "\n" for line in lines[len(history.entries) :]], write)
    return 0


ZONE_LINES = {
    "total_bpages": "all pages of the zone", "free_bpages": "pages that no map holds and that are promised to nobody",
    "reserved_bpages": "pages promised to loads that wait, or whose callback is due",
    "active_bpages": "pages that maps hold, until their release",
    "total_bounced": "syncs that copied a byte between a buffer and a bounce page",
    "total_deferred": "loads that waited for pages and then got them",
    "lowaddr": "the zone's pages are at or below this address", "alignment": "the zone's pages have this alignment",
}


def finish(
    words: argparse.Namespace, history: History, blocks: Blocks, end: list[str], write: Callable[[str], object]
) -> None:
    """Shows what is after the entries: a line of the end, or the end in words."""
    blocks.end()
    if words.line is not None:
        place = words.line - 1 - len(history.entries)
        if words.line < 1 or place >= len(end):
            raise Failure(64, f"--line {words.line}: the journal has {len(history.entries) + len(end)} lines, from 1 on")
        if place >= 0:
            name = end[place].split(":")[0].rsplit(".", 1)[-1]
            write(end[place])
            if name in ZONE_LINES:
                write("\n".join(labelled("means", ZONE_LINES[name])) + "\n")
            else:
                write("\n".join(explain_end(history, True)[1:]) + "\n")
        return
    write("\n".join(explain_end(history, words.all)) + "\n")


def main(words: list[str]) -> int:
    """Runs the tool; every error is one line and a status."""
    sys.setrecursionlimit(10_000)
    try:
        return explain(parse(words), sys.stdout.write)
    except Failure as failure:
        sys.stdout.flush()
        sys.stderr.write(f"explain: {failure}\n")
        return failure.status
    except BrokenPipeError:
        sys.stderr.close()
        return 0
    except KeyboardInterrupt:
        return 130


