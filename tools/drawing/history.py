"""What happened in a run: the bars of maps, what they lent, who called whom back, and the pages of zones.

The steps are the model's, either those of a replay or those that a journal names. A journal is judged as it is followed,
line by line and by the rules of the model's check, so that nothing is drawn of a journal that is wrong.
"""

from __future__ import annotations

from collections.abc import Iterator
from dataclasses import dataclass, field

from model.answers import Entry, InProgress, Loaded, PagesAdded, Report
from model.report import end_lines, end_word
from model.scenario import Scenario, Step
from model.state import Driver, Map, MapState
from model.world import World, replay

from .inputs import NOT_RIGHT, Progress, Stop

LOADED, WAITING, RETURNING = MapState.LOADED.value, MapState.WAITING.value, MapState.RETURNING.value


@dataclass
class Bar:
    """What a map was doing from one entry to another: loaded, waiting, or returning its pages."""

    driver: int
    map: str
    kind: str
    begin: int
    end: int | None = None
    length: int = 0
    text: str = ""
    lent: list[tuple[int, int, int]] = field(default_factory=list)

    def last(self, entries: int) -> float:
        """Returns where the bar ends: in the middle of its last entry, or at the end of the run."""
        return self.end + 0.5 if self.end is not None else float(entries)


@dataclass(frozen=True)
class CalledBack:
    """A load that waited: the release that gave it its last page, and its callback."""

    release: int
    by: int
    callback: int
    driver: int
    map: str


@dataclass(frozen=True)
class Counts:
    """The pages of a zone after an entry."""

    entry: int
    total: int
    free: int
    reserved: int
    active: int


@dataclass
class ZoneHistory:
    """A zone, and its pages after each entry that changed them."""

    number: int
    lowaddr: int
    alignment: int
    counts: list[Counts] = field(default_factory=list)


@dataclass
class History:
    """A run from its begin to its end."""

    scenario: Scenario
    entries: list[Entry] = field(default_factory=list)
    bars: list[Bar] = field(default_factory=list)
    called_back: list[CalledBack] = field(default_factory=list)
    zones: list[ZoneHistory] = field(default_factory=list)
    end_lines: list[str] = field(default_factory=list)
    end: str = "finished"
    stuck: dict[int, Step] = field(default_factory=dict)

    def reports(self) -> list[Entry]:
        """Returns the entries whose answer is a report."""
        return [entry for entry in self.entries if isinstance(entry.answer, Report)]


class WrongLine(Exception):
    """A line of a journal, counted from 1, that no run prints there."""

    def __init__(self, number: int) -> None:
        super().__init__(number)
        self.number = number


def follow(world: World, journal: bytes) -> Iterator[Entry]:
    """Takes the steps that a journal names and yields them, or raises `WrongLine` at the first wrong line."""
    lines = cut(journal)
    actors = {actor.encode(): actor for actor in world.actors()}
    entries: list[Entry] = []
    place = 0
    while place < len(lines):
        words = lines[place].split(b" ", 2)
        entry = world.step(actors[words[1]]) if len(words) > 1 and words[1] in actors else None
        if entry is None:
            break
        if entry.line().encode() != lines[place]:
            raise WrongLine(place + 1)
        entries.append(entry)
        yield entry
        place += 1
    if any(world.can_step(actor) for actor in actors.values()):
        raise WrongLine(place + 1)
    for line in end_lines(world, entries):
        if place == len(lines) or lines[place] != line.encode():
            raise WrongLine(place + 1)
        place += 1
    if place < len(lines):
        raise WrongLine(place + 1)


def cut(journal: bytes) -> list[bytes]:
    """Returns the lines of a journal, cut after line feeds only."""
    lines = [line + b"\n" for line in journal.split(b"\n")]
    lines[-1] = lines[-1][:-1]
    return lines if lines[-1] else lines[:-1]


class Recorder:
    """Writes a history down, entry by entry."""

    def __init__(self, world: World) -> None:
        self.world = world
        self.history = History(world.scenario)
        self.open: dict[tuple[int, str], Bar] = {}
        self.made_ready: dict[tuple[int, str], tuple[int, int]] = {}

    def take(self, entry: Entry) -> None:
        """Takes an entry, whose step the world has just made."""
        self.history.entries.append(entry)
        driver = self.world.drivers[int(entry.actor[1:])]
        word, _, rest = entry.done.partition(" ")
        name = rest.partition(" ")[0]
        map_ = driver.maps.get(name) if word not in ("tag", "iommu_tag", "ring_post", "kick", "ring_step") else None
        if map_ is not None:
            self.take_map(driver, map_, entry)
        if word == "callback":
            release = self.made_ready.pop((driver.number, name), None)
            if release is not None:
                self.history.called_back.append(CalledBack(*release, entry.number, driver.number, name))
        ready = int(entry.answer.text().rpartition(" ")[2]) if word == "release" else 0
        if ready:
            for waiter in self.world.machine.callbacks[-ready:]:
                self.made_ready[waiter.driver, waiter.map] = entry.number, driver.number
        if isinstance(entry.answer, PagesAdded):
            self.take_zone(entry.answer.zone, entry)
        elif map_ is not None and map_.zone is not None:
            self.take_zone(map_.zone, entry)

    def take_map(self, driver: Driver, map_: Map, entry: Entry) -> None:
        """Ends the bar of a map whose state has changed, and begins another; notes what the map lends."""
        key = driver.number, map_.name
        bar = self.open.get(key)
        kind = map_.state.value
        if bar is not None and bar.kind != kind:
            bar.end = entry.number
            del self.open[key]
            bar = None
        if bar is None and map_.state is not MapState.IDLE:
            length = map_.load.length() if map_.load is not None else 0
            bar = Bar(driver.number, map_.name, kind, entry.number, None, length, text_of(entry))
            self.open[key] = bar
            self.history.bars.append(bar)
        if bar is not None and map_.state is MapState.LOADED and map_.load is not None:
            lent = map_.load.lent_to_read.count(), map_.load.lent_to_write.count()
            if lent != (bar.lent[-1][1:] if bar.lent else (0, 0)):
                bar.lent.append((entry.number, *lent))

    def take_zone(self, number: int, entry: Entry) -> None:
        """Notes the pages of a zone if they have changed."""
        while len(self.history.zones) < len(self.world.machine.zones):
            made = self.world.machine.zones[len(self.history.zones)]
            self.history.zones.append(ZoneHistory(made.number, made.lowaddr, made.alignment))
        zone, known = self.world.machine.zones[number], self.history.zones[number].counts
        counts = Counts(entry.number, zone.total(), zone.free(), zone.reserved, zone.active)
        if not known or (known[-1].total, known[-1].free, known[-1].reserved) != (
            counts.total, counts.free, counts.reserved
        ):
            known.append(counts)

    def close(self) -> History:
        """Returns the history of a run that has ended."""
        self.history.end_lines = [line.rstrip("\n") for line in end_lines(self.world, self.history.entries)]
        self.history.end = end_word(self.world)
        self.history.stuck = {
            driver.number: driver.plan.script[driver.script_place]
            for driver in self.world.drivers
            if driver.script_place < len(driver.plan.script)
        }
        return self.history


def text_of(entry: Entry) -> str:
    """Returns the answer of a load in a few words."""
    match entry.answer:
        case InProgress():
            return f"{entry.answer.have} of {entry.answer.need} pages"
        case Loaded() if len(entry.answer.segments) > 4:
            return f"{len(entry.answer.segments)} segments"
        case Loaded():
            return " ".join(segment.text() for segment in entry.answer.segments)
    return entry.answer.text()


def history_of(scenario: Scenario, journal: bytes | None, tool: str, journal_name: str = "the journal") -> History:
    """Returns the history of a replay, or of a journal if one is given and is right."""
    recorder = Recorder(World(scenario))
    of = journal.count(b"\n") if journal is not None else None
    progress = Progress(tool, "entries", of)
    steps = follow(recorder.world, journal) if journal is not None else replay(recorder.world)
    try:
        for entry in steps:
            recorder.take(entry)
            progress.at(entry.number)
    except WrongLine as wrong:
        raise Stop(
            NOT_RIGHT, f"{journal_name}: line {wrong.number} is not what a run prints there (`tools/explain` says more)"
        ) from wrong
    finally:
        progress.end()
    return recorder.close()
