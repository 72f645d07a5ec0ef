"""A run that is followed step by step: what happened to each object, and since when each byte is as it is."""

from __future__ import annotations

from dataclasses import dataclass, field

from model.answers import Entry, InProgress, Loaded, PagesAdded, Refused, Report
from model.ranges import Runs
from model.scenario import Making, OnMap, Scenario, Step, Sync
from model.state import Driver, LoadState, Map, MapState
from model.world import World
from model.zones import Zone

from .source import Source

OPS = ("PREREAD", "PREWRITE", "POSTREAD", "POSTWRITE")
LOADS = ("load", "load_vector", "load_mbuf", "load_bio", "send", "resend", "callback")


@dataclass(frozen=True)
class Unknown:
    """Bytes of a driver that became unknown by an entry, and why."""

    bytes: Runs
    entry: Entry
    why: str


@dataclass
class LoadStory:
    """A load: its entry, its state, and what happened to it."""

    driver: int
    map: str
    entry: Entry
    state: LoadState
    syncs: list[tuple[Entry, Sync]] = field(default_factory=list)
    writes: int = 0
    first_access: Entry | None = None
    ended: Entry | None = None
    written: Runs = Runs()
    callback: Entry | None = None


@dataclass
class Warned:
    """A warning, with the entry that it is about."""

    entry: Entry
    text: str


class History:
    """A world, and what it has gone through."""

    def __init__(self, scenario: Scenario, source: Source) -> None:
        self.world = World(scenario)
        self.actors = set(self.world.actors())
        self.source = source
        self.steps = steps_by_path(scenario)
        self.entries: list[Entry] = []
        self.named: dict[tuple[int, str], list[Entry]] = {}
        self.stories: dict[tuple[int, str], list[LoadStory]] = {}
        self.tried: dict[tuple[int, str], Entry] = {}
        self.unknown: dict[int, list[Unknown]] = {}
        self.returns: dict[tuple[int, str], Entry] = {}
        self.grown: dict[int, list[Entry]] = {}
        self.warnings: list[Warned] = []
        self.reports = 0

    def step(self, actor: str) -> Entry | None:
        """Takes an actor's step, and notes what it did."""
        if actor not in self.actors or not self.world.can_step(actor):
            return None
        driver = self.driver(actor)
        asked = self.next_step(actor, driver)
        name = getattr(asked, "map", None) or (self.world.machine.callbacks[0].map if actor[0] == "c" else None)
        before = driver.maps.get(name) if name is not None else None
        load_before = before.load if before is not None else None
        is_loaded = before is not None and before.state is MapState.LOADED
        lent_before = (load_before.lent_to_read, load_before.lent_to_write) if load_before is not None else (Runs(), Runs())
        unknown_before = driver.unknown
        entry = self.world.step(actor)
        assert entry is not None
        self.entries.append(entry)
        self.reports += isinstance(entry.answer, Report)
        if driver.unknown is not unknown_before:
            self.note_unknown(driver, entry, driver.unknown - unknown_before)
        self.note(driver, entry, asked, load_before if is_loaded else None, lent_before)
        return entry

    def driver(self, actor: str) -> Driver:
        """Returns the driver of an actor."""
        return self.world.drivers[int(actor[1:])]

    def next_step(self, actor: str, driver: Driver) -> Step | None:
        """Returns the operation or item that an actor's next step does; a release and a callback have none."""
        if actor[0] == "d":
            return driver.transfers[0]
        if actor[0] == "c" or driver.returns:
            return None
        return driver.resend if driver.resend is not None else driver.plan.script[driver.script_place]

    def asked(self, entry: Entry) -> Step | None:
        """Returns the operation or item of an entry."""
        return self.steps.get(entry.path)

    def map_of(self, entry: Entry) -> str | None:
        """Returns the name of the map that an entry is about."""
        words = entry.done.split(" ")
        asked = self.asked(entry)
        if words[0] in ("release", "callback", "resend"):
            return words[1]
        if words[0] in ("map", "dmamem") and isinstance(asked, Making):
            return asked.name
        return getattr(asked, "map", None) or getattr(asked, "mem", None)

    def place(self, entry: Entry) -> str:
        """Returns the path and the place of an entry in the scenario."""
        if entry.path:
            return f"{entry.path}, {self.source.where(entry.path)}"
        cause = self.returns.get((int(entry.actor[1:]), entry.done.split(" ")[1]))
        return f"after entry {cause.number} ({cause.done}), {self.source.where(cause.path)}" if cause is not None else ""

    def since(self, entry: Entry) -> str:
        """Returns an entry as the place of something that it began."""
        return f"entry {entry.number} ({entry.actor} {entry.done}, {self.source.where(entry.path) if entry.path else 'no place'})"

    def map_in(self, driver: Driver, name: str) -> Map | None:
        """Returns a driver's map."""
        return driver.maps.get(name)

    # What is noted

    def note_unknown(self, driver: Driver, entry: Entry, added: Runs) -> None:
        """Notes the bytes that an entry made unknown."""
        if not added:
            return
        word = entry.done.split(" ")[0]
        why = {"unload": "unloaded while it was still lent to write", "dmamem": "the memory was made without ZERO"}
        self.unknown.setdefault(driver.number, []).append(Unknown(added, entry, why.get(word, "lent to write by PREREAD")))

    def note(
        self, driver: Driver, entry: Entry, asked: Step | None, load: LoadState | None, lent: tuple[Runs, Runs]
    ) -> None:
        """Notes what an entry did to the objects that it names."""
        word = entry.done.split(" ")[0]
        if word in ("tag", "iommu_tag", "map", "dmamem", "ring", "tag_destroy", "map_destroy", "dmamem_free"):
            self.named.setdefault((driver.number, entry.done.split(" ")[1]), []).append(entry)
            if isinstance(entry.answer, PagesAdded) and entry.answer.count:
                self.grown.setdefault(entry.answer.zone, []).append(entry)
        elif word in LOADS:
            self.note_load(driver, entry, entry.done.split(" ")[1])
        elif word == "unload" and load is not None:
            self.note_unload(driver, entry, load)
        elif isinstance(asked, Sync) and load is not None and not isinstance(entry.answer, Report):
            self.note_sync(driver, entry, asked, lent)
        elif word in ("dev_read", "dev_write") and load is not None:
            self.note_access(driver, entry, asked)
        elif word in ("dev_write_at", "ring_step") and not isinstance(entry.answer, (Report, Refused)):
            for stories in (its for key, its in self.stories.items() if key[0] == driver.number):
                stories[-1].writes += 1

    def note_load(self, driver: Driver, entry: Entry, name: str) -> None:
        """Notes a load, and what became of it."""
        key = driver.number, name
        self.tried[key] = entry
        map_ = driver.maps.get(name)
        if isinstance(entry.answer, Refused) and driver.returns:
            self.returns[key] = entry
        if not isinstance(entry.answer, (Loaded, InProgress)) or map_ is None or map_.load is None:
            return
        if entry.done.startswith("callback"):
            self.stories[key][-1].callback = entry
            return
        self.stories.setdefault(key, []).append(LoadStory(driver.number, name, entry, map_.load))

    def note_unload(self, driver: Driver, entry: Entry, load: LoadState) -> None:
        """Notes an unload, and warns if something was still lent or queued."""
        key = driver.number, entry.done.split(" ")[1]
        self.returns[key] = entry
        story = self.stories[key][-1]
        story.ended = entry
        for way, positions, post in (("read", load.lent_to_read, "POSTWRITE"), ("write", load.lent_to_write, "POSTREAD")):
            if positions:
                first = next((loan.entry for loan in load.loans if loan.way == f"to {way}"), entry.number)
                effect = "; these bytes are unknown now, and reading them is StaleByte" if way == "write" else ""
                self.warn(entry, f"{bytes_in_words(positions)} of {key[1]} were still lent to {way} at the unload, since entry "
                                 f"{first}: a sync with {post} is missing before it{effect}")
        queued = sum(isinstance(item, OnMap) and item.map == key[1] for item in driver.transfers)
        if queued:
            self.warn(entry, f"{queued} item(s) of {key[1]} were still queued at the unload, and each will be NotLoaded: "
                             f"`await` {key[1]} before it")

    def note_sync(self, driver: Driver, entry: Entry, asked: Sync, lent: tuple[Runs, Runs]) -> None:
        """Notes a sync, and warns of one that did nothing."""
        story = self.stories[driver.number, asked.map][-1]
        story.syncs.append((entry, asked))
        map_ = driver.maps[asked.map]
        if map_.is_coherent():
            return
        names = ops_in_words(asked)
        whole = Runs.span(asked.off, asked.len if asked.len is not None else story.state.length())
        if not names:
            self.warn(entry, "a sync without `ops` does nothing")
        if "POSTWRITE" in names and whole and not (lent[0] & whole):
            other = "; the bytes were lent to write: did you mean POSTREAD?" if lent[1] & whole and "POSTREAD" not in names else ""
            self.warn(entry, f"POSTWRITE of {asked.map} ended nothing: none of its bytes was lent to read (no PREWRITE){other}")
        if "POSTREAD" in names and not story.writes and whole:
            self.warn(entry, f"POSTREAD of {asked.map}, but the device wrote nothing since the load: bytes that PREREAD made "
                             "unknown are unknown still. Is it too early? Or does the device only read: then make PREWRITE and POSTWRITE")

    def note_access(self, driver: Driver, entry: Entry, asked: Step | None) -> None:
        """Notes an access of the device by a map."""
        assert asked is not None
        story = self.stories[driver.number, getattr(asked, "map")][-1]
        if entry.done.startswith("dev_write"):
            story.writes += 1
        if isinstance(entry.answer, Report):
            return
        story.first_access = story.first_access or entry
        if entry.done.startswith("dev_write"):
            story.written |= Runs.span(getattr(asked, "off"), getattr(asked, "len"))

    def warn(self, entry: Entry, text: str) -> None:
        """Adds a warning."""
        self.warnings.append(Warned(entry, text))

    # What is looked up

    def story(self, driver: Driver, name: str) -> LoadStory | None:
        """Returns the last load of a map."""
        stories = self.stories.get((driver.number, name))
        return stories[-1] if stories else None

    def unknown_since(self, driver: Driver, address: int) -> Unknown | None:
        """Returns what made a byte unknown last."""
        for each in reversed(self.unknown.get(driver.number, [])):
            if each.bytes.within(address, address + 1):
                return each
        return None

    def holders(self, zone: Zone) -> list[str]:
        """Returns who holds pages of a zone, or is promised some."""
        found: list[str] = []
        for driver in self.world.drivers:
            returning: dict[str, int] = {}
            for name, _ in driver.returns:
                returning[name] = returning.get(name, 0) + 1
            for map_ in driver.maps.values():
                held = len(map_.load.pages) if map_.load is not None else 0
                if map_.zone == zone.number and held:
                    since = self.stories[driver.number, map_.name][-1].entry
                    found.append(f"{held} held by map {map_.name} of driver {driver.number}, loaded by {self.since(since)}")
                if map_.zone == zone.number and map_.name in returning:
                    found.append(f"{returning[map_.name]} on their way back from map {map_.name} of driver {driver.number}")
        for waiter in [*zone.waiting, *(each for each in self.world.machine.callbacks if each.zone == zone.number)]:
            if waiter.have:
                found.append(f"{waiter.have} promised to map {waiter.map} of driver {waiter.driver}, which waits for {waiter.need}")
        return found

    def first_lent(self, load: LoadState, position: int, way: str) -> Entry | None:
        """Returns the entry since which a position of a load is lent in a way."""
        for loan in load.loans:
            if loan.way == way and loan.positions.within(position, position + 1):
                return self.entries[loan.entry]
        return None

    def first_loan_of_byte(self, load: LoadState, address: int, way: str) -> Entry | None:
        """Returns the entry since which a byte is lent by a load in a way."""
        for extent in load.extents:
            if extent.address <= address < extent.address + extent.length:
                found = self.first_lent(load, extent.position + address - extent.address, way)
                if found is not None:
                    return found
        return None


def steps_by_path(scenario: Scenario) -> dict[str, Step]:
    """Returns the operations and items of a scenario by their paths."""
    found: dict[str, Step] = {}
    for driver in scenario.drivers:
        for step in driver.script:
            found[step.path] = step
            for item in getattr(step, "then", ()):
                found[item.path] = item
    return found


def ops_in_words(asked: Sync) -> list[str]:
    """Returns the names of the operations of a sync."""
    return [op for op in OPS if op in asked.ops]


def is_mixed(asked: Sync) -> bool:
    """Returns whether a sync has a PRE and a POST operation."""
    return len({op.startswith("PRE") for op in asked.ops}) == 2


def bytes_in_words(positions: Runs) -> str:
    """Returns how many bytes, and at which positions."""
    total = positions.count()
    pairs = [f"{begin} to {end - 1}" if end - begin > 1 else str(begin) for begin, end in list(positions)[:3]]
    more = ", ..." if len(positions.pairs) > 3 else ""
    return f"{total} byte{'' if total == 1 else 's'} (positions {', '.join(pairs)}{more})" if total > 1 else f"1 byte (position {pairs[0]})"
