"""What a run has made so far: the machine, and each driver's maps, loads, memories, rings and queues."""

from __future__ import annotations

from collections import deque
from dataclasses import dataclass, field
from enum import Enum
from typing import TypeVar

from .answers import Report, StepEnds
from .machine import Bank, PhysicalBytes
from .ranges import Runs
from .scenario import PAGE, DriverPlan, Fixed, Load, Scenario, Step
from .segments import Chunk, Extent, Segment, bytes_at
from .tags import Tag
from .zones import Waiter, Zone

MEMORIES_BEGIN = 0xFFFFF80000000000
Thing = TypeVar("Thing")


class MapState(Enum):
    """What a map is doing."""
    IDLE = "idle"
    WAITING = "waiting"
    LOADED = "loaded"
    RETURNING = "returning"


@dataclass(frozen=True)
class Loan(Fixed):
    """Positions that were lent by one entry, and are lent still."""
    way: str
    entry: int
    positions: Runs


@dataclass
class LoadState:
    """The load of a map: its bytes, how they were cut, what it holds, and what it lends to the device."""
    path: str
    then: tuple[Step, ...]
    extents: list[Extent]
    chunks: list[Chunk]
    pages: list[int] = field(default_factory=list)
    device_pages: tuple[int, int] | None = None
    segments: list[Segment] = field(default_factory=list)
    lent_to_read: Runs = Runs()
    lent_to_write: Runs = Runs()
    bytes_lent_to_read: Runs = Runs()
    bytes_lent_to_write: Runs = Runs()
    loans: list[Loan] = field(default_factory=list)

    def length(self) -> int:
        """Returns how many bytes are loaded."""
        return sum(extent.length for extent in self.extents)

    def need(self) -> int:
        """Returns how many bounce pages the load needs."""
        return sum(chunk.bounces for chunk in self.chunks)

    def bounced_positions(self) -> Runs:
        """Returns the positions whose bytes lie in bounce pages."""
        return Runs.of(
            (chunk.position, chunk.position + chunk.length) for chunk in self.chunks if chunk.bounces
        )

    def stand_twice(self) -> Runs:
        """Returns the bytes that stand at more than one position."""
        return Runs.standing_twice((extent.address, extent.address + extent.length) for extent in self.extents)

    def lend(self, to_read: Runs, to_write: Runs, entry: int) -> None:
        """Lends exactly these positions to the device, from this entry on where they were not lent before."""
        fresh = [Loan("to read", entry, to_read - self.lent_to_read)]
        fresh.append(Loan("to write", entry, to_write - self.lent_to_write))
        self.lent_to_read, self.bytes_lent_to_read = to_read, bytes_at(self.extents, to_read)
        self.lent_to_write, self.bytes_lent_to_write = to_write, bytes_at(self.extents, to_write)
        kept = [
            Loan(loan.way, loan.entry, loan.positions & (to_read if loan.way == "to read" else to_write))
            for loan in (*self.loans, *fresh)
        ]
        self.loans = [loan for loan in kept if loan.positions]


@dataclass
class MemoryBlock:
    """A memory of `dmamem`: its tag, its frames, and how many bytes of them can be reached."""
    name: str
    tag: Tag
    address: int
    frames: int
    length: int
    is_coherent: bool

    def virtual_address(self) -> int:
        """Returns where the driver finds the memory."""
        return MEMORIES_BEGIN + self.address


@dataclass
class Map:
    """A map, or the map of a memory."""
    name: str
    tag: Tag
    zone: int | None = None
    memory: MemoryBlock | None = None
    state: MapState = MapState.IDLE
    load: LoadState | None = None
    was_tried: bool = False

    def is_coherent(self) -> bool:
        """Returns whether the map is that of a coherent memory, so that its bytes are never lent."""
        return self.memory is not None and self.memory.is_coherent


@dataclass
class Ring:
    """A ring of descriptors at the begin of a memory."""
    name: str
    memory: str
    slots: int
    head: int = 0


@dataclass
class Driver:
    """A driver: its place in the script, what it made, its return queue and its transfer queue."""
    number: int
    plan: DriverPlan
    script_place: int = 0
    reach: dict[int, tuple[int, int]] = field(default_factory=dict)
    tags: dict[str, Tag] = field(default_factory=dict)
    maps: dict[str, Map] = field(default_factory=dict)
    memories: dict[str, MemoryBlock] = field(default_factory=dict)
    memory_of_frame: dict[int, str] = field(default_factory=dict)
    rings: dict[str, Ring] = field(default_factory=dict)
    returns: deque[tuple[str, int]] = field(default_factory=deque)
    transfers: deque[Step] = field(default_factory=deque)
    resend: Load | None = None
    unknown: Runs = Runs()

    def has_ended(self) -> bool:
        """Returns whether the script has ended: no operation, resend or release is left."""
        return self.script_place == len(self.plan.script) and self.resend is None and not self.returns


@dataclass
class Machine:
    """What the drivers share: the bytes, the bank, the zones and the callback list."""
    end_of_memory: int
    max_bpages: int
    bank: Bank
    bytes: PhysicalBytes = field(default_factory=PhysicalBytes)
    zones: list[Zone] = field(default_factory=list)
    callbacks: list[Waiter] = field(default_factory=list)
    entries: int = 0


def open_machine(scenario: Scenario) -> Machine:
    """Returns the machine of a scenario: the frames that no driver has are in the bank."""
    owned = {
        frame
        for plan in scenario.drivers
        for pages in plan.pages
        for frame in range(pages.frame, pages.frame + pages.count)
    }
    frames = {frame for first, count in scenario.frames for frame in range(first, first + count)}
    return Machine(max(frames, default=-1) + 1, scenario.max_bpages, Bank(sorted(frames - owned)))


def open_driver(number: int, plan: DriverPlan) -> Driver:
    """Returns a driver at the begin of its script."""
    driver = Driver(number, plan)
    for pages in plan.pages:
        for place in range(pages.count):
            driver.reach[pages.va // PAGE + place] = pages.frame + place, PAGE
    return driver


def find_extents(driver: Driver, va: int, length: int, position: int = 0) -> tuple[list[Extent], int | None]:
    """Finds bytes by their virtual address: their extents, and the position of the first that is not reached."""
    extents: list[Extent] = []
    end = position + length
    while position < end:
        frame, reached = driver.reach.get(va // PAGE, (0, 0))
        size = min(end - position, reached - va % PAGE)
        if size <= 0:
            return extents, position
        extents.append(Extent(position, frame * PAGE + va % PAGE, size))
        position, va = position + size, va + size
    return extents, None


def existing(objects: dict[str, Thing], name: str) -> Thing:
    """Returns a tag, map, memory or ring, or reports Absent."""
    if name not in objects:
        raise StepEnds(Report("Absent"))
    return objects[name]
