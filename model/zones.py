"""Zones of bounce pages: how one is found, grows, gives pages to loads and serves those that wait."""

from __future__ import annotations

from dataclasses import dataclass, field

from .machine import Bank
from .scenario import PAGE
from .tags import Tag

ZONE_ALIGNMENT = 4096


@dataclass
class Waiter:
    """A load that waits: its driver, its map, the pages that it needs, and how many are promised to it."""
    driver: int
    map: str
    need: int
    have: int
    zone: int


@dataclass
class Zone:
    """A zone: the pages that no map holds, its living maps, and the loads that wait."""
    number: int
    lowaddr: int
    alignment: int = ZONE_ALIGNMENT
    pages: list[int] = field(default_factory=list)
    active: int = 0
    reserved: int = 0
    living_maps: int = 0
    waiting: list[Waiter] = field(default_factory=list)
    total_bounced: int = 0
    total_deferred: int = 0

    def total(self) -> int:
        """Returns how many pages the zone has, held or not."""
        return len(self.pages) + self.active

    def free(self) -> int:
        """Returns how many pages no map holds and nobody is promised."""
        return len(self.pages) - self.reserved

    def serves(self, tag: Tag) -> bool:
        """Returns whether maps of the tag may take this zone's pages."""
        return self.alignment >= tag.alignment and self.lowaddr <= tag.lowaddr

    def grow(self, wanted: int, bank: Bank) -> int:
        """Adds the lowest frames at or below the zone's lowaddr, and returns how many there were."""
        frames = bank.take_lowest(wanted, self.lowaddr // PAGE)
        self.pages += [PAGE * frame for frame in frames]
        return len(frames)

    def take(self, count: int) -> list[int]:
        """Takes the first pages of the list for a load; they become active."""
        taken, self.pages = self.pages[:count], self.pages[count:]
        self.active += count
        return taken

    def wait(self, waiter: Waiter) -> None:
        """Promises all free pages to a load that begins to wait."""
        waiter.have = self.free()
        self.reserved += waiter.have
        self.waiting.append(waiter)

    def release(self, page: int) -> None:
        """Makes an active page free again, at the head of the list."""
        self.pages.insert(0, page)
        self.active -= 1

    def serve(self) -> list[Waiter]:
        """Promises free pages to the loads that wait, in order, and returns those that then have all."""
        ready: list[Waiter] = []
        while self.waiting:
            first = self.waiting[0]
            promised = min(self.free(), first.need - first.have)
            first.have += promised
            self.reserved += promised
            if first.have < first.need:
                break
            ready.append(self.waiting.pop(0))
            self.total_deferred += 1
        return ready

    def lines(self) -> list[str]:
        """Returns the zone's lines of the report."""
        counts: list[tuple[str, str]] = [
            ("total_bpages", str(self.total())),
            ("free_bpages", str(self.free())),
            ("reserved_bpages", str(self.reserved)),
            ("active_bpages", str(self.active)),
            ("total_bounced", str(self.total_bounced)),
            ("total_deferred", str(self.total_deferred)),
            ("lowaddr", f"{self.lowaddr:#x}"),
            ("alignment", str(self.alignment)),
        ]
        return [f"hw.busdma.zone{self.number}.{name}: {value}\n" for name, value in counts]


def zone_of(tag: Tag, zones: list[Zone]) -> Zone:
    """Returns the first zone that serves the tag, or makes one."""
    for zone in zones:
        if zone.serves(tag):
            return zone
    zones.append(Zone(len(zones), tag.lowaddr))
    return zones[-1]


def wanted_by_tag(tag: Tag, zone: Zone) -> int:
    """Returns how many pages a tag with `ALLOCNOW` wants."""
    return max(0, tag.maxsize // PAGE - zone.total())


def wanted_by_map(tag: Tag, zone: Zone, max_bpages: int, end_of_memory: int) -> int:
    """Returns how many pages a map of the tag wants."""
    most = max_bpages
    if tag.alignment == 1:
        most = min(max_bpages, max(0, end_of_memory - tag.lowaddr // PAGE))
    wanted = max(1, min(most - zone.total(), tag.nsegments, max(1, tag.maxsize // PAGE)))
    if not tag.first_allocation_is_done or (zone.living_maps > 0 and zone.total() < most):
        return wanted
    return 0
