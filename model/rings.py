"""Rings of descriptors in coherent memory: how one is made, posted to and kicked, and its device's steps."""

from __future__ import annotations

from dataclasses import dataclass

from .answers import OK, Answer, Refused, Report, Said, StepEnds, end_with
from .lending import device_access, device_report, first_report, judge_end, part, read_bytes, write_bytes
from .loads import loaded_map
from .scenario import Kick, MakeRing, OnRing, RingPost
from .segments import positions_of
from .state import Driver, LoadState, Machine, Map, MapState, MemoryBlock, Ring, existing, find_extents

DESCRIPTOR = 16
MAX_SLOTS = 256
MAX_LENGTH = 4096
DEVICE_READS, DEVICE_WRITES = 1, 2
OWNER_PLACE = 14


@dataclass(frozen=True)
class Descriptor:
    """What a descriptor says."""
    address: int
    length: int
    kind: int
    fill: int
    owner: int

    @staticmethod
    def of(data: bytes) -> Descriptor:
        """Reads a descriptor from its 16 bytes."""
        return Descriptor(int.from_bytes(data[0:8], "little"), int.from_bytes(data[8:12], "little"), *data[12:15])

    def posted(self) -> bytes:
        """Returns the 16 bytes of a descriptor that is posted: its status is 0."""
        numbers = self.address.to_bytes(8, "little") + self.length.to_bytes(4, "little")
        return numbers + bytes([self.kind, self.fill, self.owner, 0])

    def can_be(self) -> bool:
        """Returns whether a descriptor can have this kind and this length."""
        return self.kind in (DEVICE_READS, DEVICE_WRITES) and 1 <= self.length <= MAX_LENGTH


def make_ring(machine: Machine, driver: Driver, asked: MakeRing) -> Answer:
    """Makes a ring in a memory."""
    memory = existing(driver.memories, asked.mem)
    if not memory.is_coherent or not 1 <= asked.slots <= MAX_SLOTS or DESCRIPTOR * asked.slots > memory.length:
        return Refused("EINVAL", {"coherent": memory.is_coherent, "slots": asked.slots, "length": memory.length})
    driver.rings[asked.name] = Ring(asked.name, asked.mem, asked.slots)
    return OK


def ring_and_memory(driver: Driver, name: str) -> tuple[Ring, MemoryBlock]:
    """Returns a ring and its memory, or reports Absent."""
    ring = existing(driver.rings, name)
    return ring, existing(driver.memories, ring.memory)


def segment_of(load: LoadState, off: int) -> tuple[int, int, int] | None:
    """Returns the segment that has a position: its first position, its address and its length."""
    position = 0
    for segment in load.segments:
        if position <= off < position + segment.length:
            return position, segment.address, segment.length
        position += segment.length
    return None


def post(machine: Machine, driver: Driver, asked: RingPost) -> Answer:
    """Writes the descriptor of a slot for a range of a map's load."""
    ring, memory = ring_and_memory(driver, asked.ring)
    map_, load = loaded_map(driver, asked.map)
    judge_end(asked.off, asked.len, load)
    segment = segment_of(load, asked.off)
    if asked.slot >= ring.slots or map_.name == ring.memory or map_.tag.is_iommu or segment is None:
        return Refused("EINVAL")
    position, address, length = segment
    descriptor = Descriptor(address + asked.off - position, asked.len, asked.kind, asked.fill, 1)
    if not descriptor.can_be() or asked.off + asked.len > position + length:
        return Refused("EINVAL")
    extents, _ = find_extents(driver, memory.virtual_address() + DESCRIPTOR * asked.slot, DESCRIPTOR)
    write_bytes(machine, driver, extents, descriptor.posted())
    return OK


def kick(machine: Machine, driver: Driver, asked: Kick) -> Answer:
    """Puts steps of the ring's device into the transfer queue."""
    existing(driver.rings, asked.ring)
    driver.transfers.extend(OnRing("ring_step", asked.path, asked.ring) for _ in range(asked.count))
    return OK


def candidates(driver: Driver, ring: Ring, descriptor: Descriptor) -> list[tuple[Map, LoadState, int]]:
    """Returns the loaded maps of which one segment has all bytes named, with the position of the first byte."""
    found: list[tuple[Map, LoadState, int]] = []
    for map_ in driver.maps.values():
        load = map_.load
        if map_.state is not MapState.LOADED or load is None or map_.name == ring.memory or map_.tag.is_iommu:
            continue
        position = 0
        for segment in load.segments:
            end = segment.address + segment.length
            if segment.address <= descriptor.address and descriptor.address + descriptor.length <= end:
                found.append((map_, load, position + descriptor.address - segment.address))
                break
            position += segment.length
    return found


def step(machine: Machine, driver: Driver, asked: OnRing) -> Answer:
    """Takes one step of a ring's device, by the descriptor at the head."""
    ring, _ = ring_and_memory(driver, asked.ring)
    _, load = loaded_map(driver, ring.memory)
    begin = DESCRIPTOR * ring.head
    judge_end(begin, DESCRIPTOR, load)
    extents = part(load.extents, begin, DESCRIPTOR)
    end_with(first_report([("StaleByte", positions_of(extents, driver.unknown), {"slot": ring.head})], begin))
    descriptor = Descriptor.of(read_bytes(machine, extents))
    if descriptor.owner != 1:
        return Said("idle")
    if not descriptor.can_be():
        return Refused("EINVAL", {"kind": descriptor.kind, "length": descriptor.length})
    answer = access(machine, driver, candidates(driver, ring, descriptor), descriptor)
    write_bytes(machine, driver, part(extents, begin + OWNER_PLACE, 2), bytes([0, 1]))
    ring.head = (ring.head + 1) % ring.slots
    return answer


def access(
    machine: Machine, driver: Driver, found: list[tuple[Map, LoadState, int]], descriptor: Descriptor
) -> Answer:
    """Makes the access by the first candidate that allows it; else reports as the first candidate does."""
    length, reads = descriptor.length, descriptor.kind == DEVICE_READS
    reports: list[Report] = []
    for map_, load, off in found:
        report = device_report(driver, map_, load, off, length, reads)
        if report is None:
            data = None if reads else bytes([descriptor.fill]) * length
            return device_access(machine, driver, map_, load, off, length, data)
        reports.append(report)
    raise StepEnds(reports[0] if reports else Report("Untranslated"))
