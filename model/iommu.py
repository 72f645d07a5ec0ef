"""IOMMU tags: the runs of device pages of their loads, and accesses by device addresses."""

from __future__ import annotations

from dataclasses import dataclass, replace

from .answers import OK, Answer, BytesRead, Report, StepEnds
from .lending import device_report, part, read_bytes, write_bytes
from .scenario import PAGE, RawAccess
from .segments import Extent
from .state import Driver, LoadState, Machine, Map, MapState, existing
from .tags import Tag


@dataclass(frozen=True)
class Part:
    """Bytes of a load that lie at device addresses of an access, from an address and from a position on."""
    address: int
    length: int
    map: Map
    load: LoadState
    position: int


def loads_of(driver: Driver, tag: Tag) -> list[tuple[Map, LoadState, tuple[int, int]]]:
    """Returns the loads of the tag's maps that have a run of device pages."""
    return [
        (each, each.load, each.load.device_pages)
        for each in driver.maps.values()
        if each.tag is tag and each.state is MapState.LOADED and each.load is not None and each.load.device_pages
    ]


def find_device_pages(driver: Driver, tag: Tag, count: int) -> int | None:
    """Returns the least first page of a free run of so many device pages; page 0 is never taken."""
    first = 1
    for taken, taken_count in sorted(pages for _, _, pages in loads_of(driver, tag)):
        if first + count <= taken:
            break
        first = max(first, taken + taken_count)
    return first if count == 0 or first + count - 1 <= tag.last_page() else None


def find_parts(driver: Driver, tag: Tag, addr: int, length: int) -> list[Part]:
    """Finds the bytes of loads that have device addresses of an access, in the order of their addresses."""
    parts: list[Part] = []
    for map_, load, _ in loads_of(driver, tag):
        position = 0
        for segment in load.segments:
            begin = max(addr, segment.address)
            end = min(addr + length, segment.address + segment.length)
            here = position + begin - segment.address
            last = parts[-1] if parts and parts[-1].load is load else None
            if begin < end and last and last.address + last.length == begin and last.position + last.length == here:
                parts[-1] = replace(last, length=last.length + end - begin)
            elif begin < end:
                parts.append(Part(begin, end - begin, map_, load, here))
            position += segment.length
    return sorted(parts, key=lambda each: each.address)


def is_translated(driver: Driver, tag: Tag, addr: int) -> bool:
    """Returns whether a device address is in the run of a load."""
    page = addr // PAGE
    return any(first <= page < first + count for _, _, (first, count) in loads_of(driver, tag))


def raw_access(machine: Machine, driver: Driver, asked: RawAccess) -> Answer:
    """Reads or writes bytes for the device by a device address; each byte is judged by the load that has it."""
    tag = existing(driver.tags, asked.tag)
    reads = asked.data is None
    extents: list[Extent] = []
    place = asked.addr
    for each in find_parts(driver, tag, asked.addr, asked.len):
        if each.address != place:
            break
        report = device_report(driver, each.map, each.load, each.position, each.length, reads)
        if report is not None:
            offset = place - asked.addr + report.offset
            raise StepEnds(Report(report.name, offset, {"map": each.map.name}))
        extents += part(each.load.extents, each.position, each.length)
        place += each.length
    if place != asked.addr + asked.len:
        unlent = "DeviceReadUnlent" if reads else "DeviceWriteUnlent"
        name = unlent if is_translated(driver, tag, place) else "Untranslated"
        raise StepEnds(Report(name, place - asked.addr))
    if asked.data is None:
        return BytesRead(read_bytes(machine, extents))
    write_bytes(machine, driver, extents, asked.data)
    return OK
