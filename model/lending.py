"""Lending: which bytes the device may touch and the driver may not, which bytes are known, and syncs.

Each byte of a load can be lent to the device to read, to write, or both. Each byte is known or not.
"""

from __future__ import annotations

from .answers import OK, Answer, BytesRead, Cause, Report, StepEnds, end_with
from .ranges import Runs
from .scenario import Words
from .segments import Extent, bytes_at, positions_of
from .state import Driver, LoadState, Machine, Map, MapState

Finding = tuple[str, Runs, Cause]


def first_report(findings: list[Finding], begin: int = 0) -> Report | None:
    """Returns the report of the first position that some finding has, whose offset counts from `begin` on.

    At one position the earlier finding counts.
    """
    found = [(positions.first(), place) for place, (_, positions, _) in enumerate(findings) if positions]
    if not found:
        return None
    first, place = min(found)
    name, _, cause = findings[place]
    return Report(name, first - begin, cause)


def judge_end(off: int, length: int, load: LoadState) -> None:
    """Reports an access or range that goes past the load's end."""
    end = load.length()
    if off + length > end:
        raise StepEnds(Report("PastEnd", max(0, end - off), {"length": end}))


def read_bytes(machine: Machine, extents: list[Extent]) -> bytes:
    """Returns the bytes of the extents, one after the other."""
    return b"".join(machine.bytes.read(extent.address, extent.length) for extent in extents)


def write_bytes(machine: Machine, driver: Driver, extents: list[Extent], data: bytes) -> None:
    """Writes the bytes of the extents, which are known then."""
    place = 0
    for extent in extents:
        machine.bytes.write(extent.address, data[place : place + extent.length])
        place += extent.length
    driver.unknown -= addresses(extents)


def addresses(extents: list[Extent]) -> Runs:
    """Returns the addresses of the bytes of the extents."""
    return Runs.of((extent.address, extent.address + extent.length) for extent in extents)


def part(extents: list[Extent], off: int, length: int) -> list[Extent]:
    """Returns the extents of a part of a load, in the order of its positions."""
    found: list[Extent] = []
    for extent in extents:
        begin = max(off, extent.position)
        end = min(off + length, extent.position + extent.length)
        if begin < end:
            found.append(Extent(begin, extent.address + begin - extent.position, end - begin))
    return found


def lending_loads(driver: Driver) -> list[tuple[str, LoadState]]:
    """Returns the loads of the driver's loaded maps, with the maps' names."""
    return [
        (each.name, each.load)
        for each in driver.maps.values()
        if each.state is MapState.LOADED and each.load is not None
    ]


def cpu_read_report(driver: Driver, extents: list[Extent]) -> Report | None:
    """Judges a driver's read: no byte may be lent to write, and each must be known."""
    findings: list[Finding] = [
        ("CpuReadLent", positions_of(extents, load.bytes_lent_to_write), {"holder": name})
        for name, load in lending_loads(driver)
        if load.bytes_lent_to_write
    ]
    findings.append(("StaleByte", positions_of(extents, driver.unknown), {}))
    return first_report(findings)


def cpu_write_report(driver: Driver, extents: list[Extent]) -> Report | None:
    """Judges a driver's write: no byte may be lent."""
    return first_report([
        ("CpuWriteLent", positions_of(extents, lent), {"holder": name, "lent": way})
        for name, load in lending_loads(driver)
        for way, lent in (("to read", load.bytes_lent_to_read), ("to write", load.bytes_lent_to_write))
        if lent
    ])


def device_report(driver: Driver, map_: Map, load: LoadState, off: int, length: int, reads: bool) -> Report | None:
    """Judges a device's access to bytes of a load: each must be lent for it, and known if it is read."""
    lent = load.lent_to_read if reads else load.lent_to_write
    unlent = Runs() if map_.is_coherent() else Runs.span(off, length) - lent
    findings: list[Finding] = [("DeviceReadUnlent" if reads else "DeviceWriteUnlent", unlent, {})]
    if reads:
        findings.append(("StaleByte", positions_of(part(load.extents, off, length), driver.unknown), {}))
    return first_report(findings, off)


def device_access(
    machine: Machine, driver: Driver, map_: Map, load: LoadState, off: int, length: int, data: bytes | None
) -> Answer:
    """Reads bytes of a load for the device, or writes the data there."""
    end_with(device_report(driver, map_, load, off, length, data is None))
    extents = part(load.extents, off, length)
    if data is None:
        return BytesRead(read_bytes(machine, extents))
    write_bytes(machine, driver, extents, data)
    return OK


def sync_report(driver: Driver, map_: Map, load: LoadState, asked: Runs, ops: Words) -> Report | None:
    """Judges the positions of a sync."""
    findings: list[Finding] = []
    if "POSTREAD" in ops:
        findings.append(("SyncOrder", asked - load.lent_to_write, {"op": "POSTREAD"}))
    if "PREWRITE" in ops:
        findings.append(("SyncOrder", asked & load.lent_to_write, {"op": "PREWRITE"}))
    asked_bytes = bytes_at(load.extents, asked)
    for name, other in lending_loads(driver):
        if name == map_.name:
            continue
        to_write = other.bytes_lent_to_write & asked_bytes
        to_read = other.bytes_lent_to_read & asked_bytes
        if "PREWRITE" in ops and to_write:
            overlap = positions_of(load.extents, to_write) & asked
            findings.append(("Overlap", overlap, {"op": "PREWRITE", "holder": name}))
        if "PREREAD" in ops and (to_write or to_read):
            overlap = positions_of(load.extents, to_write | to_read) & asked - load.lent_to_write
            findings.append(("Overlap", overlap, {"op": "PREREAD", "holder": name}))
    if "PREREAD" in ops:
        twice = positions_of(load.extents, load.stand_twice()) & asked - load.lent_to_write
        findings.append(("Overlap", twice, {"op": "PREREAD", "holder": map_.name}))
    return first_report(findings)


def sync(machine: Machine, driver: Driver, map_: Map, load: LoadState, asked: Runs, ops: Words) -> Answer:
    """Judges a sync of some positions of a load, and changes what is lent and known."""
    if map_.is_coherent():
        return OK
    end_with(sync_report(driver, map_, load, asked, ops))
    to_read, to_write = load.lent_to_read, load.lent_to_write
    if "POSTREAD" in ops:
        to_write -= asked
    if "POSTWRITE" in ops:
        to_read -= asked
    if "PREWRITE" in ops:
        to_read |= asked
    if "PREREAD" in ops:
        driver.unknown |= bytes_at(load.extents, asked - to_write - to_read)
        to_write |= asked
    load.lend(to_read, to_write, machine.entries)
    copies = ops & {"PREWRITE", "POSTREAD"} and load.bounced_positions() & asked
    if copies and map_.zone is not None:
        machine.zones[map_.zone].total_bounced += 1
    return OK
