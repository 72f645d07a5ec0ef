"""Loads: which bytes they have, the pages that they get or wait for, their callbacks, and how they end."""

from __future__ import annotations

from dataclasses import dataclass

from .answers import OK, Answer, InProgress, Loaded, Refused, Report, Said, StepEnds
from .iommu import find_device_pages
from .scenario import PAGE, FrameRun, Load, LoadedRun, MemoryRun, OnMap, VirtualRun
from .segments import Chunk, Extent, Segment, cut_into_chunks, cut_into_pieces, join
from .state import Driver, LoadState, Machine, Map, MapState, existing, find_extents
from .tags import Tag
from .zones import Waiter


@dataclass(frozen=True)
class LoadEntry:
    """An entry of a load: its bytes, and whether it is an unmapped bio."""
    extents: list[Extent]
    is_unmapped: bool = False


def find_entries(driver: Driver, map_: Map, runs: tuple[LoadedRun, ...]) -> list[LoadEntry]:
    """Finds the bytes of a load, or reports the first that is Unmapped or ForeignMemory."""
    entries: list[LoadEntry] = []
    position = 0
    for run in runs:
        extents, unmapped = find_run(driver, run, position)
        for extent in extents:
            if is_foreign(driver, map_, extent, isinstance(run, FrameRun)):
                raise StepEnds(Report("ForeignMemory", extent.position))
        if unmapped is not None:
            raise StepEnds(Report("Unmapped", unmapped))
        if extents:
            entries.append(LoadEntry(extents, isinstance(run, FrameRun)))
        position += run.len
    if map_.memory is not None and entries:
        return [LoadEntry(find_extents(driver, map_.memory.virtual_address(), position)[0])]
    return entries


def find_run(driver: Driver, run: LoadedRun, position: int) -> tuple[list[Extent], int | None]:
    """Finds the bytes of one run, from a position of the load on, and the first that is not reached."""
    if isinstance(run, VirtualRun):
        return find_extents(driver, run.va, run.len, position)
    if isinstance(run, MemoryRun):
        return find_extents(driver, driver.memories[run.mem].virtual_address(), run.len, position)
    extents: list[Extent] = []
    end, off = position + run.len, run.off
    for frame in run.frames:
        if position < end:
            size = min(end - position, PAGE - off)
            extents.append(Extent(position, frame * PAGE + off, size))
            position, off = position + size, 0
    return extents, position if position < end else None


def is_foreign(driver: Driver, map_: Map, extent: Extent, is_unmapped: bool) -> bool:
    """Returns whether the bytes are a memory's of another map, or not those of the map's memory at this place."""
    owner = driver.memory_of_frame.get(extent.address // PAGE)
    if map_.memory is None:
        return owner is not None
    at_this_place = extent.address == map_.memory.address + extent.position
    return is_unmapped or owner != map_.memory.name or not at_this_place


def load(machine: Machine, driver: Driver, asked: Load) -> Answer:
    """Loads a map."""
    if any(isinstance(run, MemoryRun) and run.mem not in driver.memories for run in asked.runs):
        raise StepEnds(Report("Absent"))
    map_ = existing(driver.maps, asked.map)
    if map_.state is not MapState.IDLE:
        raise StepEnds(Report("MapBusy", 0, {"state": map_.state.value}))
    entries = find_entries(driver, map_, asked.runs)
    if asked.length() > map_.tag.maxsize:
        map_.was_tried = True
        return Refused("EINVAL", {"maxsize": map_.tag.maxsize, "length": asked.length()})
    return begin_load(machine, driver, map_, asked, entries, asked.may_wait)


def begin_load(
    machine: Machine, driver: Driver, map_: Map, asked: Load, entries: list[LoadEntry], may_wait: bool
) -> Answer:
    """Cuts a load into chunks, and takes the pages that it needs, or waits for them."""
    started = LoadState(asked.path, asked.then, [extent for entry in entries for extent in entry.extents], [])
    if map_.tag.is_iommu:
        return begin_iommu_load(driver, map_, started, entries)
    for entry in entries:
        started.chunks += cut_into_chunks(entry.extents, map_.tag, map_.memory is None, entry.is_unmapped)
    need = started.need()
    if need > 0:
        assert map_.zone is not None
        zone = machine.zones[map_.zone]
        cause = {"zone": zone.number, "need": need, "free": zone.free()}
        if zone.free() < need and not may_wait:
            map_.was_tried = True
            return Refused("ENOMEM", cause)
        if zone.free() < need:
            waiter = Waiter(driver.number, map_.name, need, 0, zone.number)
            zone.wait(waiter)
            map_.state, map_.load = MapState.WAITING, started
            return InProgress(waiter.have, need, cause)
        started.pages = zone.take(need)
    return end_load(driver, map_, started, place_chunks(started.chunks, started.pages, map_.tag))


def begin_iommu_load(driver: Driver, map_: Map, started: LoadState, entries: list[LoadEntry]) -> Answer:
    """Takes a run of device pages; each entry is one chunk at device addresses."""
    count = len(started.extents)
    first = find_device_pages(driver, map_.tag, count)
    if first is None:
        map_.was_tried = True
        return Refused("ENOMEM", {"need": count, "lowaddr": map_.tag.lowaddr})
    started.device_pages = (first, count) if count > 0 else None
    placed: list[Segment] = []
    for entry in entries:
        length = sum(extent.length for extent in entry.extents)
        placed.append(Segment(first * PAGE + entry.extents[0].address % PAGE, length))
        first += len(entry.extents)
    return end_load(driver, map_, started, placed)


def place_chunks(chunks: list[Chunk], pages: list[int], tag: Tag) -> list[Segment]:
    """Returns where the chunks lie for the device: in bounce pages, or at their own addresses."""
    placed: list[Segment] = []
    taken = 0
    for chunk in chunks:
        address = chunk.address
        if chunk.bounces:
            address = pages[taken] + (address % PAGE if "KEEP_PG_OFFSET" in tag.flags else 0)
            taken += 1
        placed.append(Segment(address, chunk.length))
    return placed


def end_load(driver: Driver, map_: Map, started: LoadState, placed: list[Segment]) -> Answer:
    """Makes the segments of a load that has its pages, and calls its callback with them or with EFBIG."""
    map_.was_tried = True
    started.segments = join((piece for chunk in placed for piece in cut_into_pieces(chunk, map_.tag)), map_.tag)
    if len(started.segments) > map_.tag.nsegments:
        return_pages(driver, map_, started)
        return Refused("EFBIG", {"nsegments": map_.tag.nsegments, "segments": len(started.segments)})
    map_.state, map_.load = MapState.LOADED, started
    driver.transfers.extend(started.then)
    return Loaded(tuple(started.segments))


def return_pages(driver: Driver, map_: Map, ended: LoadState) -> None:
    """Ends a load; its pages join the return queue."""
    driver.returns.extend((map_.name, page) for page in ended.pages)
    map_.state, map_.load = MapState.RETURNING if ended.pages else MapState.IDLE, None


def unload(machine: Machine, driver: Driver, asked: OnMap) -> Answer:
    """Unloads a map; the bytes that it still lends to write become unknown."""
    map_, loaded = loaded_map(driver, asked.map)
    driver.unknown |= loaded.bytes_lent_to_write
    return_pages(driver, map_, loaded)
    return OK


def release(machine: Machine, driver: Driver) -> tuple[str, Answer]:
    """Releases the first page of the return queue; returns what was done and the answer."""
    name, page = driver.returns.popleft()
    map_ = driver.maps[name]
    assert map_.zone is not None
    zone = machine.zones[map_.zone]
    zone.release(page)
    if all(other != name for other, _ in driver.returns):
        map_.state = MapState.IDLE
    ready = zone.serve()
    machine.callbacks += ready
    return f"release {name} {page:#x}", Said(f"ok ready {len(ready)}")


def call_back(machine: Machine, driver: Driver) -> tuple[Map, str, Answer]:
    """Takes the first load of the callback list; returns its map, its path and the answer."""
    waiter = machine.callbacks.pop(0)
    map_ = driver.maps[waiter.map]
    waited = map_.load
    assert waited is not None
    zone = machine.zones[waiter.zone]
    zone.reserved -= waiter.need
    waited.pages = zone.take(waiter.need)
    return map_, waited.path, end_load(driver, map_, waited, place_chunks(waited.chunks, waited.pages, map_.tag))


def items_are_queued(driver: Driver, map_name: str) -> bool:
    """Returns whether an item of the transfer queue names the map."""
    return any(isinstance(item, OnMap) and item.map == map_name for item in driver.transfers)


def await_is_blocked(driver: Driver, map_name: str) -> bool:
    """Returns whether an `await` of the map must wait."""
    map_ = driver.maps.get(map_name)
    if map_ is None:
        return False
    return map_.state is MapState.WAITING or items_are_queued(driver, map_name)


def loaded_map(driver: Driver, name: str) -> tuple[Map, LoadState]:
    """Returns a map that is loaded, with its load, or reports Absent or NotLoaded."""
    map_ = existing(driver.maps, name)
    if map_.state is not MapState.LOADED or map_.load is None:
        raise StepEnds(Report("NotLoaded", 0, {"state": map_.state.value}))
    return map_, map_.load
