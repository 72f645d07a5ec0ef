"""The operations of a script and the items of a transfer queue: what each does and answers."""

from __future__ import annotations

from collections.abc import Callable
from typing import Any

from .answers import OK, Answer, BytesRead, Cause, PagesAdded, Refused, Report, Said, StepEnds, end_with
from .iommu import raw_access
from .lending import cpu_read_report, cpu_write_report, device_access, judge_end, read_bytes, write_bytes
from .lending import sync as sync_positions
from .loads import load, loaded_map, unload
from .ranges import Runs
from .rings import kick, make_ring, post
from .rings import step as ring_step
from .scenario import (
    PAGE, CpuAccess, DevAccess, MakeMap, MakeMemory, MakeTag, OnMap, OnMemory, OnTag, Place, Step, Sync,
)
from .segments import Extent
from .sends import resend, send
from .state import Driver, Machine, Map, MapState, MemoryBlock, existing, find_extents
from .tags import make_tag
from .zones import wanted_by_map, wanted_by_tag, zone_of


def do_tag(machine: Machine, driver: Driver, asked: MakeTag) -> Answer:
    """Makes a tag; with `ALLOCNOW`, its zone grows."""
    parent = existing(driver.tags, asked.parent) if asked.parent is not None else None
    tag = make_tag(asked, parent)
    if tag is None:
        limits: Cause = {"alignment": asked.alignment, "boundary": asked.boundary, "maxsegsz": asked.maxsegsz}
        return Refused("EINVAL", limits)
    answer: Answer = OK
    if "ALLOCNOW" in tag.flags and tag.could_bounce(machine.end_of_memory):
        zone = zone_of(tag, machine.zones)
        wanted = wanted_by_tag(tag, zone)
        added = zone.grow(wanted, machine.bank)
        answer = PagesAdded(zone.number, added, added == wanted, {"wanted": wanted})
        if added < wanted:
            return answer
        tag.first_allocation_is_done = True
    driver.tags[asked.name] = tag
    return answer


def do_tag_destroy(machine: Machine, driver: Driver, asked: OnTag) -> Answer:
    """Ends a tag that has neither maps nor memories."""
    tag = existing(driver.tags, asked.tag)
    holders = [each.name for each in driver.maps.values() if each.tag is tag]
    if holders:
        return Refused("EBUSY", {"holders": holders})
    del driver.tags[asked.tag]
    return OK


def do_map(machine: Machine, driver: Driver, asked: MakeMap) -> Answer:
    """Makes a map; if its tag could bounce, its zone may grow."""
    tag = existing(driver.tags, asked.tag)
    answer: Answer = OK
    made = Map(asked.name, tag)
    if tag.could_bounce(machine.end_of_memory):
        zone = zone_of(tag, machine.zones)
        wanted = wanted_by_map(tag, zone, machine.max_bpages, machine.end_of_memory)
        added = zone.grow(wanted, machine.bank)
        is_made = added == wanted or tag.first_allocation_is_done
        answer = PagesAdded(zone.number, added, is_made, {"wanted": wanted})
        if not is_made:
            return answer
        tag.first_allocation_is_done = True
        zone.living_maps += 1
        made.zone = zone.number
    driver.maps[asked.name] = made
    return answer


def do_map_destroy(machine: Machine, driver: Driver, asked: OnMap) -> Answer:
    """Ends an idle map; its zone keeps its pages."""
    map_ = existing(driver.maps, asked.map)
    if map_.state is not MapState.IDLE:
        return Refused("EBUSY", {"state": map_.state.value})
    if map_.zone is not None:
        machine.zones[map_.zone].living_maps -= 1
    del driver.maps[asked.map]
    return OK


def do_dmamem(machine: Machine, driver: Driver, asked: MakeMemory) -> Answer:
    """Makes a memory, with a map of the same name."""
    tag = existing(driver.tags, asked.tag)
    count = max(1, -(-tag.maxsize // PAGE))
    first = machine.bank.take_run(count, tag.last_page(), tag.boundary, tag.maxsize)
    if first is None:
        return Refused("ENOMEM", {"need": count, "lowaddr": tag.lowaddr, "boundary": tag.boundary})
    memory = MemoryBlock(asked.name, tag, first * PAGE, count, tag.maxsize, "COHERENT" in asked.flags)
    for place in range(count):
        machine.bytes.clear(first + place)
        driver.memory_of_frame[first + place] = asked.name
        page = memory.virtual_address() // PAGE + place
        driver.reach[page] = first + place, min(PAGE, tag.maxsize - PAGE * place)
    if "ZERO" not in asked.flags:
        driver.unknown |= Runs.span(memory.address, tag.maxsize)
    driver.memories[asked.name] = memory
    driver.maps[asked.name] = Map(asked.name, tag, None, memory)
    return Said(f"ok {memory.address:#x}")


def do_dmamem_free(machine: Machine, driver: Driver, asked: OnMemory) -> Answer:
    """Ends a memory whose map is idle, and its map; its frames go back to the bank."""
    memory = existing(driver.memories, asked.mem)
    if driver.maps[asked.mem].state is not MapState.IDLE:
        return Refused("EBUSY", {"state": driver.maps[asked.mem].state.value})
    first = memory.address // PAGE
    for place in range(memory.frames):
        del driver.memory_of_frame[first + place]
        del driver.reach[memory.virtual_address() // PAGE + place]
    driver.unknown -= Runs.span(memory.address, memory.length)
    machine.bank.give_back(first, memory.frames)
    del driver.memories[asked.mem], driver.maps[asked.mem]
    return OK


def do_sync(machine: Machine, driver: Driver, asked: Sync) -> Answer:
    """Syncs a map's load, or a range of it."""
    map_, loaded = loaded_map(driver, asked.map)
    length = asked.len if asked.len is not None else loaded.length()
    judge_end(asked.off, length, loaded)
    if asked.ops & {"PREREAD", "PREWRITE"} and asked.ops & {"POSTREAD", "POSTWRITE"}:
        raise StepEnds(Report("MixedSync"))
    return sync_positions(machine, driver, map_, loaded, Runs.span(asked.off, length), asked.ops)


def find_place(driver: Driver, place: Place, length: int) -> list[Extent]:
    """Finds the bytes of a driver's access, or reports Absent or Unmapped."""
    va = place.va
    if va is None:
        va = existing(driver.memories, place.mem or "").virtual_address() + place.off
    extents, unmapped = find_extents(driver, va, length)
    if unmapped is not None:
        raise StepEnds(Report("Unmapped", unmapped))
    return extents


def do_cpu_access(machine: Machine, driver: Driver, asked: CpuAccess) -> Answer:
    """Reads or writes bytes for the driver."""
    extents = find_place(driver, asked.place, asked.len)
    if asked.data is None:
        end_with(cpu_read_report(driver, extents))
        return BytesRead(read_bytes(machine, extents))
    end_with(cpu_write_report(driver, extents))
    write_bytes(machine, driver, extents, asked.data)
    return OK


def do_await(machine: Machine, driver: Driver, asked: OnMap) -> Answer:
    """Goes on after an `await` that need not wait."""
    map_ = existing(driver.maps, asked.map)
    return OK if map_.was_tried else Report("NotDeferred")


def do_device_access(machine: Machine, driver: Driver, asked: DevAccess) -> Answer:
    """Reads or writes bytes of a map's load for the device."""
    map_, loaded = loaded_map(driver, asked.map)
    judge_end(asked.off, asked.len, loaded)
    return device_access(machine, driver, map_, loaded, asked.off, asked.len, asked.data)


StepDoer = Callable[[Machine, Driver, Any], Answer]

DOERS: dict[str, StepDoer] = {
    "tag": do_tag, "iommu_tag": do_tag, "tag_destroy": do_tag_destroy, "map": do_map, "map_destroy": do_map_destroy,
    "dmamem": do_dmamem, "dmamem_free": do_dmamem_free, "load": load, "load_vector": load, "load_mbuf": load,
    "load_bio": load, "send": send, "resend": resend, "unload": unload, "sync": do_sync, "sync_range": do_sync,
    "cpu_read": do_cpu_access, "cpu_write": do_cpu_access, "await": do_await, "ring": make_ring, "ring_post": post,
    "kick": kick, "ring_step": ring_step, "dev_read": do_device_access, "dev_write": do_device_access,
    "dev_read_at": raw_access, "dev_write_at": raw_access,
}


def do_step(machine: Machine, driver: Driver, step: Step) -> Answer:
    """Does one operation or item, or a resend."""
    try:
        return DOERS[step.word](machine, driver, step)
    except StepEnds as end:
        return end.answer
