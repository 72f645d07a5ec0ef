"""What each step left, as JSON lines: `replay --states`.

The first line has the state in which the run begins, and the last one the end of the run. Each line between
them has an entry of the journal, what its answer was due to, and the state after it. A state has the fields
of the model's own dataclasses under their names. A `Runs` is a list of pairs, a step is its path, and the
tag, the memory and the zone of a map are their names and number.
"""

from __future__ import annotations

import json
from collections import deque
from collections.abc import Iterator
from dataclasses import fields, is_dataclass
from enum import Enum

from .answers import Entry
from .program import MAX_INPUT, TOO_LONG, Outcome, refused
from .ranges import Runs
from .reader import Refusal, read_scenario
from .report import end_lines, status_of
from .scenario import Step
from .state import Driver, LoadState, Map, MemoryBlock
from .tags import Tag
from .world import World, replay
from .zones import Zone

LEFT_OUT = {"plan", "reach", "memory_of_frame"}
State = dict[str, object]


def states(data: bytes) -> Outcome:
    """Replays a scenario; returns the status, what each step left, and the standard error."""
    if len(data) > MAX_INPUT:
        return TOO_LONG
    try:
        world = World(read_scenario(data))
    except Refusal as refusal:
        return refused(refusal)
    entries: list[Entry] = []
    lines: list[State] = [{"begin": state_of(world)}]
    for entry, state in entry_states(world):
        entries.append(entry)
        lines.append({**state_of_entry(entry), "state": state})
    lines.append({"end": "".join(end_lines(world, entries)).splitlines()})
    return status_of(world, entries), "".join(json.dumps(line) + "\n" for line in lines).encode(), b""


def entry_states(world: World) -> Iterator[tuple[Entry, State]]:
    """Replays a world; yields each entry with the state after it."""
    for entry in replay(world):
        yield entry, state_of(world)


def state_of_entry(entry: Entry) -> State:
    """Returns an entry, with what its answer was due to."""
    return {
        "number": entry.number,
        "actor": entry.actor,
        "path": entry.path,
        "done": entry.done,
        "answer": entry.answer.text(),
        "kind": type(entry.answer).__name__,
        "due_to": getattr(entry.answer, "cause", {}),
    }


def state_of(world: World) -> State:
    """Returns the state of a world."""
    return {
        "drivers": [state_of_driver(driver) for driver in world.drivers],
        "zones": [state_of_zone(zone, world.drivers) for zone in world.machine.zones],
        "callbacks": plain(world.machine.callbacks),
        "free_frames": list(world.machine.bank.frames),
        "can_step": [actor for actor in world.actors() if world.can_step(actor)],
    }


def state_of_driver(driver: Driver) -> State:
    """Returns the state of a driver: its next operation, what it made, its queues and its unknown bytes."""
    script = driver.plan.script
    at_end = driver.script_place == len(script)
    return {
        **members(driver),
        "next": None if at_end else script[driver.script_place].path,
        "maps": {name: state_of_map(map_) for name, map_ in driver.maps.items()},
        "memories": {name: state_of_memory(memory) for name, memory in driver.memories.items()},
        "device_spaces": {
            name: [
                [each.name, *each.load.device_pages]
                for each in driver.maps.values()
                if each.tag is tag and each.load is not None and each.load.device_pages is not None
            ]
            for name, tag in driver.tags.items()
            if tag.is_iommu
        },
    }


def state_of_map(map_: Map) -> State:
    """Returns the state of a map, with its load."""
    memory = map_.memory.name if map_.memory is not None else None
    load = state_of_load(map_.load) if map_.load is not None else None
    return {**members(map_), "tag": map_.tag.name, "memory": memory, "load": load}


def state_of_load(load: LoadState) -> State:
    """Returns a load, with its length and its need."""
    return {**members(load), "length": load.length(), "need": load.need()}


def state_of_memory(memory: MemoryBlock) -> State:
    """Returns a memory, with the virtual address at which its driver finds it."""
    return {**members(memory), "tag": memory.tag.name, "va": memory.virtual_address()}


def state_of_zone(zone: Zone, drivers: list[Driver]) -> State:
    """Returns a zone with its counts, its maps, and the loads that wait."""
    maps = [
        [driver.number, each.name] for driver in drivers for each in driver.maps.values() if each.zone == zone.number
    ]
    return {**members(zone), "total": zone.total(), "free": zone.free(), "maps": maps}


def members(value: object) -> State:
    """Returns the fields of a dataclass by their names."""
    assert is_dataclass(value)
    return {each.name: plain(getattr(value, each.name)) for each in fields(value) if each.name not in LEFT_OUT}


def plain(value: object) -> object:
    """Returns a value in the words of JSON."""
    match value:
        case Runs():
            return [list(pair) for pair in value]
        case Step():
            return value.path
        case Map() | MemoryBlock():
            return value.name
        case Enum():
            return value.value
        case frozenset():
            return sorted(value)
        case list() | tuple() | deque():
            return [plain(each) for each in value]
        case dict():
            return {str(key): plain(each) for key, each in value.items()}
        case Tag():
            return members(value)
    return members(value) if is_dataclass(value) else value
