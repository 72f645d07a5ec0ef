"""Judges a printed journal: the first line that is not right, if there is one."""

from __future__ import annotations

import re

from .answers import Entry
from .reader import Refusal, read_scenario
from .report import end_lines
from .scenario import Scenario
from .world import World

HEADER = re.compile(rb"(0|[1-9][0-9]{0,7})\n")


def read_check(data: bytes) -> tuple[Scenario, bytes]:
    """Returns the scenario and the text of a check, or raises `Refusal`."""
    header = HEADER.match(data)
    if header is None or len(data) - header.end() < int(header.group(1)):
        raise Refusal("BadHeader")
    end = header.end() + int(header.group(1))
    return read_scenario(data[header.end() : end]), data[end:]


def first_wrong_line(scenario: Scenario, text: bytes) -> int | None:
    """Returns the number, from 1, of the first line that is not right or is missing."""
    world = World(scenario)
    entries: list[Entry] = []
    lines = text.split(b"\n")
    lines = [line + b"\n" for line in lines[:-1]] + ([lines[-1]] if lines[-1] else [])
    place = 0
    while any(world.can_step(actor) for actor in world.actors()):
        line = lines[place] if place < len(lines) else b""
        words = line.split(b" ")
        actor = words[1].decode("ascii", "replace") if len(words) > 1 else ""
        entry = world.step(actor) if actor in world.actors() else None
        if entry is None or entry.line().encode() != line:
            return place + 1
        entries.append(entry)
        place += 1
    rest = [line.encode() for line in end_lines(world, entries)]
    for line in rest:
        if place == len(lines) or lines[place] != line:
            return place + 1
        place += 1
    return place + 1 if place < len(lines) else None
