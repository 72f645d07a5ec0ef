"""The text of a journal: the lines of the zones and the last line."""

from __future__ import annotations

from collections.abc import Iterable

from .answers import Entry, Report
from .world import World


def count_reports(entries: Iterable[Entry]) -> int:
    """Returns how many entries have a report as their answer."""
    return sum(isinstance(entry.answer, Report) for entry in entries)


def end_word(world: World) -> str:
    """Returns how a run ended."""
    return "finished" if world.is_finished() else "stuck"


def end_lines(world: World, entries: list[Entry]) -> list[str]:
    """Returns the lines that follow those of the steps."""
    lines = [line for zone in world.machine.zones for line in zone.lines()]
    lines.append(f"end {end_word(world)}, {len(entries)} entries, {count_reports(entries)} reports\n")
    return lines


def status_of(world: World, entries: list[Entry]) -> int:
    """Returns the exit status of a run."""
    if not world.is_finished():
        return 2
    return 1 if count_reports(entries) else 0
