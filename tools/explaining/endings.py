"""The end of a run: what is left, what was missed, and why a run is stuck."""

from __future__ import annotations

from collections import Counter

from model.answers import Report
from model.ranges import Runs
from model.report import end_word
from model.scenario import OnMap
from model.state import Driver, LoadState, MapState
from model.zones import Waiter

from .history import History, bytes_in_words
from .refused import can_it_grow, zone_in_words
from .words import count, labelled, listed

MOST_WARNINGS = 40
MOST_LEFT = 40


def explain_end(history: History, all_warnings: bool) -> list[str]:
    """Returns the explanation of the end of a run."""
    word = end_word(history.world)
    found = Counter(entry.answer.name for entry in history.entries if isinstance(entry.answer, Report))
    reports = f" ({listed([f'{number} {name}' for name, number in found.most_common()])})" if found else ""
    lines = [f"end {word}, {count(len(history.entries), 'entry', 'entries')}, {count(history.reports, 'report')}{reports}"]
    if word == "stuck":
        lines += stuck(history)
    lines += left_over(history)
    lines += missed(history, all_warnings)
    if len(lines) == 1:
        also = "" if history.reports else ", and no sync is missing"
        lines += labelled("left", f"nothing is left loaded, allocated or lent{also}")
    return lines


# Stuck


def stuck(history: History) -> list[str]:
    """Returns who waits for whom, and why."""
    lines: list[str] = []
    for driver in history.world.drivers:
        if driver.has_ended():
            continue
        step = driver.plan.script[driver.script_place]
        assert isinstance(step, OnMap)
        lines += labelled("stuck", f"driver {driver.number} waits for map {step.map} at {step.path}, {history.source.where(step.path)}")
        waiter = waiter_of(history, driver, step.map)
        if waiter is not None:
            for fact in why_stuck(history, driver, waiter):
                lines += labelled("because", fact)
    return lines


def waiter_of(history: History, driver: Driver, name: str) -> Waiter | None:
    """Returns what a map's load waits for."""
    for zone in history.world.machine.zones:
        for waiter in zone.waiting:
            if waiter.driver == driver.number and waiter.map == name:
                return waiter
    return None


def why_stuck(history: History, driver: Driver, waiter: Waiter) -> list[str]:
    """Returns why a load waits for ever."""
    zone = history.world.machine.zones[waiter.zone]
    story = history.story(driver, waiter.map)
    asked = f", asked for by {history.since(story.entry)}," if story is not None else ""
    facts = [f"its load{asked} needs {count(waiter.need, 'page')} of zone {zone.number} and has {waiter.have}",
             zone_in_words(history, zone)]
    if waiter.need > zone.total():
        facts.append("the zone never has so many pages: load less at once, or let the zone grow before the load, by more maps or a "
                     "greater max_bpages")
        facts.append(can_it_grow(history, zone, driver.maps[waiter.map].tag))
        return facts
    ahead = [each for each in zone.waiting[: zone.waiting.index(waiter)]]
    if ahead:
        facts.append(f"{listed([f'map {each.map} of driver {each.driver} (has {each.have} of {each.need})' for each in ahead])} "
                     "began to wait earlier and must be served first")
    return facts + [fact for other in history.world.drivers for fact in how_held(history, other, driver, zone.number)]


def how_held(history: History, other: Driver, waiting: Driver, zone: int) -> list[str]:
    """Returns why a driver does not give back the pages that it holds."""
    facts: list[str] = []
    for map_ in other.maps.values():
        if map_.zone != zone or map_.load is None or not map_.load.pages:
            continue
        unload = next((step for step in other.plan.script[other.script_place :]
                       if isinstance(step, OnMap) and step.word == "unload" and step.map == map_.name), None)
        if unload is not None:
            own = ("the same script waits before this operation: unload first, then wait" if other is waiting
                   else "that script is stuck as well")
            facts.append(f"only {unload.path} ({history.source.where(unload.path)}) unloads map {map_.name} of driver {other.number}, "
                         f"and {own}")
        else:
            facts.append(f"driver {other.number} never unloads map {map_.name} in the rest of its script")
    return facts


# What is left


def left_over(history: History) -> list[str]:
    """Returns the maps that are loaded or wait, what they lend, and the memories that were not freed."""
    facts: list[tuple[str, str]] = []
    for driver in history.world.drivers:
        for map_ in driver.maps.values():
            story = history.story(driver, map_.name)
            if map_.state is MapState.IDLE or map_.load is None or story is None:
                continue
            begun = history.since(story.callback or story.entry)
            if map_.state is MapState.WAITING:
                facts.append(("waiting", f"the load of map {map_.name} of driver {driver.number} by {begun} never got its pages"))
                continue
            lent = [f"lends {bytes_in_words(positions)} to {way} since entry {entry}"
                    for way, positions, entry in lent_still(map_.load)]
            facts.append(("loaded", f"map {map_.name} of driver {driver.number} is loaded since {begun} and was not unloaded"
                                    f"{'; it ' + listed(lent) if lent else ''}"))
        for memory in driver.memories.values():
            made = history.named[driver.number, memory.name][0]
            facts.append(("memory", f"memory {memory.name} of driver {driver.number}, made by {history.since(made)}, was not freed: "
                                    f"`dmamem_free` with `mem` {memory.name} frees it"))
    lines = [line for label, fact in facts[:MOST_LEFT] for line in labelled(label, fact)]
    return lines + (labelled("", f"and {len(facts) - MOST_LEFT} more") if len(facts) > MOST_LEFT else [])


def lent_still(load: LoadState) -> list[tuple[str, Runs, int]]:
    """Returns which positions of a load are lent, in which way, and since which entry the first of them."""
    found: list[tuple[str, Runs, int]] = []
    for way, positions in (("read", load.lent_to_read), ("write", load.lent_to_write)):
        entries = [loan.entry for loan in load.loans if loan.way == f"to {way}"]
        if positions and entries:
            found.append((way, positions, min(entries)))
    return found


def missed(history: History, all_warnings: bool) -> list[str]:
    """Returns the syncs that a careful driver makes and this one did not, and others that did nothing."""
    lines: list[str] = []
    shown = history.warnings if all_warnings else history.warnings[:MOST_WARNINGS]
    for warned in shown:
        lines += labelled("warning", f"{history.since(warned.entry)}: {warned.text}")
    if len(shown) < len(history.warnings):
        lines += labelled("", f"and {len(history.warnings) - len(shown)} more warnings; `--all` shows them")
    for text in coherent_notes(history):
        lines += labelled("note", text)
    return lines


def coherent_notes(history: History) -> list[str]:
    """Returns which coherent memories a device used without a sync."""
    notes: list[str] = []
    for driver in history.world.drivers:
        for name, map_ in driver.maps.items():
            stories = history.stories.get((driver.number, name), [])
            bare = [story for story in stories if story.first_access is not None and not story.syncs]
            if map_.is_coherent() and bare and bare[0].first_access is not None:
                notes.append(f"the device used memory {name} of driver {driver.number} without any sync, first in "
                             f"{history.since(bare[0].first_access)}: allowed here, because it is COHERENT. To bus_dma(9) that is a hint, "
                             "so a driver that shall run on other machines makes PREWRITE, PREREAD and the POST operations all the same")
    return notes
