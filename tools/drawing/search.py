"""Tries orders of the actors of a scenario, and finds the first that is stuck or reports.

An order has the actors of the first steps of a run; after it the run goes in rounds, as `replay` does. Every element of
an order that is tried can step, so `replay` skips none of them.
"""

from __future__ import annotations

import random
from collections.abc import Iterator
from dataclasses import dataclass

from model.answers import Entry, Report
from model.report import end_lines
from model.scenario import Scenario
from model.world import World, replay, rounds

WEIGHTS = (1, 6, 36)


@dataclass(frozen=True)
class Run:
    """A run that has ended: its entries and how it ended."""

    entries: list[Entry]
    is_finished: bool
    last_line: str

    @staticmethod
    def of(world: World, entries: list[Entry]) -> Run:
        """Returns the run of a world in which no actor can step."""
        return Run(entries, world.is_finished(), end_lines(world, entries)[-1].rstrip("\n"))

    def order(self) -> list[str]:
        """Returns the actors of all steps."""
        return [entry.actor for entry in self.entries]

    def first_report(self) -> Entry | None:
        """Returns the first entry that is a report."""
        return next((entry for entry in self.entries if isinstance(entry.answer, Report)), None)

    def is_clean(self) -> bool:
        """Returns whether the run is neither stuck nor has a report."""
        return self.is_finished and self.first_report() is None

    def outcome(self) -> str:
        """Returns how the run ended, with the names of its reports."""
        names = sorted({entry.answer.name for entry in self.entries if isinstance(entry.answer, Report)})
        return ("finished" if self.is_finished else "stuck") + (f", reports {' '.join(names)}" if names else ", no report")


def own_run(scenario: Scenario) -> Run:
    """Returns the replay of a scenario in its own order."""
    world = World(scenario)
    return Run.of(world, list(replay(world)))


def run_after(scenario: Scenario, order: list[str]) -> Run:
    """Returns the run that begins with an order and goes on in rounds."""
    world = World(scenario)
    taken = [world.step(actor) for actor in order]
    entries = [entry for entry in taken if entry is not None]
    return Run.of(world, [*entries, *rounds(world)])


def drawn_run(scenario: Scenario, draws: random.Random) -> Run:
    """Returns a run whose actors are drawn; some actors are drawn more often than others."""
    world = World(scenario)
    weights = {actor: draws.choice(WEIGHTS) for actor in world.actors()}
    entries: list[Entry] = []
    while able := [actor for actor in weights if world.can_step(actor)]:
        entry = world.step(draws.choices(able, [weights[actor] for actor in able])[0])
        assert entry is not None
        entries.append(entry)
    return Run.of(world, entries)


@dataclass(frozen=True)
class ShortOrders:
    """All orders of one length, and whether they are all complete runs."""

    length: int
    orders: list[list[str]]
    are_all: bool


def short_orders(scenario: Scenario, most: int) -> ShortOrders:
    """Returns all orders of the greatest length of which there are at most so many."""
    found: list[list[str]] = [[]]
    length = 0
    while True:
        longer: list[list[str]] = []
        for order in found:
            if len(order) < length:
                longer.append(order)
                continue
            able = able_after(scenario, order)
            longer += [[*order, actor] for actor in able] if able else [order]
            if len(longer) > most:
                return ShortOrders(length, found, False)
        if longer == found:
            return ShortOrders(length, found, True)
        found, length = longer, length + 1


def able_after(scenario: Scenario, order: list[str]) -> list[str]:
    """Returns the actors that can step after an order."""
    world = World(scenario)
    for actor in order:
        world.step(actor)
    return [actor for actor in world.actors() if world.can_step(actor)]


def shortest(scenario: Scenario, faulty: Run) -> tuple[list[str], Run]:
    """Returns the beginning of a faulty run after which the rounds have the same outcome, and the run with it."""
    order = faulty.order()
    report = faulty.first_report()
    enough = report.number + 1 if report is not None and faulty.is_finished else len(order)
    best = enough, run_after(scenario, order[:enough])
    least, length = 0, 0
    while length < best[0]:
        tried = run_after(scenario, order[:length])
        if not tried.is_clean() and tried.is_finished == faulty.is_finished:
            best = length, tried
            break
        least, length = length + 1, max(1, 2 * length)
    while least < best[0]:
        middle = (least + best[0]) // 2
        tried = run_after(scenario, order[:middle])
        if not tried.is_clean() and tried.is_finished == faulty.is_finished:
            best = middle, tried
        else:
            least = middle + 1
    return order[: best[0]], best[1]


def all_runs(scenario: Scenario, short: ShortOrders, tries: int, seed: int) -> Iterator[Run]:
    """Yields the runs of the short orders, and then the drawn ones unless all orders were among these."""
    for order in short.orders:
        yield run_after(scenario, order)
    if not short.are_all:
        draws = random.Random(seed)
        for _ in range(tries):
            yield drawn_run(scenario, draws)
