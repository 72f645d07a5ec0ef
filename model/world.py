"""A world: the machine and its drivers, whose actors take one step after the other.

A world can be copied: `copy` shares the scenario, which never changes, and nothing else.
"""

from __future__ import annotations

import copy
from collections.abc import Iterator

from .answers import Answer, Entry
from .drivers import do_step
from .loads import await_is_blocked, call_back, release
from .scenario import OnMap, Scenario
from .state import Driver, open_driver, open_machine


class World:
    """The state of a run."""

    def __init__(self, scenario: Scenario) -> None:
        self.scenario = scenario
        self.machine = open_machine(scenario)
        self.drivers = [open_driver(number, plan) for number, plan in enumerate(scenario.drivers)]

    def copy(self) -> World:
        """Returns a world in the same state, which goes on by itself."""
        return copy.deepcopy(self)

    def actors(self) -> list[str]:
        """Returns all actors in the order of a round."""
        return [f"{kind}{driver.number}" for driver in self.drivers for kind in "cds"]

    def can_step(self, actor: str) -> bool:
        """Returns whether the actor can take a step now."""
        driver = self.drivers[int(actor[1:])]
        if actor[0] == "c":
            return bool(self.machine.callbacks) and self.machine.callbacks[0].driver == driver.number
        if actor[0] == "d":
            return bool(driver.transfers)
        if driver.returns or driver.resend is not None:
            return True
        if driver.script_place == len(driver.plan.script):
            return False
        step = driver.plan.script[driver.script_place]
        return not (isinstance(step, OnMap) and step.word == "await" and await_is_blocked(driver, step.map))

    def step(self, actor: str) -> Entry | None:
        """Takes the actor's step and returns its entry, or `None` if the actor cannot step."""
        if not self.can_step(actor):
            return None
        driver = self.drivers[int(actor[1:])]
        path, done, answer = self._take(actor[0], driver)
        entry = Entry(self.machine.entries, actor, path, done, answer)
        self.machine.entries += 1
        return entry

    def _take(self, kind: str, driver: Driver) -> tuple[str, str, Answer]:
        """Takes a step; returns its path in the scenario, what was done, and the answer."""
        if kind == "c":
            map_, path, answer = call_back(self.machine, driver)
            return path, f"callback {map_.name}", answer
        if kind == "d":
            step = driver.transfers.popleft()
            return step.path, step.done(), do_step(self.machine, driver, step)
        if driver.returns:
            return "", *release(self.machine, driver)
        if driver.resend is not None:
            return driver.resend.path, driver.resend.done(), do_step(self.machine, driver, driver.resend)
        step = driver.plan.script[driver.script_place]
        driver.script_place += 1
        return step.path, step.done(), do_step(self.machine, driver, step)

    def is_finished(self) -> bool:
        """Returns whether all scripts have ended."""
        return all(driver.has_ended() for driver in self.drivers)


def replay(world: World) -> Iterator[Entry]:
    """Takes all steps of a world: first by the scenario's order, then in rounds."""
    for actor in world.scenario.order:
        entry = world.step(actor)
        if entry is not None:
            yield entry
    yield from rounds(world)


def rounds(world: World) -> Iterator[Entry]:
    """Takes the steps of a world in rounds, until no actor can step."""
    went_on = True
    while went_on:
        went_on = False
        for actor in world.actors():
            entry = world.step(actor)
            if entry is not None:
                went_on = True
                yield entry
