"""Scenarios drawn from a seed.

A scenario is made of scenes: a tag with its maps, a transfer, a crowd of loads that wait for each other, a ring, a
send, a memory, a device behind an IOMMU. Many scenes get a mistake: a step is left out, done twice, moved, or done
with another number or name. So most steps do something, and every report has its cause somewhere. All scenarios are
ones that the program reads; model/broken.py makes those that it refuses.
"""
from __future__ import annotations

import copy
import random
from typing import Any

from .drawn_scenes import Scenes
from .drawn_steps import FIRST_VA, HIGH, LOW, PAGE, Fields

# The words whose operations make a name.
MAKERS = ("tag", "iommu_tag", "map", "dmamem", "ring")


class Driver(Scenes):
    """A driver whose scenes have mistakes."""

    def numbers_of(self, step: Fields) -> list[str]:
        return [key for key in ("off", "len", "va", "addr") if isinstance(step.get(key), int) and step[key] < 2**62]

    def mistaken(self, steps: list[Fields]) -> None:
        """Makes one mistake among the steps of a scene or the items of a load, which makes no name."""
        places = [k for k, step in enumerate(steps) if step["op"] not in MAKERS]
        if not places:
            return
        at = self.some(*places)
        step = steps[at]
        if step.get("then") and self.one_in(2):
            self.mistaken(step["then"])
            return
        choice = self.rng.randrange(5)
        if choice == 0:
            del steps[at]
        elif choice == 1:
            steps.insert(at, copy.deepcopy(step))
        elif choice == 2 and at + 1 in places:
            steps[at], steps[at + 1] = steps[at + 1], steps[at]
        elif choice == 3 and self.numbers_of(step):
            key = self.some(*self.numbers_of(step))
            limit = 64 if step["op"] != "load" else 2 * PAGE
            step[key] = max(step[key] + self.some(-8, -1, 1, 4, 16, PAGE if key == "va" else 1), 0)
            if key == "len":
                step[key] = min(step[key], limit)
        elif "map" in step and not step["op"] == "map_destroy":
            made = self.map_of()
            step["map"] = made.name if made else step["map"]

    def play(self, scenes: int) -> None:
        """Draws so many scenes into the script."""
        kinds = [self.scene_transfer] * 5 + [self.scene_syncs] * 2 + [self.scene_making] * 2 + [self.scene_crowd] * 3
        kinds += [self.scene_memory, self.scene_ends, self.scene_ring, self.scene_ring, self.scene_send, self.scene_send]
        kinds += [self.scene_iommu, self.scene_iommu, self.scene_hungry_send, self.scene_stale, self.scene_gone]
        for _ in range(scenes):
            self.scene = []
            before = len(self.script)
            self.some(*kinds)()
            if self.one_in(2):
                self.mistaken(self.scene)
            self.script += self.scene
            if sum(1 + len(step.get("then", ())) + step.get("count", 0) for step in self.script) > 3500:
                del self.script[before:]
                return


def in_order(steps: list[Fields]) -> list[Fields]:
    """The steps without those that use a name before it is made, which a mistake may leave."""
    made: dict[str, str] = {}
    kept = []
    for step in steps:
        used = [step[key] for key in ("parent", "tag", "map", "mem", "ring") if key in step]
        step["then"] = [item for item in step.get("then", ()) if item.get("map", item.get("tag")) in made]
        if not step["then"]:
            del step["then"]
        if all(name in made for name in used):
            kept.append(step)
            if step["op"] in MAKERS:
                made[step["name"]] = step["op"]
    return kept


def pages_of(rng: random.Random, free: list[int]) -> list[list[int]]:
    """Some pages at one stretch of virtual addresses, in frames that are mostly scattered."""
    pages: list[list[int]] = []
    va = FIRST_VA
    for _ in range(min(rng.choice((1, 2, 3, 4, 6)), len(free) // 3)):
        count = rng.choice((1, 1, 1, 2, 3))
        at = rng.randrange(len(free))
        run = [frame for k, frame in enumerate(free[at : at + count]) if frame == free[at] + k]
        pages.append([va, run[0], len(run)])
        free[:] = [frame for frame in free if frame not in run]
        va += PAGE * len(run)
    return pages


def in_hex(rng: random.Random, value: Any, key: str = "") -> Any:
    """The scenario with some of its numbers as hexadecimal texts."""
    if isinstance(value, dict):
        return {name: in_hex(rng, it, name) for name, it in value.items()}
    if isinstance(value, list):
        return [in_hex(rng, it, key) for it in value]
    if isinstance(value, int) and (value > 0xFFFF or rng.randrange(9) == 0):
        return f"0x{value:x}" if rng.randrange(4) else f"0x{value:X}"
    return value


def scenario(seed: str, large: bool = False) -> Fields:
    """The scenario of a seed."""
    rng = random.Random(seed)
    low, high = rng.choice(((2, 24), (4, 24), (6, 24), (8, 24), (8, 24), (12, 24), (16, 24), (24, 0)))
    free = [LOW + k for k in range(low)][max(low - rng.choice((0, 1, 3)) - 8 * (not high), 2):] + [HIGH + k for k in range(high)]
    drivers = []
    for _ in range(rng.choice((1, 1, 1, 2, 2, 3, 4))):
        driver = Driver(rng, pages_of(rng, free) if rng.randrange(20) else [])
        driver.play(rng.choice((2, 3, 4, 6, 8)) * (8 if large else 1))
        drivers.append({"pages": driver.pages, "script": in_order(driver.script)})
    frames = [[LOW, low], [HIGH, high]] if high else [[LOW, low]]
    made: Fields = {"frames": frames, "drivers": drivers}
    if rng.randrange(4):
        made["max_bpages"] = rng.choice((1, 1, 2, 2, 3, 4, 8))
    if rng.randrange(3) == 0:
        made["order"] = [rng.choice("sssdc") + str(rng.randrange(len(drivers))) for _ in range(rng.choice((5, 40, 200)))]
    return in_hex(rng, made)
