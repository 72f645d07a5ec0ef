"""The storm: a scenario that is drawn from two numbers."""

from __future__ import annotations

import json

from .reader import read_scenario
from .scenario import Scenario

MASK = 2**64 - 1
DRIVERS = 4
FIRST_VA = 0x100000
Operation = dict[str, object]


class Draws:
    """The generator of the draws."""

    def __init__(self, seed: int) -> None:
        self.number = seed

    def draw(self) -> int:
        """Returns the next number."""
        self.number ^= self.number << 13 & MASK
        self.number ^= self.number >> 7
        self.number ^= self.number << 17 & MASK
        return self.number


def storm_scenario(rounds: int, seed: int) -> Scenario:
    """Returns the scenario of a storm."""
    draws = Draws(seed)
    drivers: list[object] = []
    for driver in range(DRIVERS):
        script: list[Operation] = [
            {"op": "tag", "name": "t", "lowaddr": 0xFFFFFF, "maxsize": 8192, "nsegments": 4},
            {"op": "map", "name": "m0", "tag": "t"},
            {"op": "map", "name": "m1", "tag": "t"},
        ]
        for _ in range(rounds):
            script += one_round(draws.draw(), draws.draw())
        drivers.append({"pages": [[FIRST_VA, 4096 + 16 * driver, 16]], "script": script})
    scenario = {"frames": [[16, 32], [4096, 64]], "max_bpages": 4, "drivers": drivers}
    return read_scenario(json.dumps(scenario).encode())


def one_round(p: int, q: int) -> list[Operation]:
    """Returns the four operations of a round that drew two numbers."""
    name = f"m{p % 2}"
    off, length = p // 2 % 4096, 1 + p // 8192 % 8192
    count = min(length, 64)
    byte, va = q // 2 % 256, FIRST_VA + 4096 * (q // 512 % 13) + off
    if q % 2 == 0:
        then: list[Operation] = [
            {"op": "sync", "map": name, "ops": ["PREWRITE"]},
            {"op": "dev_read", "map": name, "off": 0, "len": count},
            {"op": "sync", "map": name, "ops": ["POSTWRITE"]},
        ]
    else:
        then = [
            {"op": "sync", "map": name, "ops": ["PREREAD"]},
            {"op": "dev_write", "map": name, "off": 0, "fill": byte, "len": count},
            {"op": "sync", "map": name, "ops": ["POSTREAD"]},
        ]
    load: Operation = {"op": "load", "map": name, "va": va, "len": length, "then": then}
    wait: Operation = {"op": "await", "map": name}
    unload: Operation = {"op": "unload", "map": name}
    if q % 2 == 0:
        return [{"op": "cpu_write", "va": va, "fill": byte, "len": count}, load, wait, unload]
    return [load, wait, {"op": "cpu_read", "va": va, "len": count}, unload]
