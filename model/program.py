"""The program: its words, its exit statuses, and what it prints."""

from __future__ import annotations

import re
from collections.abc import Iterator

from .answers import Entry
from .check import first_wrong_line, read_check
from .reader import Refusal, read_scenario
from .report import count_reports, end_lines, end_word, status_of
from .scenario import Scenario
from .storm import storm_scenario
from .world import World, replay, rounds

MAX_INPUT = 16_777_216
MAX_ROUNDS = 256
MAX_SEED = 2**64 - 1
USAGE = "usage: busdma_run replay | run | storm N SEED | check\n"

Outcome = tuple[int, bytes, bytes]
TOO_LONG: Outcome = 66, b"", b"busdma_run: input is too long\n"


def run(words: list[str], data: bytes) -> Outcome:
    """Returns the exit status, the standard output and the standard error of the program.

    A `run` is answered by the rounds of a replay without the scenario's order, which is a legal run.
    """
    if not is_command(words):
        return 64, b"", USAGE.encode()
    if words[0] == "storm":
        return run_storm(int(words[1]), int(words[2]))
    if len(data) > MAX_INPUT:
        return TOO_LONG
    try:
        if words[0] == "check":
            return judge(*read_check(data))
        return run_scenario(read_scenario(data), words[0] == "replay")
    except Refusal as refusal:
        return refused(refusal)


def refused(refusal: Refusal) -> Outcome:
    """Returns the outcome of input that is refused."""
    return 65, b"", f"busdma_run: bad scenario: {refusal.text()}\n".encode()


def is_command(words: list[str]) -> bool:
    """Returns whether the words are a command."""
    if len(words) == 3 and words[0] == "storm":
        numbers = [int(word) if re.fullmatch("[0-9]{1,20}", word) else 0 for word in words[1:]]
        return 1 <= numbers[0] <= MAX_ROUNDS and 1 <= numbers[1] <= MAX_SEED
    return words in (["replay"], ["run"], ["check"])


def run_scenario(scenario: Scenario, with_order: bool) -> Outcome:
    """Runs a scenario and prints its journal."""
    world = World(scenario)
    steps: Iterator[Entry] = replay(world) if with_order else rounds(world)
    entries = list(steps)
    lines = [entry.line() for entry in entries] + end_lines(world, entries)
    return status_of(world, entries), "".join(lines).encode(), b""


def run_storm(rounds_of_each: int, seed: int) -> Outcome:
    """Replays a storm and prints its summary."""
    world = World(storm_scenario(rounds_of_each, seed))
    entries = list(replay(world))
    deferred = sum(zone.total_deferred for zone in world.machine.zones)
    summary = (
        f"storm {rounds_of_each} {seed}\nentries {len(entries)}\nreports {count_reports(entries)}\n"
        f"deferred {deferred}\nend {end_word(world)}\n"
    )
    return status_of(world, entries), summary.encode(), b""


def judge(scenario: Scenario, text: bytes) -> Outcome:
    """Judges a journal and prints the verdict."""
    wrong = first_wrong_line(scenario, text)
    return (0, b"yes\n", b"") if wrong is None else (1, f"no {wrong}\n".encode(), b"")
