"""A journal that the check refuses: what the line is, and the lines that could be there instead."""

from __future__ import annotations

import re
from itertools import zip_longest

from model.answers import Entry
from model.loads import items_are_queued
from model.report import end_lines
from model.scenario import OnMap
from model.state import MapState
from model.world import World

from .history import History
from .words import count, labelled, listed, visible

LINE = re.compile(r"(\d+) (\S+) (.*?) -> (.*)")
MOST_STEPS_SKIPPED = 3
LONGEST_LINE = 400
LONG_ANSWER = 80


def lines_of(text: bytes) -> list[bytes]:
    """Returns the lines of a journal, each with its line feed if it has one."""
    lines = text.split(b"\n")
    return [line + b"\n" for line in lines[:-1]] + ([lines[-1]] if lines[-1] else [])


def actor_of(line: bytes) -> str:
    """Returns the actor that a line names."""
    words = line.split(b" ", 2)
    return words[1].decode("ascii", "replace") if len(words) > 1 else ""


def shown(line: bytes) -> str:
    """Returns a line of a journal as text that is safe to show."""
    return visible(line.decode("utf-8", "replace").rstrip("\n"), 200)


def explain_wrong_line(history: History, lines: list[bytes], wrong: int, name: str) -> list[str]:
    """Returns why a line, by its number from 1, is not right; the lines before it were followed already."""
    world = history.world
    line = lines[wrong - 1] if wrong <= len(lines) else None
    says = f"{name}:{wrong}: the check says `no {wrong}`"
    found = [f"{says}: " + (f"all {count(len(lines), 'line')} are right, but the journal ends too early" if line is None else
                            "this is the first line that is not right")]
    if line is not None:
        found.append(f"  {wrong} | {shown(line)}")
    stepping = [actor for actor in world.actors() if world.can_step(actor)]
    if not stepping:
        return found + wrong_at_the_end(history, line, wrong, len(lines))
    could = [(actor, entry) for actor in stepping if (entry := world.copy().step(actor)) is not None]
    if line is not None:
        for reason in why_wrong(history, line, could):
            found += labelled("because", reason)
    found.append(f"{'this line' if len(could) == 1 else 'these lines'} could be line {wrong}:")
    for actor, entry in could:
        place = history.source.where(entry.path) if entry.path else ""
        found.append(f"  {actor:5} {visible(entry.line().rstrip(), LONGEST_LINE)}" + (f"    ({entry.path}, {place})" if place else ""))
    waiting = [f"{actor} ({why_no_step(world, actor)})" for actor in world.actors() if actor not in stepping]
    return found + (labelled("waiting", f"no step now: {'; '.join(waiting)}") if waiting else [])


def why_wrong(history: History, line: bytes, could: list[tuple[str, Entry]]) -> list[str]:
    """Returns why a line is not one of those that could be there."""
    world = history.world
    text = line.decode("utf-8", "replace")
    form = form_of(text)
    if form:
        return form
    parts = LINE.fullmatch(text[:-1])
    if parts is None:
        if re.match(r"hw\.busdma\.|end ", text):
            return [f"the run is not over: {listed([actor for actor, _ in could])} can still step"]
        return ["the line is none of a journal: `NUMBER ACTOR WHAT -> ANSWER`"]
    number, actor, done, answer = parts.groups()
    own = next((entry for name, entry in could if name == actor), None)
    if actor not in world.actors():
        return [f"`{visible(actor)}` is no actor: there are {listed(world.actors()[:12])}"]
    if own is None:
        return [f"{actor} cannot step now: {why_no_step(world, actor)}", *missing_before(world, done, answer, actor)]
    if own.done != done:
        return [f"the next step of {actor} is `{own.done}`, not `{visible(done)}`", *missing_before(world, done, answer, actor)]
    if own.answer.text() != answer:
        return [f"{actor} answers `{visible(own.answer.text())}` here, not `{visible(answer)}`", *first_difference(own.answer.text(), answer),
                *missing_before(world, done, answer, actor)]
    return [f"the number is {own.number}, not {visible(number)}"]


def first_difference(right: str, wrong: str) -> list[str]:
    """Returns the first word in which two long answers differ."""
    if max(len(right), len(wrong)) <= LONG_ANSWER:
        return []
    for place, (one, other) in enumerate(zip_longest(right.split(" "), wrong.split(" "), fillvalue="nothing"), 1):
        if one != other:
            return [f"word {place} of the answer is the first that differs: {visible(one)} here, not {visible(other)}"]
    return []


def form_of(text: str) -> list[str]:
    """Returns what is wrong with the form of a line."""
    if not text.endswith("\n"):
        return ["the line has no line feed at its end: the journal was cut here"]
    if text.endswith("\r\n"):
        return ["the line ends with carriage return and line feed: the program writes line feeds only"]
    if text == "\n":
        return ["the line is empty"]
    if text != text.strip() + "\n" or "  " in text:
        return ["the line has a space too many"]
    return []


def missing_before(world: World, done: str, answer: str, actor: str) -> list[str]:
    """Returns which steps are missing before a line, if a few steps of one actor make it right."""
    for other in world.actors():
        copied = world.copy()
        skipped: list[Entry] = []
        for _ in range(MOST_STEPS_SKIPPED):
            entry = copied.step(other)
            if entry is None:
                break
            skipped.append(entry)
            next_entry = copied.copy().step(actor)
            if next_entry is not None and (next_entry.done, next_entry.answer.text()) == (done, answer):
                lines = listed([f"`{each.actor} {each.done} -> {each.answer.text()}`" for each in skipped])
                return [f"it would be right after {lines}: {'is this line' if len(skipped) == 1 else 'are these lines'} missing, or later?"]
    return []


def why_no_step(world: World, actor: str) -> str:
    """Returns why an actor cannot step."""
    driver = world.drivers[int(actor[1:])]
    if actor[0] == "d":
        return "no item is queued"
    if actor[0] == "c":
        callbacks = world.machine.callbacks
        return f"driver {callbacks[0].driver}'s callback is first" if callbacks else "no callback is due"
    if driver.script_place == len(driver.plan.script):
        return "its script has ended"
    step = driver.plan.script[driver.script_place]
    assert isinstance(step, OnMap)
    map_ = driver.maps[step.map]
    if map_.state is MapState.WAITING:
        return f"it awaits {step.map}, whose load waits for pages"
    return f"it awaits {step.map}, of which items are queued" if items_are_queued(driver, step.map) else "it awaits a map"


def wrong_at_the_end(history: History, line: bytes | None, wrong: int, total: int) -> list[str]:
    """Returns what must follow after the last step."""
    rest = end_lines(history.world, history.entries)
    place = wrong - 1 - len(history.entries)
    if place >= len(rest):
        return labelled("because", f"the journal ends with line {wrong - 1}, and {count(total - wrong + 1, 'line')} "
                                   f"follow{'s' if total == wrong else ''}: remove what follows")
    found: list[str] = []
    if line is not None:
        text = line.decode("utf-8", "replace")
        reasons = form_of(text)
        if not reasons and LINE.fullmatch(text[:-1]):
            reasons = ["no actor can step any more: the lines of the zones and the last line follow"]
        for reason in reasons:
            found += labelled("because", reason)
    return [*found, f"this line must be line {wrong}:", f"  {rest[place].rstrip()}"]
