"""What an entry of a journal means: its place in the scenario, its answer in words, and what to do."""

from __future__ import annotations

from collections.abc import Callable

from model.answers import BytesRead, Entry, InProgress, Loaded, PagesAdded, Refused, Report
from model.scenario import DevAccess, Load, MakeMap, MakeMemory, MakeTag, Place, RawAccess, Step, Sync
from model.state import Driver, Map

from . import mistakes, pages, refused
from .history import History, ops_in_words
from .words import count, labelled, listed, some, visible

LONGEST_LINE = 400
SOME_SEGMENTS = 4
WITHOUT_OFFSET = ("Absent", "MapBusy", "NotLoaded", "MixedSync", "NotDeferred")
NOTHING_LENT = "nothing is lent, because the memory is COHERENT"


def explain_entry(history: History, entry: Entry) -> list[str]:
    """Returns the explanation of an entry that was just taken."""
    driver = history.driver(entry.actor)
    lines = [visible(entry.line().rstrip("\n"), LONGEST_LINE)]
    if place := history.place(entry):
        lines += labelled("at", place)
    lines += labelled("means", in_words(history, driver, entry))
    if isinstance(entry.answer, Report):
        for fact in mistakes.facts_of_report(history, driver, entry, entry.answer):
            lines += labelled("because", fact)
        advice = advice_of_report(entry, entry.answer)
        lines += labelled("rule", advice.means) + (labelled("do", advice.todo) if advice.todo else [])
    elif not is_done(entry):
        for fact in refused.facts_of_refusal(history, driver, entry):
            lines += labelled("because", fact)
        lines += labelled("do", advice_of_refusal(history, driver, entry).means)
    for warned in history.warnings:
        if warned.entry is entry:
            lines += labelled("warning", warned.text)
    return lines


def is_done(entry: Entry) -> bool:
    """Returns whether an entry's operation was done: it is neither refused nor reported, and does not wait."""
    answer = entry.answer
    return not isinstance(answer, (Report, Refused, InProgress)) and not (isinstance(answer, PagesAdded) and not answer.made)


def advice_of_report(entry: Entry, report: Report) -> pages.Advice:
    """Returns what the page says of a report."""
    own = None
    if entry.done.startswith("ring_step "):
        own = pages.of_ring_step(report.name)
    elif entry.done.startswith("resend "):
        own = pages.of_resend(report.name)
    page = pages.of_report(report.name)
    return pages.Advice(page.means, f"{page.todo} {own.means}") if own is not None else page


def advice_of_refusal(history: History, driver: Driver, entry: Entry) -> pages.Advice:
    """Returns what the page says of an errno, as the answer of this operation."""
    errno, word = entry.answer.text().split(" ")[0], entry.done.split(" ")[0]
    if word == "ring_step" and (row := pages.of_ring_step(errno)) is not None:
        return row
    if word == "resend" and (row := pages.of_resend(errno)) is not None:
        return row
    if word == "send" and errno == "EFBIG":
        begin = "EFBIG, and no resend" if driver.resend is None else "EFBIG, then a step resend"
        own = next((row for row in pages.rows() if pages.plain(row[0]) == begin), None)
        return pages.Advice(pages.sentence(pages.plain(own[1])), "") if own is not None else pages.of_errno(errno, word)
    map_ = driver.maps.get(entry.done.split(" ")[-1])
    return pages.of_errno(errno, word, map_ is not None and map_.tag.is_iommu)


# The answer in words


def in_words(history: History, driver: Driver, entry: Entry) -> str:
    """Returns an entry in words: who did what, and what came of it."""
    return f"{who(history, driver, entry)}: {outcome(history, driver, entry)}"


def who(history: History, driver: Driver, entry: Entry) -> str:
    """Returns who did what."""
    asked, word = history.asked(entry), entry.done.split(" ")[0]
    actor = {"s": f"driver {driver.number}", "d": f"the device of driver {driver.number}"}.get(entry.actor[0], f"driver {driver.number}")
    if word == "callback":
        return f"the callback of driver {driver.number}'s load of {entry.done.split(' ')[1]}, which waited"
    if word == "release":
        return f"driver {driver.number} gives back bounce page {entry.done.split(' ')[2]} of map {entry.done.split(' ')[1]}"
    if word == "resend":
        return f"driver {driver.number} copies the chain of map {entry.done.split(' ')[1]} to its clusters and loads these"
    if word == "ring_step":
        return f"{actor} takes the descriptor at the head of ring {entry.done.split(' ')[1]}"
    if asked is None:
        return f"{actor} {entry.done}"
    if entry.actor[0] == "d" and isinstance(asked, Sync):
        actor = f"an item of driver {driver.number}"
    return f"{actor} {DOINGS[word](asked)}"


def place_in_words(place: Place) -> str:
    """Returns a place in words."""
    return f"{place.va:#x}" if place.va is not None else f"{place.mem}+{place.off}"


def load_in_words(asked: Step) -> str:
    """Returns a load in words."""
    assert isinstance(asked, Load)
    return f"loads {count(asked.length(), 'byte')} by map {asked.map}"


def sync_in_words(asked: Step) -> str:
    """Returns a sync in words."""
    assert isinstance(asked, Sync)
    what = f"bytes {asked.off} to {asked.off + asked.len - 1} of " if asked.len else ""
    return f"syncs {what}map {asked.map} with {listed(ops_in_words(asked)) or 'no operation'}"


def access_in_words(asked: Step) -> str:
    """Returns an access of the device in words."""
    assert isinstance(asked, (DevAccess, RawAccess))
    verb = "reads" if asked.data is None else "writes"
    if isinstance(asked, RawAccess):
        return f"{verb} {count(asked.len, 'byte')} at device address {asked.addr:#x} of tag {asked.tag}"
    return f"{verb} {count(asked.len, 'byte')} from byte {asked.off} of the load of map {asked.map}"


DOINGS: dict[str, Callable[[Step], str]] = {
    "tag": lambda asked: f"makes tag {getattr(asked, 'name')}",
    "iommu_tag": lambda asked: f"makes IOMMU tag {getattr(asked, 'name')}",
    "tag_destroy": lambda asked: f"destroys tag {getattr(asked, 'tag')}",
    "map": lambda asked: f"makes map {getattr(asked, 'name')} of tag {getattr(asked, 'tag')}",
    "map_destroy": lambda asked: f"destroys map {getattr(asked, 'map')}",
    "dmamem": lambda asked: f"allocates memory {getattr(asked, 'name')} by tag {getattr(asked, 'tag')}",
    "dmamem_free": lambda asked: f"frees memory {getattr(asked, 'mem')}",
    "load": load_in_words,
    "load_vector": load_in_words,
    "load_mbuf": load_in_words,
    "load_bio": load_in_words,
    "send": lambda asked: f"sends {count(getattr(asked, 'length')(), 'byte')} by map {getattr(asked, 'map')}",
    "unload": lambda asked: f"unloads map {getattr(asked, 'map')}",
    "sync": sync_in_words,
    "sync_range": sync_in_words,
    "cpu_read": lambda asked: f"reads {count(getattr(asked, 'len'), 'byte')} at {place_in_words(getattr(asked, 'place'))}",
    "cpu_write": lambda asked: f"writes {count(getattr(asked, 'len'), 'byte')} at {place_in_words(getattr(asked, 'place'))}",
    "await": lambda asked: f"waits for map {getattr(asked, 'map')}",
    "ring": lambda asked: f"makes ring {getattr(asked, 'name')} in memory {getattr(asked, 'mem')}",
    "ring_post": lambda asked: f"posts {count(getattr(asked, 'len'), 'byte')} of map {getattr(asked, 'map')} "
                               f"to slot {getattr(asked, 'slot')} of ring {getattr(asked, 'ring')}",
    "kick": lambda asked: f"starts {count(getattr(asked, 'count'), 'step')} of the device of ring {getattr(asked, 'ring')}",
    "dev_read": access_in_words,
    "dev_write": access_in_words,
    "dev_read_at": access_in_words,
    "dev_write_at": access_in_words,
}


def outcome(history: History, driver: Driver, entry: Entry) -> str:
    """Returns what came of an entry."""
    answer = entry.answer
    match answer:
        case Report():
            where = "" if answer.name in WITHOUT_OFFSET else f" at byte {answer.offset}"
            return f"refused, and reported as {answer.name}{where}; nothing has changed"
        case Refused():
            return f"refused with {answer.errno}"
        case InProgress():
            waits = f"the load waits: it has {answer.have} of the {count(answer.need, 'bounce page')} that it needs"
            return f"{waits}. Its callback comes later"
        case PagesAdded():
            return pages_added(history, entry, answer)
        case Loaded():
            return loaded(driver.maps[entry.done.split(" ")[1]], answer)
        case BytesRead():
            return f"done; {count(len(answer.data), 'byte')} read"
    if answer.text() == "idle":
        advice = pages.of_ring_step("idle")
        return advice.means if advice is not None else "the descriptor at the head is not the device's"
    return done_in_words(history, driver, entry)


def pages_added(history: History, entry: Entry, answer: PagesAdded) -> str:
    """Returns what a tag or a map added to its zone."""
    total = history.world.machine.zones[answer.zone].total()
    grown = f"zone {answer.zone} got {count(answer.count, 'bounce page')} and has {total} in all"
    return f"done; {grown}" if answer.made else f"refused with ENOMEM, nothing was made; {grown}"


def loaded(map_: Map, answer: Loaded) -> str:
    """Returns a load that is done in words."""
    load = map_.load
    if not answer.segments:
        return "done; the load has no byte and no segment"
    shown = some([segment.text() for segment in answer.segments[:SOME_SEGMENTS]])
    if len(answer.segments) > SOME_SEGMENTS:
        shown = f"{shown} and more"
    bounced = len(load.pages) if load is not None else 0
    pages_said = f", through {count(bounced, 'bounce page')} of zone {map_.zone}" if bounced else ", without bounce pages"
    return f"done; {count(len(answer.segments), 'segment')} for the device, {shown}{pages_said}"


def done_in_words(history: History, driver: Driver, entry: Entry) -> str:
    """Returns what an entry did whose answer has no more facts."""
    asked = history.asked(entry)
    if entry.done.startswith("release "):
        ready = int(entry.answer.text().removeprefix("ok ready "))
        return f"done; {count(ready, 'waiting load')} {'has' if ready == 1 else 'have'} all pages now"
    if isinstance(asked, MakeMemory):
        return f"done; it is at physical address {entry.answer.text().removeprefix('ok ')}"
    if isinstance(asked, Sync):
        return synced(driver, asked)
    if isinstance(asked, MakeTag):
        tag = driver.tags.get(asked.name)
        if tag is None or tag.is_iommu:
            return "done"
        return "done; its loads may bounce" if tag.could_bounce(history.world.machine.end_of_memory) else "done; its loads never bounce"
    if entry.done.startswith("unload "):
        returned = sum(name == entry.done.split(" ")[1] for name, _ in driver.returns)
        return f"done; {count(returned, 'page')} to give back" if returned else "done; the map is idle"
    if isinstance(asked, MakeMap):
        return "done; its loads never bounce"
    return "done"


def synced(driver: Driver, asked: Sync) -> str:
    """Returns what a sync did."""
    map_ = driver.maps.get(asked.map)
    if map_ is None or map_.load is None:
        return "done"
    if map_.is_coherent():
        return f"done; {NOTHING_LENT}"
    to_read, to_write = map_.load.lent_to_read.count(), map_.load.lent_to_write.count()
    return f"done; the map now lends {count(to_read, 'byte')} to read and {count(to_write, 'byte')} to write"
