"""The forms that a run of the comparison must meet.

A form is a short text: what a line of a journal did and answered, which fields, flags, kinds and items a scenario
has, which status a run has, and which refusal names which field of which object. `wanted` lists all of them, and
`met` gives those that one run has. The comparison prints the forms that none of its runs met.
"""
from __future__ import annotations

import json
import re
from typing import Any, Iterator

Fields = dict[str, Any]

# The fields of each operation, of each item and of the other objects, in the order in which they are read.
LOADS = ("load", "load_vector", "load_mbuf", "load_bio", "send")
OPERATIONS: dict[str, tuple[str, ...]] = {
    "tag": ("name", "parent", "alignment", "boundary", "lowaddr", "highaddr", "maxsize", "nsegments", "maxsegsz", "flags"),
    "iommu_tag": ("name", "lowaddr", "boundary", "maxsize", "nsegments", "maxsegsz"),
    "tag_destroy": ("tag",),
    "map": ("name", "tag"),
    "map_destroy": ("map",),
    "dmamem": ("name", "tag", "flags"),
    "dmamem_free": ("mem",),
    "load": ("map", "va", "mem", "len", "flags", "then"),
    "load_vector": ("map", "entries", "flags", "then"),
    "load_mbuf": ("map", "entries", "then"),
    "load_bio": ("map", "bio", "flags", "then"),
    "send": ("map", "entries", "clusters", "then"),
    "unload": ("map",),
    "sync": ("map", "ops"),
    "sync_range": ("map", "off", "len", "ops"),
    "cpu_read": ("va", "mem", "off", "len"),
    "cpu_write": ("va", "mem", "off", "hex", "fill", "len"),
    "await": ("map",),
    "ring": ("name", "mem", "slots"),
    "ring_post": ("ring", "slot", "map", "off", "len", "kind", "fill"),
    "kick": ("ring", "count"),
}
ITEMS: dict[str, tuple[str, ...]] = {
    "sync": ("map", "ops"),
    "sync_range": ("map", "off", "len", "ops"),
    "dev_read": ("map", "off", "len"),
    "dev_write": ("map", "off", "hex", "fill", "len"),
    "dev_read_at": ("tag", "addr", "len"),
    "dev_write_at": ("tag", "addr", "hex", "fill", "len"),
}
BIOS: dict[str, tuple[str, ...]] = {"mapped": ("va", "len"), "vector": ("entries",), "unmapped": ("frames", "off", "len")}
NAMES = ("parent", "tag", "map", "mem", "ring")
FLAGS = {
    "tag": ("ALLOCNOW", "KEEP_PG_OFFSET", "WAITOK"),
    "load": ("NOWAIT", "WAITOK"),
    "load_vector": ("NOWAIT", "WAITOK"),
    "load_bio": ("NOWAIT", "WAITOK"),
    "dmamem": ("NOWAIT", "ZERO", "COHERENT", "WAITOK"),
}
OPS = ("PREREAD", "POSTREAD", "PREWRITE", "POSTWRITE")

# What lines can answer. A word is followed by the kind of its map where that matters.
LOAD_ANSWERS = "ok+segments ok EFBIG EINVAL ENOMEM Absent MapBusy Unmapped"
ANSWERS: dict[str, str] = {
    "s tag": "ok ok+zone ENOMEM+zone EINVAL Absent",
    "s iommu_tag": "ok EINVAL",
    "s tag_destroy tag": "ok EBUSY Absent",
    "s tag_destroy iommu_tag": "ok EBUSY Absent",
    "s map": "ok ok+zone ENOMEM+zone Absent",
    "s map_destroy map": "ok EBUSY Absent",
    "s map_destroy iommu_map": "ok EBUSY Absent",
    "s dmamem": "ok+address ENOMEM Absent",
    "s dmamem_free": "ok EBUSY Absent",
    **{f"s {word} map": f"{LOAD_ANSWERS} ForeignMemory" for word in ("load", "load_vector", "load_mbuf", "load_bio", "send")},
    **{f"s {word} iommu_map": LOAD_ANSWERS for word in ("load", "load_vector", "load_mbuf", "load_bio", "send")},
    "s load memory": "ok+segments ok EFBIG Absent MapBusy Unmapped ForeignMemory",
    "s load_vector memory": "ok+segments ForeignMemory",
    "s load_bio memory": "ForeignMemory",
    "s resend": "ok+segments ENOMEM EFBIG Unmapped ForeignMemory CpuReadLent StaleByte CpuWriteLent",
    "c callback": "ok+segments EFBIG",
    "s release": "ok+ready",
    "s unload map": "ok NotLoaded Absent",
    "s unload memory": "ok NotLoaded Absent",
    "s unload iommu_map": "ok NotLoaded Absent",
    **{f"{side} sync map": "ok Absent NotLoaded MixedSync SyncOrder Overlap" for side in "sd"},
    **{f"{side} sync memory": "ok NotLoaded MixedSync" for side in "sd"},
    **{f"{side} sync iommu_map": "ok NotLoaded SyncOrder" for side in "sd"},
    **{f"{side} sync_range map": "ok Absent NotLoaded PastEnd MixedSync SyncOrder Overlap" for side in "sd"},
    **{f"{side} sync_range memory": "ok NotLoaded PastEnd" for side in "d"},
    "s await map": "ok Absent NotDeferred",
    "s await memory": "ok Absent NotDeferred",
    "s await iommu_map": "ok Absent NotDeferred",
    "s cpu_read": "bytes bytes+some Absent Unmapped CpuReadLent StaleByte",
    "s cpu_write": "ok Absent Unmapped CpuWriteLent",
    "d dev_read map": "bytes bytes+some Absent NotLoaded PastEnd DeviceReadUnlent StaleByte",
    "d dev_read memory": "bytes+some Absent NotLoaded PastEnd StaleByte DeviceReadUnlent",
    "d dev_read iommu_map": "bytes+some NotLoaded PastEnd DeviceReadUnlent",
    "d dev_write map": "ok Absent NotLoaded PastEnd DeviceWriteUnlent",
    "d dev_write memory": "ok Absent NotLoaded PastEnd DeviceWriteUnlent",
    "d dev_write iommu_map": "ok NotLoaded PastEnd DeviceWriteUnlent",
    "d dev_read_at": "bytes bytes+some Absent Untranslated DeviceReadUnlent StaleByte",
    "d dev_write_at": "ok Absent Untranslated DeviceWriteUnlent",
    "s ring": "ok EINVAL Absent",
    "s ring_post": "ok EINVAL Absent NotLoaded PastEnd",
    "s kick": "ok Absent",
    "d ring_step": "ok bytes+some idle EINVAL Absent NotLoaded PastEnd StaleByte Untranslated DeviceReadUnlent DeviceWriteUnlent",
}
for _word in ("load", "load_vector", "load_bio"):
    ANSWERS[f"s {_word} map"] += " EINPROGRESS"
# The words of a line whose map is of three kinds.
BY_KIND = {key.split()[1] for key in ANSWERS if len(key.split()) == 3}
LIMITS = ("frame_number", "frames", "max_bpages", "drivers", "order", "steps", "entries", "access", "reads", "buffer", "loaded")


def answers_wanted() -> Iterator[str]:
    for did, answers in ANSWERS.items():
        yield from (f"{did} -> {answer}" for answer in answers.split())


def fields_wanted() -> Iterator[str]:
    """Each field is there in a scenario that is read; each word of a list of flags is, too."""
    for word, names in OPERATIONS.items():
        yield from (f"has {word}.{name}" for name in names)
    for word, names in ITEMS.items():
        yield from (f"has then.{word}.{name}" for name in names)
    for kind, names in BIOS.items():
        yield from (f"has bio.{kind}.{name}" for name in names)
    for word, flags in FLAGS.items():
        yield from (f"has {word}.flags {flag}" for flag in flags)
    yield from (f"has sync.ops {word}" for word in OPS)
    yield from ("has order", "has max_bpages", "has a number in hexadecimal", "has no pages", "has several drivers")


def refusals_of(place: str, names: tuple[str, ...]) -> Iterator[str]:
    """The refusals that fields of an object can have."""
    yield f"BadField {place}.?"
    for name in names:
        if name != "then":
            yield f"BadField {place}.{name}"
        if name in NAMES:
            yield f"UnknownName {place}.{name}"
        if name in ("flags", "ops"):
            yield f"BadFlag {place}.{name}[]"
            yield f"BadField {place}.{name}[]"
    if names != ("va", "len") and ("va" in names or "hex" in names):
        yield f"BadField {place}"


def refusals_wanted() -> Iterator[str]:
    yield from ("NotJson", "BadHeader", "BadField", "BadField ?")
    yield from (f"BadField {name}" for name in ("frames", "drivers", "order", "max_bpages"))
    yield from ("BadField frames[]", "FrameTwice frames[]", "BadField order[]", "BadField driver")
    yield from ("BadField driver.?", "BadField driver.pages", "BadField driver.script", "BadField driver.pages[]")
    yield from ("FrameAbsent driver.pages[]", "FrameTwice driver.pages[]")
    for word, names in OPERATIONS.items():
        yield from refusals_of(word, names)
    for word, names in ITEMS.items():
        yield from refusals_of(f"then.{word}", names)
    for kind, names in BIOS.items():
        yield from refusals_of(f"bio.{kind}", names)
    yield from ("BadField load_bio.bio.kind", "FrameAbsent bio.unmapped.frames[]", "BadField bio.unmapped.frames[]")
    yield from ("BadField operation", "BadOp operation.op", "BadField operation.op", "BadField item.op", "BadOp item.op")
    yield "BadField load.then[]"
    for word in ("load_vector", "load_mbuf", "send"):
        yield from (f"BadField {word}.entries[]", f"BadField {word}.entries[].va", f"BadField {word}.entries[].len")
    yield from ("BadField send.clusters[]", "BadField load.then")
    yield from (f"Limit({name})" for name in LIMITS)


def wanted() -> set[str]:
    """All forms."""
    made = {f"status {status}" for status in (0, 1, 2, 64, 65)} | {"end finished", "end stuck", "zones 0", "zones 1", "zones 2"}
    made |= {"check yes", "check no"}
    return made | set(answers_wanted()) | set(fields_wanted()) | set(refusals_wanted())


# What a run has


def answer_of(text: str) -> str:
    """The form of an answer."""
    if text.startswith("report "):
        return text.split()[1]
    for beginning, form in (("ok zone", "ok+zone"), ("ENOMEM zone", "ENOMEM+zone"), ("ok ready", "ok+ready"), ("bytes ", "bytes+some")):
        if text.startswith(beginning):
            return form
    if re.match(r"ok 0x[0-9a-f]+$", text):
        return "ok+address"
    return "ok+segments" if text.startswith("ok ") else text.split()[0]


def kinds_of(script: list[Fields]) -> dict[str, str]:
    """The kind of each name that a script makes."""
    kinds: dict[str, str] = {}
    for step in script:
        if step["op"] in ("tag", "iommu_tag"):
            kinds[step["name"]] = step["op"]
        elif step["op"] == "map":
            kinds[step["name"]] = "iommu_map" if kinds.get(step["tag"]) == "iommu_tag" else "map"
        elif step["op"] == "dmamem":
            kinds[step["name"]] = "memory"
    return kinds


def met_by_journal(scenario: Fields, journal: str) -> Iterator[str]:
    kinds = [kinds_of(driver["script"]) for driver in scenario["drivers"]]
    for actor, driver, word, name, answer in re.findall(r"^\d+ ([sdc])(\d+) (\w+)(?: (\w+))?.* -> (.*)$", journal, re.M):
        kind = f" {kinds[int(driver)].get(name, '?')}" if word in BY_KIND else ""
        yield f"{actor} {word}{kind} -> {answer_of(answer)}"
    yield from re.findall(r"^(end \w+),", journal, re.M)
    yield f"zones {min(journal.count('.alignment: '), 2)}"


def met_by_scenario(scenario: Fields) -> Iterator[str]:
    yield from (f"has {name}" for name in ("order", "max_bpages") if name in scenario)
    if len(scenario["drivers"]) > 1:
        yield "has several drivers"
    for driver in scenario["drivers"]:
        if not driver.get("pages"):
            yield "has no pages"
        for step in driver["script"]:
            word = step["op"]
            yield from (f"has {word}.{name}" for name in step)
            yield from (f"has {word}.flags {flag}" for flag in step.get("flags", ()))
            yield from (f"has {word}.ops {it}" for it in step.get("ops", ()))
            yield from (f"has then.{item['op']}.{name}" for item in step.get("then", ()) for name in item)
            if "bio" in step:
                yield from (f"has bio.{step['bio']['kind']}.{name}" for name in step["bio"])


def met_by_refusal(text: bytes, refusal: str) -> Iterator[str]:
    """The form of a refusal: in place of the keys before it, its path has the word of the object that it is in."""
    kind, _, path = refusal.partition(" ")
    if kind.startswith("Limit"):
        yield kind
        return
    try:
        here = json.loads(text)
    except ValueError:
        yield refusal
        return
    place, rest = "", path
    while rest:
        if isinstance(here, list) and (number := re.match(r"\[(\d+)\]", rest)):
            here, rest = here[int(number[1])], rest[number.end() :]
            place = {"drivers[]": "driver", "driver.script[]": "operation"}.get(f"{place}[]", f"{place}[]")
            place = "item" if place.endswith(".then[]") and isinstance(here, dict) else place
            continue
        rest = rest.removeprefix(".")
        keys = [key for key in here if rest == key or rest.startswith((f"{key}.", f"{key}["))] if isinstance(here, dict) else []
        key = max(keys, key=len, default=rest)
        place = object_at(place, here, key)
        known = known_fields(place)
        place = f"{place}." * bool(place) + (key if known is None or key in known else "?")
        here, rest = here.get(key) if isinstance(here, dict) else None, rest[len(key) :]
    yield f"{kind} {object_at(place, here, '')}".strip()


def object_at(place: str, here: Any, key: str) -> str:
    """The name in the tables of an object at a place, of which this key is looked at."""
    if not isinstance(here, dict):
        return place
    word = str(here.get("op", ""))
    if place == "operation" and word in OPERATIONS and key != "op":
        return word
    if place == "item" and word in ITEMS and key != "op":
        return f"then.{word}"
    if place.endswith("load_bio.bio") and str(here.get("kind")) in BIOS and key != "kind":
        return f"bio.{here['kind']}"
    return place


def known_fields(place: str) -> tuple[str, ...] | None:
    """The fields of the object with this name, or None where every key is known."""
    tables: dict[str, tuple[str, ...]] = {"": ("frames", "max_bpages", "drivers", "order"), "driver": ("pages", "script")}
    tables |= OPERATIONS | {f"then.{word}": names for word, names in ITEMS.items()}
    tables |= {f"bio.{kind}": names for kind, names in BIOS.items()}
    return tables.get(place)


def met(text: bytes, status: int, journal: bytes, said: bytes) -> set[str]:
    """The forms of a replay."""
    made = {f"status {status}"}
    if status == 65:
        return made | set(met_by_refusal(text, said.decode().removeprefix("busdma_run: bad scenario: ").rstrip("\n")))
    if status > 2:
        return made
    scenario = json.loads(text)
    if re.search(rb'"0x[0-9a-fA-F]+"', text):
        made.add("has a number in hexadecimal")
    return made | set(met_by_scenario(scenario)) | set(met_by_journal(scenario, journal.decode()))
