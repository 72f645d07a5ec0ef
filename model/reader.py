"""Reads a scenario from its bytes, or refuses it with the first refusal in the order of reading.

The tables at the end of this module are those of the pages: each word with its fields, in order.
"""

from __future__ import annotations

import re
from collections.abc import Callable
from dataclasses import dataclass, field
from enum import Enum
from typing import Any, NoReturn

from .json_text import JsonNumber, JsonValue, NotJson, read_json
from .ranges import Runs
from .scenario import (
    PAGE, CpuAccess, DevAccess, DriverPlan, FrameRun, Kick, Load, LoadedRun, MakeMap, MakeMemory, MakeRing, MakeTag,
    MemoryRun, OnMap, OnMemory, OnTag, Pages, Place, RawAccess, RingPost, Scenario, Step, Sync, VirtualRun, Words,
)

MAX_FRAMES = 8192
MAX_FRAME_NUMBER = 2**30
MAX_BPAGES = 8192
MAX_DRIVERS = 16
MAX_ORDER = 65_536
MAX_STEPS = 4096
MAX_ENTRIES = 4096
MAX_ACCESS = 4096
MAX_READS = 1_048_576
MAX_BUFFER = 1_048_576
MAX_LOADED = 16_777_216
MAX_COUNT = 4096
END_OF_PAGES = 0xFFFFF80000000000
U32 = 2**32 - 1
U64 = 2**64 - 1
BIO_KEYS = {"mapped": "kind va len", "vector": "kind entries", "unmapped": "kind frames off len"}


@dataclass
class Refusal(Exception):
    """Why a scenario is refused: the kind of the refusal and its path."""
    kind: str
    path: str = ""

    def text(self) -> str:
        """Returns the refusal as it is printed."""
        return f"{self.kind} {self.path}" if self.path else self.kind


class Kind(Enum):
    """What a name of a script names."""
    TAG = "tag"
    IOMMU_TAG = "iommu_tag"
    MAP = "map"
    MEMORY = "memory"
    RING = "ring"


@dataclass(frozen=True)
class Missing:
    """The value of a field that is not there."""


@dataclass(frozen=True)
class Node:
    """A value of the JSON text, or a missing one, with its path."""
    value: JsonValue | Missing
    path: str = ""

    def refuse(self, kind: str = "BadField") -> NoReturn:
        """Refuses the scenario for this value."""
        raise Refusal(kind, self.path)

    def has(self, key: str) -> bool:
        """Returns whether an object has a key."""
        return isinstance(self.value, dict) and key in self.value

    def get(self, key: str) -> Node:
        """Returns a member of an object, which may be missing."""
        assert isinstance(self.value, dict)
        return Node(self.value.get(key, Missing()), f"{self.path}.{key}" if self.path else key)

    def object(self) -> Node:
        """Returns this value, which must be an object."""
        return self if isinstance(self.value, dict) else self.refuse()

    def test_keys(self, table: str) -> None:
        """Refuses the first key, in byte order, that is not in the object's table."""
        assert isinstance(self.value, dict)
        unknown = sorted(self.value.keys() - set(table.split()))
        if unknown:
            self.get(unknown[0]).refuse()

    def number(self, default: int | None = None, greatest: int = U64) -> int:
        """Returns a number that is at most `greatest`; without a default it must be there."""
        if isinstance(self.value, Missing) and default is not None:
            return default
        number: int | None = None
        if isinstance(self.value, JsonNumber):
            number = self.value.whole
        elif isinstance(self.value, str) and re.fullmatch("0x[0-9a-fA-F]{1,16}", self.value):
            number = int(self.value[2:], 16)
        return number if number is not None and number <= greatest else self.refuse()

    def text(self) -> str:
        """Returns a text."""
        return self.value if isinstance(self.value, str) else self.refuse()

    def name(self) -> str:
        """Returns a well-formed name."""
        return self.text() if re.fullmatch("[a-z][a-z0-9_]{0,31}", self.text()) else self.refuse()

    def elements(self, limit: str = "", most: int = 0, required: bool = True) -> list[Node]:
        """Returns the elements of a list, of which a limit may allow so many."""
        if isinstance(self.value, Missing) and not required:
            return []
        if not isinstance(self.value, list):
            self.refuse()
        if limit and len(self.value) > most:
            self.refuse(f"Limit({limit})")
        return [Node(element, f"{self.path}[{place}]") for place, element in enumerate(self.value)]

    def numbers(self, count: int) -> list[int]:
        """Returns the numbers of a list of so many; each refusal has the path of the list."""
        if not isinstance(self.value, list) or len(self.value) != count:
            self.refuse()
        return [Node(element, self.path).number() for element in self.value]

    def words(self, known: str, required: bool = False) -> Words:
        """Returns the words of a list of known words."""
        for element in self.elements(required=required):
            if element.text() not in known.split():
                element.refuse("BadFlag")
        return frozenset(element.text() for element in self.elements(required=required))

    def entries(self) -> tuple[VirtualRun, ...]:
        """Returns the entries of a load."""
        found: list[VirtualRun] = []
        for element in self.elements("entries", MAX_ENTRIES):
            element.object().test_keys("va len")
            found.append(VirtualRun(element.get("va").number(), element.get("len").number()))
        return tuple(found)


def read_scenario(data: bytes) -> Scenario:
    """Returns the scenario that the bytes are, or raises `Refusal`."""
    try:
        value = read_json(data)
    except NotJson as damage:
        raise Refusal("NotJson") from damage
    return _ScenarioReader().scenario(Node(value))


@dataclass
class _ScenarioReader:
    """What was counted over all drivers so far."""
    frames: set[int] = field(default_factory=set)
    frames_of_drivers: set[int] = field(default_factory=set)
    reads: int = 0
    loaded: int = 0

    def scenario(self, top: Node) -> Scenario:
        """Reads the top object."""
        top.object().test_keys("frames max_bpages drivers order")
        frames = [self.frame_run(run) for run in top.get("frames").elements()]
        max_bpages = top.get("max_bpages").number(MAX_BPAGES)
        if not 1 <= max_bpages <= MAX_BPAGES:
            top.get("max_bpages").refuse("Limit(max_bpages)")
        drivers = [self.driver(plan) for plan in top.get("drivers").elements("drivers", MAX_DRIVERS)]
        order = top.get("order").elements("order", MAX_ORDER, required=False)
        actors = {f"{kind}{number}" for kind in "scd" for number in range(len(drivers))}
        named = [element.text() if element.text() in actors else element.refuse() for element in order]
        return Scenario(tuple(frames), max_bpages, tuple(drivers), tuple(named))

    def frame_run(self, run: Node) -> tuple[int, int]:
        """Reads an element of `frames`."""
        first, count = run.numbers(2)
        if count < 1:
            run.refuse()
        if first + count > MAX_FRAME_NUMBER:
            run.refuse("Limit(frame_number)")
        if len(self.frames) + count > MAX_FRAMES:
            run.refuse("Limit(frames)")
        added = set(range(first, first + count))
        if added & self.frames:
            run.refuse("FrameTwice")
        self.frames |= added
        return first, count

    def driver(self, plan: Node) -> DriverPlan:
        """Reads a driver."""
        plan.object().test_keys("pages script")
        script = _ScriptReader(self)
        pages = [self.pages(run, script) for run in plan.get("pages").elements(required=False)]
        operations = [script.step(operation, OPERATIONS) for operation in plan.get("script").elements()]
        return DriverPlan(tuple(pages), tuple(operations))

    def pages(self, run: Node, script: _ScriptReader) -> Pages:
        """Reads an element of `pages`."""
        va, frame, count = run.numbers(3)
        if count < 1 or va % PAGE != 0 or va + PAGE * count > END_OF_PAGES:
            run.refuse()
        if count > MAX_FRAMES or not self.frames.issuperset(range(frame, frame + count)):
            run.refuse("FrameAbsent")
        frames = set(range(frame, frame + count))
        if frames & self.frames_of_drivers:
            run.refuse("FrameTwice")
        virtual = set(range(va // PAGE, va // PAGE + count))
        if virtual & script.virtual_pages:
            run.refuse()
        self.frames_of_drivers |= frames
        script.frames |= frames
        script.virtual_pages |= virtual
        return Pages(va, frame, count)


@dataclass
class _ScriptReader:
    """What the script of one driver has so far."""
    whole: _ScenarioReader
    frames: set[int] = field(default_factory=set)
    virtual_pages: set[int] = field(default_factory=set)
    names: dict[str, Kind] = field(default_factory=dict)
    steps: int = 0

    def count_steps(self, count: int, step: Node) -> None:
        """Counts operations and items."""
        self.steps += count
        if self.steps > MAX_STEPS:
            step.refuse("Limit(steps)")

    def step(self, step: Node, tables: dict[str, Table]) -> Step:
        """Reads an operation or an item by the table of its word."""
        self.count_steps(1, step.object())
        word = step.get("op").text()
        if word not in tables:
            step.get("op").refuse("BadOp")
        table = tables[word]
        step.test_keys(" ".join(["op", *(part.keys for part in table.parts)]))
        values: Values = {"word": word, "path": step.path}
        for part in table.parts:
            part.read(self, step, values)
        if table.makes is not None:
            self.names[values["name"]] = table.makes
        return table.step(**values)

    def known_name(self, node: Node, *kinds: Kind) -> str:
        """Returns a name that an earlier operation made in one of these kinds."""
        name = node.name()
        return name if self.names.get(name) in kinds else node.refuse("UnknownName")


Values = dict[str, Any]


@dataclass(frozen=True)
class Part:
    """A part of a table: its keys, and how it is read into values of the step. A limit has no keys."""
    keys: str
    read: Callable[[_ScriptReader, Node, Values], None]


@dataclass(frozen=True)
class Table:
    """The table of a word: the step that is read, its parts in the order of reading, and what it makes."""
    step: type[Step]
    parts: tuple[Part, ...]
    makes: Kind | None = None


def number(key: str, default: int | None = None, greatest: int = U64) -> Part:
    """Returns the part of a field that is a number."""
    return Part(key, lambda script, step, values: values.update({key: step.get(key).number(default, greatest)}))


def name_of(key: str, *kinds: Kind) -> Part:
    """Returns the part of a field that names what an earlier operation made."""
    return Part(key, lambda script, step, values: values.update({key: script.known_name(step.get(key), *kinds)}))


def flags(known: str) -> Part:
    """Returns the part of a field `flags`."""
    return Part("flags", lambda script, step, values: values.update(flags=step.get("flags").words(known)))


def read_new_name(script: _ScriptReader, step: Node, values: Values) -> None:
    """Reads the name that an operation makes."""
    values["name"] = step.get("name").name()
    if values["name"] in script.names:
        step.get("name").refuse()


def read_parent(script: _ScriptReader, step: Node, values: Values) -> None:
    """Reads the parent of a tag, if it has one."""
    values["parent"] = script.known_name(step.get("parent"), Kind.TAG) if step.has("parent") else None


def read_ops(script: _ScriptReader, step: Node, values: Values) -> None:
    """Reads the operations of a sync."""
    values["ops"] = step.get("ops").words("PREREAD POSTREAD PREWRITE POSTWRITE", required=True)


def read_nowait(script: _ScriptReader, step: Node, values: Values) -> None:
    """Reads the flags of a load: without NOWAIT it may wait."""
    values["may_wait"] = "NOWAIT" not in step.get("flags").words("NOWAIT WAITOK")


def read_place(script: _ScriptReader, step: Node, values: Values) -> None:
    """Reads a place, in either of its forms."""
    if step.has("va") == step.has("mem") or (step.has("va") and step.has("off")):
        step.refuse()
    if step.has("va"):
        values["place"] = Place(step.get("va").number(), None, 0)
    else:
        values["place"] = Place(None, script.known_name(step.get("mem"), Kind.MEMORY), step.get("off").number(0))


def read_loaded_place(script: _ScriptReader, step: Node, values: Values) -> None:
    """Reads the place and the length of a `load`."""
    read_place(script, step, values)
    place: Place = values.pop("place")
    length = step.get("len").number()
    values["runs"] = (VirtualRun(place.va, length) if place.va is not None else MemoryRun(place.mem or "", length),)


def read_entries(script: _ScriptReader, step: Node, values: Values) -> None:
    """Reads the entries of a load."""
    values["runs"] = step.get("entries").entries()


def read_bio(script: _ScriptReader, step: Node, values: Values) -> None:
    """Reads a bio: its kind first, then its keys, then its fields."""
    bio = step.get("bio").object()
    kind = bio.get("kind").text()
    if kind not in BIO_KEYS:
        bio.get("kind").refuse()
    bio.test_keys(BIO_KEYS[kind])
    runs: tuple[LoadedRun, ...]
    if kind == "vector":
        runs = bio.get("entries").entries()
    elif kind == "mapped":
        runs = (VirtualRun(bio.get("va").number(), bio.get("len").number()),)
    else:
        frames: list[int] = []
        for element in bio.get("frames").elements("entries", MAX_ENTRIES):
            frames.append(element.number())
            if frames[-1] not in script.frames:
                element.refuse("FrameAbsent")
        runs = (FrameRun(tuple(frames), bio.get("off").number(None, PAGE - 1), bio.get("len").number()),)
    values["runs"] = runs


def read_clusters(script: _ScriptReader, step: Node, values: Values) -> None:
    """Reads the clusters of a send, after its entries."""
    named = Runs.of((run.va, run.va + run.len) for run in values["runs"])
    clusters: dict[int, None] = {}
    for element in step.get("clusters").elements("entries", MAX_ENTRIES):
        cluster = element.number()
        if cluster % PAGE != 0 or cluster in clusters or named.within(cluster, cluster + PAGE):
            element.refuse()
        clusters[cluster] = None
    values["clusters"] = tuple(clusters)


def read_then(script: _ScriptReader, step: Node, values: Values) -> None:
    """Reads the items of a load."""
    items = step.get("then").elements(required=False)
    values["then"] = tuple(script.step(item, ITEMS) for item in items)


def read_bytes(script: _ScriptReader, step: Node, values: Values) -> None:
    """Reads the bytes of a write, in either form, and judges how many they are."""
    if step.has("hex") == step.has("fill") or (step.has("hex") and step.has("len")):
        step.refuse()
    if step.has("hex"):
        digits = step.get("hex").text()
        if not re.fullmatch("([0-9a-fA-F]{2})*", digits):
            step.get("hex").refuse()
        pattern, times = bytes.fromhex(digits), 1
    else:
        pattern, times = bytes([step.get("fill").number(None, 255)]), step.get("len").number()
    values["len"] = len(pattern) * times
    judge_access(script, step, values)
    values["data"] = pattern * times


def judge_access(script: _ScriptReader, step: Node, values: Values) -> None:
    """Judges the length of an access."""
    if values["len"] > MAX_ACCESS:
        step.refuse("Limit(access)")


def judge_read(script: _ScriptReader, step: Node, values: Values) -> None:
    """Judges the length of a read, and counts its bytes."""
    judge_access(script, step, values)
    script.whole.reads += values["len"]
    if script.whole.reads > MAX_READS:
        step.refuse("Limit(reads)")


def judge_load(script: _ScriptReader, step: Node, values: Values) -> None:
    """Judges the length of a load, and counts its bytes; those of a send count twice."""
    length = sum(run.len for run in values["runs"])
    if length > MAX_BUFFER:
        step.refuse("Limit(buffer)")
    script.whole.loaded += 2 * length if values["word"] == "send" else length
    if script.whole.loaded > MAX_LOADED:
        step.refuse("Limit(loaded)")


def judge_kick(script: _ScriptReader, step: Node, values: Values) -> None:
    """Judges the count of a kick, and counts the steps that it asks for."""
    if values["count"] == 0:
        step.get("count").refuse()
    script.count_steps(values["count"], step)


NEW_NAME = Part("name", read_new_name)
MAP = name_of("map", Kind.MAP, Kind.MEMORY)
MEMORY = name_of("mem", Kind.MEMORY)
RING = name_of("ring", Kind.RING)
ANY_TAG = name_of("tag", Kind.TAG, Kind.IOMMU_TAG)
IOMMU_TAG = name_of("tag", Kind.IOMMU_TAG)
OFF, LEN = number("off"), number("len")
OPS = Part("ops", read_ops)
PLACE = Part("va mem off", read_place)
ENTRIES = Part("entries", read_entries)
NOWAIT = Part("flags", read_nowait)
BYTES = Part("hex fill len", read_bytes)
READ_LIMITS = Part("", judge_read)
LOAD_END = Part("", judge_load), Part("then", read_then)
SIZES = number("maxsize", U32), number("nsegments", 65536, U32), number("maxsegsz", U32)

ITEMS: dict[str, Table] = {
    "sync": Table(Sync, (MAP, OPS)),
    "sync_range": Table(Sync, (MAP, OFF, LEN, OPS)),
    "dev_read": Table(DevAccess, (MAP, OFF, LEN, READ_LIMITS)),
    "dev_write": Table(DevAccess, (MAP, OFF, BYTES)),
    "dev_read_at": Table(RawAccess, (IOMMU_TAG, number("addr"), LEN, READ_LIMITS)),
    "dev_write_at": Table(RawAccess, (IOMMU_TAG, number("addr"), BYTES)),
}

OPERATIONS: dict[str, Table] = {
    "tag": Table(MakeTag, (
        NEW_NAME, Part("parent", read_parent), number("alignment", 1), number("boundary", 0), number("lowaddr", U64),
        number("highaddr", U64), *SIZES, flags("ALLOCNOW KEEP_PG_OFFSET WAITOK"),
    ), Kind.TAG),
    "iommu_tag": Table(MakeTag, (NEW_NAME, number("lowaddr", U32), number("boundary", 0), *SIZES), Kind.IOMMU_TAG),
    "tag_destroy": Table(OnTag, (ANY_TAG,)),
    "map": Table(MakeMap, (NEW_NAME, ANY_TAG), Kind.MAP),
    "map_destroy": Table(OnMap, (name_of("map", Kind.MAP),)),
    "dmamem": Table(MakeMemory, (NEW_NAME, name_of("tag", Kind.TAG), flags("NOWAIT ZERO COHERENT WAITOK")), Kind.MEMORY),
    "dmamem_free": Table(OnMemory, (MEMORY,)),
    "load": Table(Load, (MAP, Part("va mem len", read_loaded_place), NOWAIT, *LOAD_END)),
    "load_vector": Table(Load, (MAP, ENTRIES, NOWAIT, *LOAD_END)),
    "load_mbuf": Table(Load, (MAP, ENTRIES, *LOAD_END)),
    "load_bio": Table(Load, (MAP, Part("bio", read_bio), NOWAIT, *LOAD_END)),
    "send": Table(Load, (MAP, ENTRIES, Part("clusters", read_clusters), *LOAD_END)),
    "unload": Table(OnMap, (MAP,)),
    "sync": ITEMS["sync"],
    "sync_range": ITEMS["sync_range"],
    "cpu_read": Table(CpuAccess, (PLACE, LEN, READ_LIMITS)),
    "cpu_write": Table(CpuAccess, (PLACE, BYTES)),
    "await": Table(OnMap, (MAP,)),
    "ring": Table(MakeRing, (NEW_NAME, MEMORY, number("slots", None, U32)), Kind.RING),
    "ring_post": Table(RingPost, (
        RING, number("slot", None, U32), MAP, OFF, LEN, number("kind", None, 255), number("fill", 0, 255),
    )),
    "kick": Table(Kick, (RING, number("count", None, MAX_COUNT), Part("", judge_kick))),
}
