"""The steps of a drawn script: its tags, maps and memories, its loads with their items, and the driver's accesses."""
from __future__ import annotations

import random
from dataclasses import dataclass, field
from typing import Any, Callable

Fields = dict[str, Any]

PAGE = 4096
FIRST_VA = 0x100000
LOW, HIGH = 0x10, 0x1000
MEMORY_VA = 0xFFFFF80000000000
# Most are below all high frames; some are at the end of memory.
LOWADDRS = (*("0xffffff",) * 5, "0xFFFFFF", "0xfff000", "0x12fff", "0x13fff", "0x26fff", "0x27fff", "0x28fff", 0x1014FFF, 0x1015FFF,
            0x1016FFF, 0x1017000, 0x1018000, 2**32 - 1)
READ_WAY = (["PREREAD"], ["POSTREAD"])
WRITE_WAY = (["PREWRITE"], ["POSTWRITE"])
BOTH_WAYS = (["PREREAD", "PREWRITE"], ["POSTREAD", "POSTWRITE"])
WRONG_OPS = (["PREREAD", "POSTREAD"], ["PREWRITE", "POSTWRITE"], [], ["PREREAD", "POSTWRITE", "PREREAD"])


@dataclass
class Tag:
    """A tag of either kind, as far as scenes look at it."""

    name: str
    iommu: bool = False
    maxsize: int = 2**32 - 1


@dataclass
class Map:
    """A map, or a memory with its own map."""

    name: str
    tag: Tag
    memory: bool = False


@dataclass
class Steps:
    """A driver while it is drawn: its pages, its script so far, and what it has made."""

    rng: random.Random
    pages: list[list[int]]
    script: list[Fields] = field(default_factory=list)
    scene: list[Fields] = field(default_factory=list)
    tags: list[Tag] = field(default_factory=list)
    maps: list[Map] = field(default_factory=list)
    names: int = 0

    # Small draws

    def one_in(self, count: int) -> bool:
        return self.rng.randrange(count) == 0

    def some(self, *values: Any) -> Any:
        return values[self.rng.randrange(len(values))]

    def name(self, letter: str) -> str:
        self.names += 1
        return f"{letter}{self.names}" if self.names % 9 else f"{letter}_{self.names}_"

    def frames(self) -> list[int]:
        return [frame + k for _, frame, count in self.pages for k in range(count)]

    def length(self, tag: Tag | None = None) -> int:
        """A length of a load, mostly one that the tag allows."""
        most = min(tag.maxsize, 3 * PAGE) if tag and not self.one_in(12) else 3 * PAGE
        drawn = self.some(0, 1, 16, 64, 100, 100, 700, 1500, 2048, PAGE, PAGE, PAGE + 904, 2 * PAGE, 3 * PAGE)
        return min(drawn, most)

    def address(self, length: int = 1) -> int:
        """A virtual address of the driver's pages, from which mostly so many bytes are reached."""
        if self.one_in(12) and any(m.memory for m in self.maps):
            return MEMORY_VA + PAGE * (LOW + self.rng.randrange(4)) + self.some(0, 0, 8, 2048)
        if not self.pages or self.one_in(40):
            return self.some(0, FIRST_VA - 8, 2**64 - 4, MEMORY_VA, MEMORY_VA + PAGE * LOW, self.rng.randrange(2**20))
        count = sum(count for _, _, count in self.pages)
        offset = self.some(0, 0, 0, 4, 8, 2048, 3000, PAGE - 8, PAGE - 6, self.rng.randrange(PAGE))
        last = max(count - (offset + length + PAGE - 1) // PAGE, 0)
        return FIRST_VA + PAGE * self.rng.randrange(last + 1) + offset

    def low_address(self) -> int | None:
        """A virtual address of a page below the frames that bounce."""
        starts = [va + PAGE * k for va, frame, count in self.pages for k in range(count) if frame + k < HIGH]
        return self.some(*starts) if starts else None

    def tag_of(self, test: Callable[[Tag], bool]) -> Tag | None:
        found = [tag for tag in self.tags if test(tag)]
        return self.some(*found[-3:], *found) if found else None

    def map_of(self, test: Callable[[Map], bool] = lambda m: True) -> Map | None:
        found = [m for m in self.maps if test(m)]
        return self.some(*found[-3:], *found) if found else None

    def do(self, op: str, **fields: Any) -> Fields:
        """Adds an operation to the scene. Fields that are None are left out."""
        step = {"op": op, **{key.rstrip("_"): value for key, value in fields.items() if value is not None}}
        self.scene.append(step)
        return step

    # Tags, maps and memories

    def make_tag(self, **fields: Any) -> Tag:
        if self.one_in(5):
            return self.make_iommu_tag()
        drawn: Fields = {}
        parent = self.tag_of(lambda tag: not tag.iommu)
        if parent and self.one_in(4):
            drawn["parent"] = parent.name
        wants = {
            "alignment": (8, (2, 8, 64, 512, PAGE)),
            "boundary": (7, (16, 64, 512, PAGE, 8192, 65536)),
            "lowaddr": (1, LOWADDRS),
            "highaddr": (10, ("0x1003fff", "0x1fffff", 2**64 - 1)),
            "maxsize": (1, (16, 100, PAGE, 8192, 8192, 8192, 3 * PAGE, 65536)),
            "nsegments": (1, (1, 1, 2, 2, 3, 4, 8, 65536)),
            "maxsegsz": (6, (16, 512, 1000, PAGE, 6000, 8192)),
            "flags": (3, (["ALLOCNOW"], ["ALLOCNOW"], ["KEEP_PG_OFFSET"], ["WAITOK", "KEEP_PG_OFFSET", "WAITOK"], [])),
        }
        for key, (rarely, values) in wants.items():
            if self.one_in(rarely):
                drawn[key] = self.some(*values)
        if self.one_in(4):
            del drawn["lowaddr"]
        if self.one_in(14):
            wrong = (("alignment", 3), ("alignment", 0), ("alignment", 8192), ("boundary", 8), ("boundary", 48))
            key, value = self.some(*wrong, ("maxsegsz", 0), ("nsegments", 0), ("maxsize", 0))
            drawn[key] = value
        drawn.update(fields)
        tag = Tag(self.name("t"), maxsize=drawn.get("maxsize", 2**32 - 1))
        self.do("tag", name=tag.name, **drawn)
        self.tags.append(tag)
        return tag

    def make_iommu_tag(self) -> Tag:
        drawn: Fields = {}
        wants = {
            "lowaddr": (1, ("0x1fff", "0x2fff", "0x5fff", "0x5fff", "0xffff", 0, 2**64 - 1)),
            "boundary": (3, (8192, 8192, 512, 512, PAGE, PAGE)),
            "maxsize": (4, (100, 8192, 3 * PAGE)),
            "nsegments": (3, (1, 1, 2)),
            "maxsegsz": (5, (64, 512, 5000)),
        }
        for key, (rarely, values) in wants.items():
            if self.one_in(rarely):
                drawn[key] = self.some(*values)
        if self.one_in(8):
            key, value = self.some(("boundary", 3), ("maxsegsz", 0), ("nsegments", 0))
            drawn[key] = value
        tag = Tag(self.name("u"), True, drawn.get("maxsize", 2**32 - 1))
        self.do("iommu_tag", name=tag.name, **drawn)
        self.tags.append(tag)
        return tag

    def make_map(self, tag: Tag | None = None) -> Map:
        tag = tag or self.tag_of(lambda tag: True) or self.make_tag()
        made = Map(self.name("m"), tag)
        self.do("map", name=made.name, tag=tag.name)
        self.maps.append(made)
        return made

    def a_map(self, test: Callable[[Map], bool] = lambda m: True) -> Map:
        """A map that exists by its name, or a new one, which is idle."""
        found = self.map_of(test)
        if found and not self.one_in(3):
            return found
        return self.make_map(self.tag_of(lambda tag: test(Map("", tag))))

    def make_memory(self, tag: Tag | None = None, flags: list[str] | None = None) -> Map:
        plain = self.tag_of(lambda tag: not tag.iommu and tag.maxsize <= 3 * PAGE)
        tag = tag or (plain if self.one_in(2) else None)
        if not tag:
            tag = Tag(self.name("t"), maxsize=self.some(64, PAGE, PAGE, 5000, 2 * PAGE))
            fields: Fields = {"lowaddr": self.some(None, None, "0xffffff", 2**32 - 1), "nsegments": self.some(None, 2, 4)}
            fields |= {"maxsegsz": self.some(None, None, 3000, 1000), "boundary": self.some(None, None, 64, 2048, PAGE)}
            self.do("tag", name=tag.name, maxsize=tag.maxsize, **fields)
            self.tags.append(tag)
        drawn = flags or self.some(None, ["ZERO"], ["COHERENT"], ["ZERO", "COHERENT"], ["NOWAIT", "ZERO"], ["WAITOK"])
        made = Map(self.name("q"), tag, True)
        self.do("dmamem", name=made.name, tag=tag.name, flags=drawn)
        self.maps.append(made)
        return made

    # Loads and what belongs to them

    def entries(self, total: int, parts: int) -> list[Fields]:
        """Entries of a chain or a vector with about so many bytes."""
        made: list[Fields] = []
        for _ in range(parts):
            length = self.some(0, 1, 4, 20, max(total // parts, 1), max(total // parts, 1))
            made.append({"va": self.address(length), "len": length})
        return made

    def bio(self, length: int) -> Fields:
        kind = self.some("mapped", "vector", "unmapped", "unmapped")
        if kind == "mapped":
            memory = self.one_in(2) and any(m.memory for m in self.maps)
            return {"kind": kind, "va": MEMORY_VA + PAGE * LOW if memory else self.address(length), "len": length}
        if kind == "vector":
            return {"kind": kind, "entries": self.entries(length, self.some(0, 1, 2, 4))}
        own = self.frames()
        frames = [self.some(*own) for _ in range(self.some(0, 1, 2, 2, 3))] if own else []
        off = self.some(0, 0, 8, 4000, self.rng.randrange(PAGE))
        room = max(len(frames) * PAGE - off, 0)
        return {"kind": kind, "frames": frames, "off": off, "len": length if self.one_in(4) else min(length, room)}

    def ways(self) -> tuple[list[str], list[str]]:
        return self.some(READ_WAY, READ_WAY, WRITE_WAY, WRITE_WAY, BOTH_WAYS)

    def bytes(self, most: int) -> Fields:
        length = min(self.some(0, 1, 2, 5, 16, 64), most)
        if self.one_in(2):
            return {"hex": self.rng.randbytes(length).hex()}
        return {"fill": self.rng.randrange(256), "len": length}

    def access(self, m: Map, length: int, way: tuple[list[str], list[str]]) -> list[Fields]:
        """What the device does with a load between its two syncs."""
        off = self.some(0, 0, 1, max(length - 4, 0), length, self.rng.randrange(length + 2))
        count = min(self.some(0, 1, 2, 8, 64), max(length - off, 0)) + (3 if self.one_in(15) else 0)
        read = {"op": "dev_read", "map": m.name, "off": off, "len": count}
        write = {"op": "dev_write", "map": m.name, "off": off, **self.bytes(count)}
        return [read] if way is WRITE_WAY else [write] if way is READ_WAY else [write, read]

    def items(self, m: Map, length: int) -> list[Fields]:
        way = self.ways()
        made = [{"op": "sync", "map": m.name, "ops": list(way[0])}, *self.access(m, length, way)]
        made += [{"op": "sync", "map": m.name, "ops": list(way[1])}] if not self.one_in(5) else []
        if self.one_in(4):
            for item in (made[0], made[-1]):
                if item["op"] == "sync":
                    off = self.some(0, 0, 4, length // 2, length)
                    item.update(op="sync_range", off=off, len=self.some(0, 4, 64, max(length - off, 0)))
        space = m.tag if m.tag.iommu else self.tag_of(lambda tag: tag.iommu) if self.one_in(4) else None
        if space and not self.one_in(3):
            made.insert(self.rng.randrange(len(made) + 1), self.raw(space))
        if self.one_in(8):
            wrong = {"op": "sync", "map": m.name, "ops": list(self.some(*WRONG_OPS))}
            made.insert(self.rng.randrange(len(made) + 1), wrong)
            if self.one_in(2):
                wrong.update(op="sync_range", off=0, len=min(length, 4))
        if self.one_in(8):
            other = self.map_of() or m
            sync = {"op": "sync_range", "map": other.name, "off": self.some(0, 4), "len": 4, "ops": list(self.ways()[0])}
            made.insert(self.rng.randrange(len(made) + 1), self.some(sync, *self.access(other, 16, self.ways())))
        return made

    def raw(self, tag: Tag) -> Fields:
        page = self.some(1, 1, 1, 2, 2, 3, 4, 5, 6, 0)
        addr = PAGE * page + self.some(0, 0, 4, 8, 508, 2048, 3000, PAGE - 8, PAGE - 2)
        addr = self.some(2**64 - 2, 2**64 - 1, 0) if self.one_in(30) else addr
        if self.one_in(2):
            return {"op": "dev_read_at", "tag": tag.name, "addr": addr, "len": self.some(0, 1, 4, 16, 16, 100)}
        return {"op": "dev_write_at", "tag": tag.name, "addr": addr, **self.bytes(64)}

    def load(self, m: Map, length: int | None = None, then: bool = True, va: int | None = None) -> int:
        """A load of any kind on a map, with the items of a transfer. Gives the address of its first byte."""
        length = self.length(m.tag) if length is None else length
        flags = self.some(None, None, None, ["NOWAIT"], ["WAITOK"])
        items = self.items(m, length) if then else None
        kind = self.rng.randrange(8) if va is None else 0
        if m.memory and not self.one_in(8):
            if self.one_in(6):
                self.do("load_bio", map=m.name, bio=self.bio(length), flags=flags, then=items)
            elif self.one_in(4):
                self.do("load_vector", map=m.name, entries=self.memory_entries(m, min(length, m.tag.maxsize)), then=items)
            else:
                self.do("load", map=m.name, mem=m.name, len=min(length, m.tag.maxsize), flags=flags, then=items)
            return MEMORY_VA
        if kind < 4:
            va = self.address(length) if va is None else va
            self.do("load", map=m.name, va=va, len=length, flags=flags, then=items)
            return va
        if kind == 7:
            length = length if not self.one_in(6) else min(m.tag.maxsize, 3 * PAGE) + 1
            bio = self.bio(length)
            self.do("load_bio", map=m.name, bio=bio, flags=flags, then=items)
            return FIRST_VA
        entries = self.entries(length, self.some(0, 1, 2, 3, 4))
        if self.one_in(12) and m.tag.maxsize < 3 * PAGE:
            entries.append({"va": self.address(m.tag.maxsize + 1), "len": m.tag.maxsize + 1})
        if entries and self.one_in(6) and any(m.memory for m in self.maps):
            entries[0] = {"va": MEMORY_VA + PAGE * (LOW + self.some(0, 0, 1, 2)), "len": self.some(1, 16)}
        if kind == 6:
            self.do("load_mbuf", map=m.name, entries=entries, then=items)
        else:
            self.do("load_vector", map=m.name, entries=entries, flags=flags, then=items)
        return entries[0]["va"] if entries else FIRST_VA

    def memory_entries(self, m: Map, length: int) -> list[Fields]:
        """Entries at the address at which a memory in the lowest free frame would be."""
        first, half = MEMORY_VA + PAGE * (LOW + self.some(0, 0, 1, 2)), self.some(length // 2, length // 3, 1)
        return [{"va": first, "len": half}, {"va": first + half, "len": max(length - half, 0)}]

    def driver_access(self, va: int, length: int) -> None:
        memory = self.map_of(lambda m: m.memory)
        place: Fields = {"va": min(va + self.some(0, 0, 1, max(length - 2, 0)), 2**64 - 1)}
        if memory and self.one_in(4):
            place = {"mem": memory.name, "off": self.some(None, 0, 8, PAGE - 4, memory.tag.maxsize, 2**64 - 1)}
        if self.one_in(2):
            self.do("cpu_read", **place, len=self.some(0, 1, 4, 16, 64))
        else:
            self.do("cpu_write", **place, **self.bytes(64))
