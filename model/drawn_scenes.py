"""The scenes of a drawn script: steps that belong together, so that most of them do something."""
from __future__ import annotations

from .drawn_steps import FIRST_VA, HIGH, LOW, MEMORY_VA, PAGE, Fields, Map, Steps, Tag
from .drawn_steps import BOTH_WAYS, READ_WAY, WRITE_WAY, WRONG_OPS


class Scenes(Steps):
    """A driver that draws scenes."""

    def scene_making(self) -> None:
        tag = self.make_tag()
        for _ in range(self.some(1, 1, 2)):
            self.make_map(tag)

    def scene_transfer(self) -> None:
        m = self.a_map()
        length = self.length(m.tag)
        va = self.address(length)
        if not self.one_in(4):
            self.do("cpu_write", va=va, **self.bytes(max(length, 1)))
        va = self.load(m, length, va=None if self.one_in(2) else va)
        if not self.one_in(4):
            self.do("await", map=m.name)
        for _ in range(self.some(0, 1, 2)):
            self.driver_access(va, length)
        if not self.one_in(5):
            self.do("unload", map=m.name)
        if self.one_in(2):
            self.driver_access(va, length)

    def scene_syncs(self) -> None:
        """Syncs by the script, of one map or of two that share bytes."""
        m, other = self.a_map(), self.a_map()
        length = max(self.length(m.tag), 16)
        va = self.load(m, length, then=self.one_in(3), va=self.address(length))
        if other is not m:
            self.load(other, max(length - 8, 1), then=False, va=min(va + self.some(0, 0, 8), 2**64 - 1))
            if self.one_in(2):
                self.do("sync", map=other.name, ops=list(self.some(READ_WAY, WRITE_WAY, BOTH_WAYS)[0]))
                ops = list(self.some(READ_WAY, READ_WAY, WRITE_WAY, BOTH_WAYS)[0])
                self.do("sync_range", map=m.name, off=self.some(0, 4, 12, length // 2), len=self.some(4, 8, 16), ops=ops)
        for _ in range(self.some(2, 3, 5)):
            target = self.some(m, m, other)
            ops = list(self.some(*READ_WAY, *WRITE_WAY, *BOTH_WAYS, *WRONG_OPS))
            if self.one_in(3):
                off = self.some(0, 0, 4, length - 4, length, length + 1)
                self.do("sync_range", map=target.name, off=off, len=self.some(0, 4, 8, length), ops=ops)
            else:
                self.do("sync", map=target.name, ops=ops)
            if self.one_in(2):
                self.driver_access(va, length)
        self.do("unload", map=m.name)
        self.do("unload", map=other.name)

    def scene_crowd(self) -> None:
        """Several loads that want the pages of one zone at once."""
        tag = self.make_tag(lowaddr="0xffffff", maxsize=self.some(8192, 3 * PAGE), nsegments=self.some(1, 2, 3, 8))
        maps = [self.make_map(tag) for _ in range(self.some(2, 3, 4))]
        for m in maps:
            self.load(m, self.some(100, PAGE, PAGE + 904, 2 * PAGE), then=not self.one_in(3))
        waits = self.one_in(5)
        for m in maps if not self.one_in(4) else self.rng.sample(maps, len(maps)):
            if waits:
                self.do("await", map=m.name)
            waits = not self.one_in(4)
            self.do("unload", map=m.name)

    def scene_stale(self) -> None:
        """Bytes that an unload makes unknown are lent to read again."""
        m = self.a_map(lambda m: m.tag.iommu) if self.one_in(2) else self.a_map()
        length = min(self.some(16, 100, 700), m.tag.maxsize)
        va = self.address(length)
        self.load(m, length, then=False, va=va)
        self.do("sync", map=m.name, ops=["PREREAD"])
        self.do("unload", map=m.name)
        if self.one_in(2):
            self.do("cpu_write", va=va, **self.bytes(8))
        self.load(m, length, then=False, va=va)
        self.do("sync", map=m.name, ops=["PREWRITE"])
        other = self.map_of(lambda other: other.tag.iommu) or m
        read = {"op": "dev_read", "map": m.name, "off": 0, "len": self.some(8, min(length, 64))}
        raw = {"op": "dev_read_at", "tag": m.tag.name, "addr": PAGE * self.some(1, 1, 2, 3) + va % PAGE, "len": self.some(8, 16)}
        self.do("load", map=other.name, va=self.address(8), len=8, then=[read, raw] if m.tag.iommu else [read])
        self.do("await", map=other.name)

    def scene_memory(self) -> None:
        m = self.make_memory()
        length = min(m.tag.maxsize, self.some(0, 16, 16, 64, 64, PAGE, PAGE, 5000))
        if self.one_in(2):
            self.do("cpu_write", mem=m.name, off=self.some(None, 0, 8), **self.bytes(length))
        if self.one_in(3):
            self.do("load_vector", map=m.name, entries=self.memory_entries(m, m.tag.maxsize), then=self.items(m, length))
        else:
            self.do("load", map=m.name, mem=m.name, len=length, then=self.items(m, length))
        if self.one_in(3):
            plain = self.map_of(lambda m: not m.memory)
            self.do("load", map=(plain or m).name, mem=m.name, len=8)
        if not self.one_in(4):
            self.do("await", map=m.name)
        for _ in range(2):
            off = self.some(None, 0, max(length - 4, 0), max(m.tag.maxsize - 2, 0), PAGE - 2)
            self.do("cpu_read", mem=m.name, off=off, len=self.some(1, 4, 16))
        if self.one_in(3):
            self.do("dmamem_free", mem=m.name)
        self.do("unload", map=m.name)
        if self.one_in(2):
            self.do("dmamem_free", mem=m.name)

    def scene_ends(self) -> None:
        """Maps, memories and tags are ended, and used again afterwards."""
        m = self.map_of()
        if not m:
            return
        if self.one_in(2):
            self.do("unload", map=m.name)
        if m.memory:
            self.do("dmamem_free", mem=m.name)
        else:
            self.do("map_destroy", map=m.name)
        if self.one_in(2):
            self.do("tag_destroy", tag=m.tag.name)
        if self.one_in(2):
            self.load(m)
        choice = self.rng.randrange(6)
        if choice == 0:
            self.do("sync", map=m.name, ops=["PREREAD"])
        elif choice == 1:
            self.do("sync_range", map=m.name, off=0, len=4, ops=["PREREAD"])
        elif choice == 2:
            self.do("await", map=m.name)
        elif choice == 3:
            self.make_map(m.tag)
        elif choice == 4 and m.memory:
            self.do("ring", name=self.name("r"), mem=m.name, slots=1)
        else:
            self.do("unload", map=m.name)

    def scene_gone(self) -> None:
        """A device that still works on a map, a memory or a tag that is ended."""
        gone, other = self.map_of(), self.a_map()
        if not gone or gone is other:
            return
        self.do("unload", map=gone.name)
        self.do("dmamem_free", mem=gone.name) if gone.memory else self.do("map_destroy", map=gone.name)
        if gone.tag.iommu or self.one_in(2):
            self.do("tag_destroy", tag=gone.tag.name)
        items = [{"op": "sync", "map": gone.name, "ops": ["PREREAD"]}, *self.access(gone, 8, BOTH_WAYS)]
        items.append({"op": "sync_range", "map": gone.name, "off": 0, "len": 4, "ops": ["PREWRITE"]})
        if gone.tag.iommu:
            items += [self.raw(gone.tag), self.raw(gone.tag)]
        self.do("unload", map=other.name)
        self.load(other, self.some(8, 100), then=False)
        self.scene[-1]["then"] = items

    def post(self, ring: str, m: Map, length: int, kind: int) -> None:
        off = self.some(0, 0, 0, 0, 4, length + 1 if self.one_in(3) else 8)
        count = self.some(4, 16, 64, max(length - off, 0), 0) if self.one_in(3) else min(16, max(length - off, 0))
        kind = 3 if self.one_in(12) else kind
        fill = self.some(None, self.rng.randrange(256))
        self.do("ring_post", ring=ring, slot=self.some(0, 0, 0, 0, 1, 1, 2, 300), map=m.name, off=off, len=count, kind=kind, fill=fill)

    def make_ring(self) -> tuple[str, Map]:
        """A ring in a memory of its own, which is mostly coherent, long enough and loaded."""
        tag = Tag(self.name("t"), maxsize=self.some(16, 32, 48, 64, PAGE))
        self.do("tag", name=tag.name, maxsize=tag.maxsize)
        self.tags.append(tag)
        flags = ["ZERO", "COHERENT"] if not self.one_in(4) else self.some(["COHERENT"], ["ZERO"], ["COHERENT", "ZERO"])
        memory = self.make_memory(tag, flags)
        slots = self.some(1, 2, 2, 3, 4, 256)
        slots = slots if self.one_in(8) else max(min(slots, tag.maxsize // 16), 1)
        if not self.one_in(12):
            self.do("load", map=memory.name, mem=memory.name, len=8 if self.one_in(12) else tag.maxsize)
        ring = self.name("r")
        self.do("ring", name=ring, mem=memory.name, slots=slots if not self.one_in(20) else self.some(0, 257))
        return ring, memory

    def scene_ring(self) -> None:
        """A device that fetches descriptors of one map's load."""
        ring, memory = self.make_ring()
        kind = self.some(1, 2, 2)
        m = self.a_map(lambda m: not m.memory and (not m.tag.iommu or self.one_in(9)))
        length = max(self.length(m.tag), 4) if not self.one_in(15) else 0
        va = self.address(length)
        way = READ_WAY if kind == 2 else WRITE_WAY
        self.do("load", map=m.name, va=va, len=length, then=[{"op": "sync", "map": m.name, "ops": list(way[0])}])
        if not self.one_in(5):
            self.do("await", map=m.name)
        for _ in range(self.some(1, 2, 2, 3)):
            self.post(ring, m, length, kind)
        if self.one_in(3):
            self.by_hand(memory)
        self.do("kick", ring=ring, count=self.some(1, 1, 2, 3))
        if self.one_in(2):
            self.load(self.map_of() or m, length, then=False, va=va)
        self.do("cpu_read", mem=memory.name, off=self.some(None, 0, 14, 16), len=16)
        if self.one_in(2):
            self.do("kick", ring=ring, count=self.some(1, 2, 4))
        if self.one_in(3):
            self.do("sync", map=m.name, ops=list(way[1]))
            self.driver_access(va, length)
        for name in (m.name, memory.name):
            if self.one_in(5):
                self.do("unload", map=name)
        if self.one_in(6):
            self.do("dmamem_free", mem=memory.name)
            self.post(ring, m, length, kind)
            self.do("kick", ring=ring, count=1)

    def by_hand(self, memory: Map) -> None:
        """A descriptor that the driver writes itself."""
        addr = PAGE * self.some(*self.frames(), LOW) if self.frames() else 0
        length = self.some(0, 4, 16, 5000)
        text = addr.to_bytes(8, "little") + length.to_bytes(4, "little") + bytes([self.some(0, 1, 2, 2, 3), 7])
        self.do("cpu_write", mem=memory.name, off=self.some(None, 0, 16), hex=(text + bytes([self.some(0, 1, 1), 0])).hex())

    def scene_hungry_send(self) -> None:
        """A chain that the device reaches, with clusters that it does not, while another load has the pages."""
        low = self.low_address()
        high = [va + PAGE * k for va, frame, count in self.pages for k in range(count) if frame >= HIGH]
        if low is None or not high:
            return
        tag = self.make_tag(lowaddr="0xffffff", nsegments=1, maxsize=8192)
        m, hog = self.make_map(tag), self.make_map(tag)
        self.do("load", map=hog.name, va=high[0], len=self.some(4, 2 * PAGE, PAGE + 8))
        entries = [{"va": low + 64 * k, "len": self.some(4, 20)} for k in range(3)]
        self.do("send", map=m.name, entries=entries, clusters=[self.some(*high)], then=self.items(m, 12))
        for name in self.some((hog.name, m.name), (m.name, hog.name)):
            self.do("unload", map=name)

    def chain(self) -> list[Fields]:
        """A chain that has mostly several segments."""
        low, count = self.low_address(), self.some(2, 3, 4, 5)
        if self.one_in(8):
            return [{"va": self.address(), "len": self.some(0, 0, 200, 8193)} for _ in range(self.some(0, 1, 2))]
        if self.one_in(6):
            return [{"va": self.address(2048), "len": 2048}, {"va": self.address(2048), "len": self.some(2048, 2048, 2049)}]
        if low is not None and self.one_in(2):
            return [{"va": low + 64 * k, "len": self.some(1, 4, 20)} for k in range(count)]
        return self.entries(self.some(40, 200, 3000), count)

    def clusters_for(self, chain: list[Fields]) -> list[int]:
        """Pages that share no byte with a chain; some are none that a resend may take."""
        pages = [FIRST_VA + PAGE * k for k in range(sum(count for _, _, count in self.pages))]
        named = {entry["va"] // PAGE + k for entry in chain for k in range(entry["len"] // PAGE + 2)}
        free = [va for va in pages if va // PAGE not in named]
        clusters = self.rng.sample(free, min(len(free), self.some(0, 1, 1, 2, 3)))
        if self.one_in(12):
            clusters.insert(0, FIRST_VA - PAGE)
        elif self.one_in(3) and any(m.memory for m in self.maps):
            clusters.insert(0, MEMORY_VA + PAGE * (LOW + self.some(0, 0, 1)))
        return [va for va in clusters if va // PAGE not in named]

    def trouble(self, m: Map, chain: list[Fields], clusters: list[int]) -> None:
        """Another load that lends a cluster or the end of the chain, makes it unknown, or takes the zone's pages."""
        other = self.map_of(lambda other: other is not m and not other.memory)
        kind = self.rng.randrange(6)
        if not other or not chain or not clusters:
            return
        if kind < 3:
            va, length = (clusters[0], 16) if kind == 0 else (chain[-1]["va"], min(chain[-1]["len"], 100))
            self.do("unload", map=other.name)
            self.do("load", map=other.name, va=va, len=length)
            self.do("sync", map=other.name, ops=["PREREAD" if kind else self.some("PREREAD", "PREWRITE")])
        if kind == 2:
            self.do("unload", map=other.name)
        if kind == 3:
            self.load(other, 2 * PAGE, then=False)

    def scene_send(self) -> None:
        """A chain that has mostly too many segments, with clusters that take it."""
        fields = {"lowaddr": 2**64 - 1} if not self.one_in(3) else {}
        m = self.make_map(self.make_tag(nsegments=self.some(1, 1, 1, 2), maxsize=8192, **fields))
        chain = self.chain()
        clusters = self.clusters_for(chain)
        self.trouble(m, chain, clusters)
        if self.one_in(10):
            self.load(m, self.some(8, 100), then=False)
        items = self.items(m, min(sum(entry["len"] for entry in chain), 64))
        self.do("send", map=m.name, entries=chain, clusters=clusters, then=items)
        if not self.one_in(4):
            self.do("await", map=m.name)
        if not self.one_in(3):
            self.do("unload", map=m.name)

    def scene_iommu(self) -> None:
        tag = self.tag_of(lambda tag: tag.iommu) or self.make_iommu_tag()
        m = self.map_of(lambda m: m.tag is tag) or self.make_map(tag)
        if self.one_in(3):
            m = self.make_map(tag)
        for one in {m.name: m, **({} if self.one_in(2) else {"other": self.map_of(lambda o: o.tag is tag) or m})}.values():
            length = max(self.length(one.tag), 1)
            va = self.load(one, length)
            if self.one_in(3):
                self.driver_access(va, length)
        if not self.one_in(3):
            self.do("await", map=m.name)
        if not self.one_in(3):
            self.do("unload", map=m.name)
