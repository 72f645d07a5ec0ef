"""A scenario that was read: the machine's frames, its drivers, their operations and items.

Nothing here changes during a run, so copies of a world share it. The operations and items are sorted by
the object that a journal names: a map, a tag, a memory, a ring, or the one that they make.
"""

from __future__ import annotations

from dataclasses import dataclass
from typing import Any, TypeVar

PAGE = 4096
Words = frozenset[str]
Self = TypeVar("Self", bound="Fixed")


class Fixed:
    """What never changes: a deep copy of it is itself."""

    def __deepcopy__(self: Self, memo: dict[int, Any]) -> Self:
        """Returns itself."""
        return self


@dataclass(frozen=True)
class Place(Fixed):
    """Where the driver's access begins: a virtual address, or `off` bytes after the begin of a memory."""
    va: int | None
    mem: str | None
    off: int


@dataclass(frozen=True)
class VirtualRun(Fixed):
    """Bytes of a load, by their virtual address."""
    va: int
    len: int


@dataclass(frozen=True)
class MemoryRun(Fixed):
    """The first bytes of a memory, to be loaded."""
    mem: str
    len: int


@dataclass(frozen=True)
class FrameRun(Fixed):
    """The bytes of an unmapped bio: `len` bytes from `off` on in the frames, one after the other."""
    frames: tuple[int, ...]
    off: int
    len: int


LoadedRun = VirtualRun | MemoryRun | FrameRun


@dataclass(frozen=True)
class Step(Fixed):
    """An operation of a script or an item of a transfer queue: its word and its path in the scenario."""
    word: str
    path: str

    def done(self) -> str:
        """Returns what was done, in a journal's words: the word and the name of its object."""
        names = [getattr(self, kind) for kind in ("name", "ring", "map", "tag", "mem") if hasattr(self, kind)]
        return " ".join([self.word, *names[:1]])


@dataclass(frozen=True)
class Making(Step):
    """What makes an object: `tag`, `iommu_tag`, `map`, `dmamem` and `ring`."""
    name: str


@dataclass(frozen=True)
class OnTag(Step):
    """What is done to a tag: `tag_destroy`, and raw accesses."""
    tag: str


@dataclass(frozen=True)
class OnMemory(Step):
    """What is done to a memory: `dmamem_free`."""
    mem: str


@dataclass(frozen=True)
class OnMap(Step):
    """What is done to a map: `map_destroy`, `unload`, `await`, loads, syncs and accesses of the device."""
    map: str


@dataclass(frozen=True)
class OnRing(Step):
    """What is done to a ring: `ring_step`, `kick` and `ring_post`."""
    ring: str


@dataclass(frozen=True)
class MakeTag(Making):
    """`tag` or `iommu_tag`."""
    lowaddr: int
    boundary: int
    maxsize: int
    nsegments: int
    maxsegsz: int
    parent: str | None = None
    alignment: int = 1
    highaddr: int = 2**64 - 1
    flags: Words = frozenset()


@dataclass(frozen=True)
class MakeMap(Making):
    """`map`."""
    tag: str


@dataclass(frozen=True)
class MakeMemory(Making):
    """`dmamem`."""
    tag: str
    flags: Words


@dataclass(frozen=True)
class MakeRing(Making):
    """`ring`."""
    mem: str
    slots: int


@dataclass(frozen=True)
class Load(OnMap):
    """`load`, `load_vector`, `load_mbuf`, `load_bio` or `send`."""
    runs: tuple[LoadedRun, ...]
    then: tuple[Step, ...]
    may_wait: bool = False
    clusters: tuple[int, ...] = ()

    def length(self) -> int:
        """Returns how many bytes are loaded."""
        return sum(run.len for run in self.runs)


@dataclass(frozen=True)
class Sync(OnMap):
    """`sync`, or with an offset and a length `sync_range`."""
    ops: Words
    off: int = 0
    len: int | None = None


@dataclass(frozen=True)
class CpuAccess(Step):
    """`cpu_read`, or with what is written `cpu_write`."""
    place: Place
    len: int
    data: bytes | None = None


@dataclass(frozen=True)
class RingPost(OnRing):
    """`ring_post`."""
    slot: int
    map: str
    off: int
    len: int
    kind: int
    fill: int


@dataclass(frozen=True)
class Kick(OnRing):
    """`kick`."""
    count: int


@dataclass(frozen=True)
class DevAccess(OnMap):
    """`dev_read`, or with what is written `dev_write`."""
    off: int
    len: int
    data: bytes | None = None


@dataclass(frozen=True)
class RawAccess(OnTag):
    """`dev_read_at`, or with what is written `dev_write_at`."""
    addr: int
    len: int
    data: bytes | None = None


@dataclass(frozen=True)
class Pages(Fixed):
    """Whole pages of a driver: virtual addresses from `va` on, in frames from `frame` on."""
    va: int
    frame: int
    count: int


@dataclass(frozen=True)
class DriverPlan(Fixed):
    """A driver of a scenario."""
    pages: tuple[Pages, ...]
    script: tuple[Step, ...]


@dataclass(frozen=True)
class Scenario(Fixed):
    """The frames of the machine, and the drivers with the order of their first steps."""
    frames: tuple[tuple[int, int], ...]
    max_bpages: int
    drivers: tuple[DriverPlan, ...]
    order: tuple[str, ...]
