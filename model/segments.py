"""How a load is cut: its bytes into chunks, the chunks into pieces, and the pieces joined to segments."""

from __future__ import annotations

from collections.abc import Iterable
from dataclasses import dataclass

from .ranges import Runs
from .scenario import PAGE, Fixed
from .tags import Tag


@dataclass(frozen=True)
class Extent(Fixed):
    """Bytes of a load that follow each other in one frame: from a position on, and from an address on."""
    position: int
    address: int
    length: int


@dataclass(frozen=True)
class Chunk(Fixed):
    """A part of a load that bounces, or lies, as one."""
    position: int
    address: int
    length: int
    bounces: bool


@dataclass(frozen=True)
class Segment(Fixed):
    """Bytes that follow each other for the device."""
    address: int
    length: int

    def text(self) -> str:
        """Returns the segment as it is printed."""
        return f"{self.address:#x}+{self.length}"


def bytes_at(extents: Iterable[Extent], positions: Runs) -> Runs:
    """Returns the addresses of the bytes at these positions of a load."""
    return Runs.of(
        (extent.address + begin - extent.position, extent.address + end - extent.position)
        for extent in extents
        for begin, end in positions.within(extent.position, extent.position + extent.length)
    )


def positions_of(extents: Iterable[Extent], addresses: Runs) -> Runs:
    """Returns the positions of a load at which these bytes stand."""
    return Runs.of(
        (extent.position + begin - extent.address, extent.position + end - extent.address)
        for extent in extents
        for begin, end in addresses.within(extent.address, extent.address + extent.length)
    )


def cut_into_chunks(entry: list[Extent], tag: Tag, may_bounce: bool, is_unmapped: bool) -> list[Chunk]:
    """Cuts an entry's bytes where a page ends; a chunk that bounces is rounded up to the tag's alignment."""
    chunks: list[Chunk] = []
    rounded = not is_unmapped and "KEEP_PG_OFFSET" not in tag.flags
    place, taken = 0, 0
    end = entry[-1].position + entry[-1].length if entry else 0
    while place < len(entry):
        position, address = entry[place].position + taken, entry[place].address + taken
        length = entry[place].length - taken
        bounces = may_bounce and tag.needs_bounce(address)
        if bounces and rounded:
            to_page_end = PAGE - address % PAGE
            length = min(end - position, -(-to_page_end // tag.alignment) * tag.alignment)
        chunks.append(Chunk(position, address, length, bounces))
        taken += length
        while place < len(entry) and taken >= entry[place].length:
            taken -= entry[place].length
            place += 1
    return chunks


def cut_into_pieces(chunk: Segment, tag: Tag) -> list[Segment]:
    """Cuts a chunk, where it lies for the device, by the tag's `maxsegsz` and `boundary`."""
    pieces: list[Segment] = []
    address, length = chunk.address, chunk.length
    while length > 0:
        size = min(length, tag.maxsegsz)
        if tag.boundary != 0:
            size = min(size, tag.boundary - address % tag.boundary)
        pieces.append(Segment(address, size))
        address += size
        length -= size
    return pieces


def join(pieces: Iterable[Segment], tag: Tag) -> list[Segment]:
    """Joins pieces of which one begins at the end of the other, where both limits allow it."""
    segments: list[Segment] = []
    for piece in pieces:
        if segments:
            last = segments[-1]
            both = Segment(last.address, last.length + piece.length)
            if piece.address == last.address + last.length and keeps_limits(both, tag):
                segments[-1] = both
                continue
        segments.append(piece)
    return segments


def keeps_limits(segment: Segment, tag: Tag) -> bool:
    """Returns whether a segment is no longer than `maxsegsz` and crosses no `boundary`."""
    last = segment.address + segment.length - 1
    crosses = tag.boundary != 0 and segment.address // tag.boundary != last // tag.boundary
    return segment.length <= tag.maxsegsz and not crosses
