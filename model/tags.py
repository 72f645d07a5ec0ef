"""Tags: what a device can do, and which addresses it reaches."""

from __future__ import annotations

from dataclasses import dataclass

from .scenario import PAGE, MakeTag, Words

GREATEST_ALIGNMENT = 4096
LEAST_BOUNDARY = 16


@dataclass
class Tag:
    """A tag of a driver; an IOMMU tag has an address space of its own."""
    name: str
    alignment: int
    boundary: int
    lowaddr: int
    highaddr: int
    maxsize: int
    nsegments: int
    maxsegsz: int
    flags: Words
    is_iommu: bool
    first_allocation_is_done: bool = False

    def excludes(self, address: int) -> bool:
        """Returns whether the device does not reach the address."""
        return self.lowaddr < address <= self.highaddr

    def could_bounce(self, end_of_memory: int) -> bool:
        """Returns whether a map of the tag may need bounce pages, in a machine that ends at this frame."""
        return not self.is_iommu and (self.lowaddr < PAGE * end_of_memory or self.alignment > 1)

    def needs_bounce(self, address: int) -> bool:
        """Returns whether a chunk that begins at the address bounces."""
        return not self.is_iommu and (self.excludes(address) or address % self.alignment != 0)

    def last_page(self) -> int:
        """Returns the last frame at or below the tag's lowaddr, or the last device page of an IOMMU tag."""
        return self.lowaddr // PAGE


def is_power_of_two(number: int) -> bool:
    """Returns whether the number is a power of two."""
    return number > 0 and number & (number - 1) == 0


def last_byte_of_frame(address: int) -> int:
    """Returns the last address in the frame of an address."""
    return address | (PAGE - 1)


def has_wrong_alignment_or_boundary(alignment: int, boundary: int) -> bool:
    """Returns whether no tag can have this alignment or this boundary."""
    if not is_power_of_two(alignment) or alignment > GREATEST_ALIGNMENT:
        return True
    return boundary != 0 and (not is_power_of_two(boundary) or boundary < LEAST_BOUNDARY)


def make_tag(asked: MakeTag, parent: Tag | None) -> Tag | None:
    """Returns the tag that is asked for, or `None` if no tag can be so."""
    if has_wrong_alignment_or_boundary(asked.alignment, asked.boundary):
        return None
    maxsegsz = min(asked.maxsegsz, asked.boundary) if asked.boundary != 0 else asked.maxsegsz
    if maxsegsz == 0:
        return None
    tag = Tag(
        asked.name, asked.alignment, asked.boundary, last_byte_of_frame(asked.lowaddr),
        last_byte_of_frame(asked.highaddr), asked.maxsize, asked.nsegments, maxsegsz, asked.flags,
        asked.word == "iommu_tag",
    )
    if parent is not None:
        tag.alignment = max(tag.alignment, parent.alignment)
        tag.lowaddr = min(tag.lowaddr, parent.lowaddr)
        tag.highaddr = max(tag.highaddr, parent.highaddr)
        tag.boundary = min((limit for limit in (tag.boundary, parent.boundary) if limit != 0), default=0)
    return tag
