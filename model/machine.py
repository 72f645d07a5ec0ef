"""The machine: its physical bytes, and the bank of frames that are free."""

from __future__ import annotations

from bisect import bisect_right, insort
from dataclasses import dataclass, field

from .scenario import PAGE


@dataclass
class Bank:
    """The free frames, by their numbers in rising order."""
    frames: list[int] = field(default_factory=list)

    def take_lowest(self, count: int, last_frame: int) -> list[int]:
        """Takes the lowest `count` frames up to `last_frame`, or as many as there are."""
        taken = self.frames[: min(count, bisect_right(self.frames, last_frame))]
        del self.frames[: len(taken)]
        return taken

    def take_run(self, count: int, last_frame: int, boundary: int, length: int) -> int | None:
        """Takes the lowest run of `count` frames up to `last_frame` whose first `length` bytes cross no boundary."""
        for place, first in enumerate(self.frames):
            last = place + count - 1
            if last >= len(self.frames) or self.frames[last] > last_frame:
                return None
            begin, end = first * PAGE, first * PAGE + max(length, 1) - 1
            crosses = boundary != 0 and begin // boundary != end // boundary
            if self.frames[last] == first + count - 1 and not crosses:
                del self.frames[place : last + 1]
                return first
        return None

    def give_back(self, first: int, count: int) -> None:
        """Puts frames back."""
        for frame in range(first, first + count):
            insort(self.frames, frame)


@dataclass
class PhysicalBytes:
    """The bytes of the machine, by their physical addresses; a byte that nobody wrote is 0."""
    frames: dict[int, bytearray] = field(default_factory=dict)

    def read(self, address: int, length: int) -> bytes:
        """Returns bytes that lie in one frame."""
        begin = address % PAGE
        frame = self.frames.get(address // PAGE)
        return bytes(frame[begin : begin + length]) if frame is not None else bytes(length)

    def write(self, address: int, data: bytes) -> None:
        """Writes bytes that lie in one frame."""
        begin = address % PAGE
        self.frames.setdefault(address // PAGE, bytearray(PAGE))[begin : begin + len(data)] = data

    def clear(self, frame: int) -> None:
        """Makes all bytes of a frame 0."""
        self.frames.pop(frame, None)
