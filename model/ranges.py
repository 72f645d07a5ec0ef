"""Sets of whole numbers, kept as runs: sets of bytes and of positions in a load.

A `Runs` is a list of pairs `(begin, end)` in rising order. No two runs touch or overlap. A run has the
numbers from `begin` to `end - 1`.
"""

from __future__ import annotations

from bisect import bisect_right
from collections.abc import Iterable, Iterator
from dataclasses import dataclass

from .scenario import Fixed


@dataclass(frozen=True)
class Runs(Fixed):
    """A set of whole numbers."""
    pairs: tuple[tuple[int, int], ...] = ()

    @staticmethod
    def of(pairs: Iterable[tuple[int, int]]) -> Runs:
        """Returns the set of all numbers in the pairs, which may overlap."""
        merged: list[tuple[int, int]] = []
        for begin, end in sorted(pair for pair in pairs if pair[0] < pair[1]):
            if merged and begin <= merged[-1][1]:
                merged[-1] = (merged[-1][0], max(merged[-1][1], end))
            else:
                merged.append((begin, end))
        return Runs(tuple(merged))

    @staticmethod
    def span(begin: int, length: int) -> Runs:
        """Returns the set of `length` numbers from `begin` on."""
        return Runs(((begin, begin + length),)) if length > 0 else Runs()

    @staticmethod
    def standing_twice(pairs: Iterable[tuple[int, int]]) -> Runs:
        """Returns the numbers that are in two or more of the pairs."""
        edges: list[tuple[int, int]] = []
        for begin, end in pairs:
            if begin < end:
                edges += [(begin, 1), (end, -1)]
        twice: list[tuple[int, int]] = []
        depth, opened = 0, 0
        for place, change in sorted(edges):
            if depth == 1 and change == 1:
                opened = place
            if depth == 2 and change == -1:
                twice.append((opened, place))
            depth += change
        return Runs.of(twice)

    def __bool__(self) -> bool:
        return bool(self.pairs)

    def __iter__(self) -> Iterator[tuple[int, int]]:
        return iter(self.pairs)

    def first(self) -> int:
        """Returns the least number of a set that has one."""
        return self.pairs[0][0]

    def count(self) -> int:
        """Returns how many numbers the set has."""
        return sum(end - begin for begin, end in self.pairs)

    def within(self, begin: int, end: int) -> list[tuple[int, int]]:
        """Returns the runs of those numbers that are from `begin` to `end - 1`."""
        found: list[tuple[int, int]] = []
        place = max(0, bisect_right(self.pairs, (begin, begin)) - 1)
        while place < len(self.pairs) and self.pairs[place][0] < end:
            cut = max(begin, self.pairs[place][0]), min(end, self.pairs[place][1])
            if cut[0] < cut[1]:
                found.append(cut)
            place += 1
        return found

    def __or__(self, other: Runs) -> Runs:
        return Runs.of(self.pairs + other.pairs) if self.pairs and other.pairs else self if self.pairs else other

    def __and__(self, other: Runs) -> Runs:
        both: list[tuple[int, int]] = []
        left, right = 0, 0
        while left < len(self.pairs) and right < len(other.pairs):
            begin = max(self.pairs[left][0], other.pairs[right][0])
            end = min(self.pairs[left][1], other.pairs[right][1])
            if begin < end:
                both.append((begin, end))
            if self.pairs[left][1] < other.pairs[right][1]:
                left += 1
            else:
                right += 1
        return Runs(tuple(both))

    def __sub__(self, other: Runs) -> Runs:
        if not self.pairs or not other.pairs:
            return self
        rest: list[tuple[int, int]] = []
        right = 0
        for begin, end in self.pairs:
            while right < len(other.pairs) and other.pairs[right][1] <= begin:
                right += 1
            place = right
            while place < len(other.pairs) and other.pairs[place][0] < end:
                if begin < other.pairs[place][0]:
                    rest.append((begin, other.pairs[place][0]))
                begin = max(begin, other.pairs[place][1])
                place += 1
            if begin < end:
                rest.append((begin, end))
        return Runs(tuple(rest))
