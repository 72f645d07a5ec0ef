"""What docs/DRIVERS.md says of each report, errno and answer: the page is the one source of these sentences."""

from __future__ import annotations

import pathlib
import re
from dataclasses import dataclass
from functools import cache

PAGE_OF_DRIVERS = pathlib.Path(__file__).resolve().parents[2] / "docs" / "DRIVERS.md"


@dataclass(frozen=True)
class Advice:
    """What an answer means, and what to do."""

    means: str
    todo: str


@cache
def rows() -> tuple[tuple[str, ...], ...]:
    """Returns the rows of all tables of the page, with the cells of each."""
    text = PAGE_OF_DRIVERS.read_text(encoding="utf-8")
    lines = [line.strip() for line in text.splitlines()]
    return tuple(tuple(cell.strip() for cell in line[1:-1].split(" | ")) for line in lines if line.startswith("| "))


def plain(cell: str) -> str:
    """Returns a cell without its marks."""
    return re.sub(r"\[([^]]*)\]\([^)]*\)", r"\1", cell).replace("`", "")


def sentence(text: str) -> str:
    """Returns a cell as a sentence."""
    return text[:1].upper() + text[1:].rstrip(".") + "." if text else ""


def of_report(name: str) -> Advice:
    """Returns the page's row of a report."""
    for row in rows():
        if len(row) == 3 and row[0] == f"`{name}`":
            return Advice(sentence(plain(row[1])), sentence(plain(row[2])))
    return Advice("docs/DRIVERS.md has no row of this report.", "")


def of_errno(errno: str, word: str, is_iommu: bool = False) -> Advice:
    """Returns the page's row of an errno as the answer of an operation."""
    found = [row for row in rows() if len(row) == 3 and row[0] == f"`{errno}`"]
    for row in found:
        if f"`{word}`" in row[1] and "IOMMU" not in row[1]:
            return Advice(sentence(plain(row[2])), "")
    if is_iommu:
        found = [row for row in found if "IOMMU" in row[1]] or found
    loads = [row for row in found if "load" in row[1]] or found
    return Advice(sentence(plain(loads[0][2])), "") if loads else Advice("docs/DRIVERS.md has no row of this errno.", "")


def of_ring_step(answer: str) -> Advice | None:
    """Returns the page's row of an answer of `ring_step`, if there is one."""
    return of_pair("`ring_step`", answer)


def of_resend(answer: str) -> Advice | None:
    """Returns the page's row of an answer of `resend`, if there is one."""
    return of_pair("`resend`", answer)


def of_pair(word: str, answer: str) -> Advice | None:
    """Returns a row of the table of two columns that has the answers of a word."""
    inside = False
    for row in rows():
        if row[0].startswith("answer of"):
            inside = word in row[0]
        elif inside and len(row) == 2 and re.search(rf"`(report )?{answer}( 0)?`", row[0]):
            return Advice(sentence(plain(row[1])), "")
        elif len(row) != 2:
            inside = False
    return None
