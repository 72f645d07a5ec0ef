"""What a step answers, and the entry of a journal."""

from __future__ import annotations

from dataclasses import dataclass, field

from .segments import Segment

Cause = dict[str, object]


@dataclass(frozen=True)
class Answer:
    """An answer; a subclass has its facts, and maybe what it was due to."""

    def text(self) -> str:
        """Returns the answer as it is printed."""
        raise NotImplementedError


@dataclass(frozen=True)
class Said(Answer):
    """An answer that says no more than its words."""
    words: str

    def text(self) -> str:
        return self.words


@dataclass(frozen=True)
class PagesAdded(Answer):
    """Pages were added to a zone; `made` tells whether the tag or the map was made."""
    zone: int
    count: int
    made: bool
    cause: Cause

    def text(self) -> str:
        return f"{'ok' if self.made else 'ENOMEM'} zone{self.zone} +{self.count}"


@dataclass(frozen=True)
class Loaded(Answer):
    """The segments of a load."""
    segments: tuple[Segment, ...]

    def text(self) -> str:
        return " ".join(["ok", *(segment.text() for segment in self.segments)])


@dataclass(frozen=True)
class InProgress(Answer):
    """A load waits: the pages that it has, and those that it needs."""
    have: int
    need: int
    cause: Cause

    def text(self) -> str:
        return f"EINPROGRESS {self.have}/{self.need}"


@dataclass(frozen=True)
class BytesRead(Answer):
    """The bytes that the driver or the device read."""
    data: bytes

    def text(self) -> str:
        return f"bytes {self.data.hex()}".rstrip()


@dataclass(frozen=True)
class Refused(Answer):
    """An errno, and what it was due to."""
    errno: str
    cause: Cause = field(default_factory=dict)

    def text(self) -> str:
        return self.errno


@dataclass(frozen=True)
class Report(Answer):
    """A mistake of the driver, by its name, with the offset and what it was due to."""
    name: str
    offset: int = 0
    cause: Cause = field(default_factory=dict)

    def text(self) -> str:
        return f"report {self.name} {self.offset}"


@dataclass(frozen=True)
class Entry:
    """One step of a journal: its number, its actor, its path in the scenario, what was done, and the answer."""
    number: int
    actor: str
    path: str
    done: str
    answer: Answer

    def line(self) -> str:
        """Returns the entry as it is printed."""
        return f"{self.number} {self.actor} {self.done} -> {self.answer.text()}\n"


class StepEnds(Exception):
    """A step is refused and changes nothing; this is its answer."""

    def __init__(self, answer: Answer) -> None:
        super().__init__(answer)
        self.answer = answer


def end_with(report: Report | None) -> None:
    """Ends the step with a report, if there is one."""
    if report is not None:
        raise StepEnds(report)


OK = Said("ok")
