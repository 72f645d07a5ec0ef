"""What a report means and what to do, in the words of docs/DRIVERS.md, by the reader that `tools/explain` has."""

from __future__ import annotations

from typing import NamedTuple

from model.answers import Entry, Report
from tools.explaining.pages import of_report


class Meaning(NamedTuple):
    """The sentences of a report."""

    means: str
    mend: str


def meaning_of(entry: Entry) -> Meaning | None:
    """Returns the meaning of an entry's answer, or nothing if it is no report."""
    if not isinstance(entry.answer, Report):
        return None
    advice = of_report(entry.answer.name)
    return Meaning(advice.means, advice.todo)


def words_of(entry: Entry) -> str:
    """Returns the meaning of an entry's answer in one line, or nothing."""
    meaning = meaning_of(entry)
    return f"{meaning.means} To do: {meaning.mend}" if meaning is not None else ""
