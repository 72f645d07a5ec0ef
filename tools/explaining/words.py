"""Words: the nearest of some words, numbers and lists in English, and text that is safe to show."""

from __future__ import annotations

import difflib
import textwrap
from collections.abc import Iterable, Sequence

WIDTH = 100
LABEL = 9


def visible(text: str, most: int = 80) -> str:
    """Returns text with its control characters written as escapes, cut if it is long."""
    shown = "".join(one if one.isprintable() else one.encode("unicode_escape").decode() for one in text[:most])
    return shown + ("..." if len(text) > most else "")


def nearest(word: str, words: Iterable[str]) -> str | None:
    """Returns the word that was probably meant, if one is near."""
    known = sorted(words)
    bare = plain_word(word)
    for one in known:
        if plain_word(one) == bare:
            return one
    by_plain = {plain_word(one): one for one in known}
    found = difflib.get_close_matches(bare, list(by_plain), 1, 0.6)
    if found:
        return by_plain[found[0]]
    longer = [one for plain, one in by_plain.items() if len(bare) >= 2 and (plain.startswith(bare) or bare.startswith(plain))]
    return longer[0] if len(longer) == 1 else None


def plain_word(word: str) -> str:
    """Returns a word without the prefixes of C, its case and its marks."""
    plain = word.upper().removeprefix("BUS_DMASYNC_").removeprefix("BUS_DMAMAP_").removeprefix("BUS_DMAMEM_")
    return plain.removeprefix("BUS_DMA_").replace("_", "").replace("-", "").replace(" ", "")


def did_you_mean(word: str, words: Iterable[str]) -> list[str]:
    """Returns the question after the nearest word, if there is one."""
    near = nearest(word, words)
    return [f'did you mean "{near}"?'] if near is not None else []


def count(number: int, one: str, many: str = "") -> str:
    """Returns a number with its noun, as `1 page` and `2 pages`."""
    return f"{number} {one if number == 1 else many or one + 's'}"


def listed(words: Sequence[str], last: str = "and") -> str:
    """Returns words as a list in a sentence."""
    if len(words) < 2:
        return "".join(words)
    return f"{', '.join(words[:-1])} {last} {words[-1]}"


def some(words: Sequence[str], most: int = 4) -> str:
    """Returns the first words of a list, and how many more there are."""
    if len(words) <= most:
        return listed(words)
    return f"{', '.join(words[:most])} and {len(words) - most} more"


def labelled(label: str, text: str) -> list[str]:
    """Returns lines with a label before the first, cut at words."""
    lines = textwrap.wrap(text, WIDTH - LABEL - 2, break_long_words=False, break_on_hyphens=False) or [""]
    return [f"  {label if not place else '':{LABEL}}{line}" for place, line in enumerate(lines)]
