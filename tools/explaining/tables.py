"""What a scenario can have at each place, and what it has made there: the tables that explain a refusal."""

from __future__ import annotations

import re

from model.reader import BIO_KEYS, ITEMS, OPERATIONS, Kind

from .source import Node, Source

Reasons = list[str]

OBJECTS = {
    "": "frames max_bpages drivers order",
    "driver": "pages script",
    "entry": "va len",
}
FLAGS: dict[str, tuple[str, ...]] = {
    "tag": ("ALLOCNOW", "KEEP_PG_OFFSET", "WAITOK"),
    "load": ("NOWAIT", "WAITOK"),
    "load_vector": ("NOWAIT", "WAITOK"),
    "load_bio": ("NOWAIT", "WAITOK"),
    "dmamem": ("NOWAIT", "ZERO", "COHERENT", "WAITOK"),
}
OPS = ("PREREAD", "POSTREAD", "PREWRITE", "POSTWRITE")
WORDS_OF_KINDS = {Kind.TAG: "a tag", Kind.IOMMU_TAG: "an IOMMU tag", Kind.MAP: "a map", Kind.MEMORY: "a memory",
                  Kind.RING: "a ring"}
KIND_OF_WORD = {"tag": Kind.TAG, "iommu_tag": Kind.IOMMU_TAG, "map": Kind.MAP, "dmamem": Kind.MEMORY, "ring": Kind.RING}


def number_of(node: Node | None) -> int | None:
    """Returns a number of a scenario, in either of its forms."""
    if node is None:
        return None
    if node.kind == "number" and re.fullmatch("[0-9]+", node.text):
        return int(node.text)
    if node.kind == "text" and re.fullmatch("0x[0-9a-fA-F]{1,16}", node.text):
        return int(node.text, 16)
    return None


def driver_of(path: str) -> int | None:
    """Returns the number of the driver that a path is in."""
    found = re.match(r"drivers\[([0-9]+)\]", path)
    return int(found[1]) if found is not None else None


def keys_of(node: Node, path: str) -> list[str]:
    """Returns the keys that an object at a path can have."""
    if path == "":
        return OBJECTS[""].split()
    if re.fullmatch(r"drivers\[[0-9]+\]", path):
        return OBJECTS["driver"].split()
    if re.search(r"entries\[[0-9]+\]$", path):
        return OBJECTS["entry"].split()
    if path.endswith(".bio"):
        return BIO_KEYS.get(node.words_of("kind"), "kind va len entries frames off").split()
    table = (ITEMS if is_item(path) else OPERATIONS).get(node.words_of("op"))
    return ["op", *(key for part in table.parts for key in part.keys.split())] if table is not None else ["op"]


def is_item(path: str) -> bool:
    """Returns whether a path is that of an item of a `then`."""
    return re.search(r"\.then\[[0-9]+\]$", path) is not None


def names_before(source: Source, path: str) -> dict[str, tuple[Kind, str]]:
    """Returns the names that operations before a path made in its script, with their kinds and paths."""
    found = re.match(r"(drivers\[[0-9]+\]\.script)\[([0-9]+)\]", path)
    if found is None:
        return {}
    return names_of(source, found[1], int(found[2]))


def names_of(source: Source, script_path: str, most: int = 2**32) -> dict[str, tuple[Kind, str]]:
    """Returns the names that a script makes, with their kinds and the paths of what makes them."""
    script = source.find(script_path).node
    names: dict[str, tuple[Kind, str]] = {}
    for place, step in enumerate(script.elements[:most] if script is not None else []):
        kind = KIND_OF_WORD.get(step.words_of("op"))
        if kind is not None:
            names.setdefault(step.words_of("name"), (kind, f"{script_path}[{place}]"))
    return names
