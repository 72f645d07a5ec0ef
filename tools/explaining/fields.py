"""Why a field is `BadField`: missing, unknown, of a wrong kind, or outside of what it can be."""

from __future__ import annotations

import re

from model.reader import BIO_KEYS, END_OF_PAGES, MAX_COUNT, U64, Kind
from model.scenario import PAGE

from .source import Found, Node, Source
from .tables import FLAGS, OPS, WORDS_OF_KINDS, Reasons, keys_of, names_before, number_of
from .words import count, did_you_mean, listed, nearest, visible

NAMING = {"name": "a new name", "tag": "the name of a tag", "map": "the name of a map", "mem": "the name of a memory",
          "ring": "the name of a ring", "parent": "the name of a tag"}
LISTS = {"frames", "drivers", "order", "pages", "script", "flags", "ops", "then", "entries", "clusters"}


def bad_field(source: Source, found: Found) -> Reasons:
    """Returns why a field is refused."""
    node, parent = found.node, found.parent
    path = found.parent_path + ("." if found.parent_path and not found.last.startswith("[") else "") + found.last
    if node is None:
        return missing_field(found)
    if parent is None:
        return [f"a scenario is an object, {{...}}, with `frames` and `drivers`; this is {node.what()}"]
    if parent.kind == "object" and found.last not in keys_of(parent, found.parent_path):
        return unknown_key(found)
    if parent.kind == "list":
        return bad_element(source, found, path)
    return bad_value(source, found, path)


def what_object(node: Node, path: str) -> str:
    """Returns what an object is, in words."""
    if path == "":
        return "a scenario"
    if re.fullmatch(r"drivers\[[0-9]+\]", path):
        return "a driver"
    if path.endswith(".bio"):
        return f"a bio of kind `{visible(node.words_of('kind'))}`"
    if re.search(r"entries\[[0-9]+\]$", path):
        return "an entry"
    return f"`{visible(node.words_of('op'))}`"


def missing_field(found: Found) -> Reasons:
    """Returns which field is missing, and which key there was probably meant for it."""
    assert found.parent is not None
    keys = keys_of(found.parent, found.parent_path)
    spare = [key for key in found.parent.members if key not in keys]
    near = [key for key in spare if nearest(key, [found.last])]
    said = [f'"{near[0]}" was probably meant for it'] if near else []
    what = what_object(found.parent, found.parent_path)
    if found.last == "op":
        return [*said, 'an operation or item has a field "op" with its word, such as "op": "load"']
    other = [key for key in keys if key != "op"]
    return [f"the field `{found.last}` is missing: {what} needs it", *said, f"the fields of {what} are {listed(other)}"]


def unknown_key(found: Found) -> Reasons:
    """Returns which key was probably meant."""
    assert found.parent is not None
    keys = keys_of(found.parent, found.parent_path)
    what = what_object(found.parent, found.parent_path)
    if found.last == "off" and found.parent.words_of("op") == "load":
        return ["a `load` has no `off`: a memory is loaded from its first byte, and `va` says where other bytes begin"]
    asked = did_you_mean(found.last, [key for key in keys if key not in found.parent.members])
    asked = asked or did_you_mean(found.last, keys)
    if found.last == "flags":
        asked = [f"only {listed(list(FLAGS))} have flags"]
    if found.last in ("comment", "_comment", "//", "#", "note"):
        asked = ["a scenario has no comments"]
    shown = [key for key in keys if key != "op"]
    return [f'{what} has no field "{visible(found.last)}"', *asked, f"the fields of {what} are {listed(shown)}"]


def bad_value(source: Source, found: Found, path: str) -> Reasons:
    """Returns why a member of an object is refused."""
    node, key, parent = found.node, found.last, found.parent
    assert node is not None and parent is not None
    if key == "op":
        return [f"`op` is a text with a word, such as \"load\"; this is {node.what()}"]
    if key in LISTS:
        return no_list(key, node)
    if key == "bio":
        return [f'`bio` is an object such as {{"kind": "mapped", "va": "0x100000", "len": 100}}; this is {node.what()}']
    if key == "kind" and found.parent_path.endswith(".bio"):
        asked = did_you_mean(node.text, BIO_KEYS) if node.kind == "text" else []
        return [*asked, f"the kinds of a bio are {listed(list(BIO_KEYS))}"]
    if key in NAMING:
        return bad_name(source, node, key, path)
    if key == "hex":
        return bad_hex(node)
    return bad_number(node, key, found)


def no_list(key: str, node: Node) -> Reasons:
    """Returns why a value is no list."""
    if node.kind == "text" and key in ("ops", "flags"):
        known = OPS if key == "ops" else tuple({word for words in FLAGS.values() for word in words})
        words = [nearest(piece, known) or visible(piece) for piece in re.split(r"[|,+\s]+", node.text) if piece]
        written = ", ".join(f'"{word}"' for word in words)
        return [f"`{key}` is a list of texts: write [{written}]"]
    if node.kind == "object":
        return [f"`{key}` is a list, also of one element: write [{{...}}]"]
    if node.text == "null":
        return [f"`{key}` is a list: leave the field out, or write []"]
    return [f"`{key}` is a list, [...]; this is {node.what()}"]


def bad_name(source: Source, node: Node, key: str, path: str) -> Reasons:
    """Returns why a name is none, or is taken."""
    rule = "a name has 1 to 32 characters out of a to z, 0 to 9 and _, and begins with a letter"
    if node.kind != "text":
        return [f"`{key}` is {NAMING[key]}, a text; this is {node.what()}"]
    name = node.text
    made = names_before(source, path)
    if key == "name" and name in made:
        kind, before = made[name]
        if kind is Kind.MEMORY and path.endswith(".name") and is_map(source, path):
            return [f"memory `{name}`, made at {source.where(before)}, has a map of its own with the same name: remove this `map`, and "
                    f"load the memory by that map"]
        return [
            f"`{name}` is made already, at {source.where(before)}, as {WORDS_OF_KINDS[kind]}: take another name",
            "tags, maps, memories and rings of a script share their names, and a name that was destroyed is not made again",
        ]
    better = re.sub("[^a-z0-9_]", "_", name.lower()).lstrip("0123456789_")[:32]
    asked = [f'did you mean "{better}"?'] if better else []
    return [rule, *asked]


def is_map(source: Source, path: str) -> bool:
    """Returns whether a name is that of a `map`."""
    step = source.find(path.removesuffix(".name")).node
    return step is not None and step.words_of("op") == "map"


def bad_hex(node: Node) -> Reasons:
    """Returns why a text is no hex bytes."""
    rule = "`hex` is a text of two hexadecimal digits for each byte, such as \"68656c6c6f\""
    if node.kind != "text":
        return [f"{rule}; this is {node.what()}"]
    if node.text[:2] in ("0x", "0X"):
        return ["`hex` has no 0x before its digits", rule]
    if re.search(r"[\s:,_-]", node.text):
        return ["`hex` has no marks between its digits", rule]
    if re.fullmatch("[0-9a-fA-F]*", node.text):
        return [f"{count(len(node.text), 'digit')} are no whole bytes: one digit is missing or too many", rule]
    return [rule, "another way is `fill`, the value of a byte, with `len`, how many of them"]


GREATEST = {"nsegments": 2**32 - 1, "slots": 2**32 - 1, "slot": 2**32 - 1, "kind": 255, "fill": 255, "off": PAGE - 1}


def bad_number(node: Node, key: str, found: Found) -> Reasons:
    """Returns why a value is no number that a field can have."""
    value = number_of(node)
    if value is None or value > U64:
        return why_no_number(node, key)
    if key == "count":
        return [f"the `count` of a kick is from 1 to {MAX_COUNT}; this is {node.what()}"]
    if key == "off":
        return [f"the `off` of an unmapped bio is in its first frame, from 0 to {PAGE - 1}: name a later frame first"]
    if key == "kind":
        return ["the `kind` of a descriptor is 1, the device reads the buffer, or 2, it writes the buffer"]
    if key in GREATEST:
        return [f"`{key}` is at most {GREATEST[key]}; this is {node.what()}"]
    return [f"`{key}` cannot be {node.what()}"]


def why_no_number(node: Node, key: str) -> Reasons:
    """Returns why a value is no number of a scenario."""
    rule = f"`{key}` is a number from 0 to 2^64 - 1: digits, or a text such as \"0x1000\""
    text = node.text
    if node.kind == "text":
        if re.fullmatch("[0-9]+", text):
            return [f"decimal digits are not in quotes: write {int(text)}, or \"{int(text):#x}\"", rule]
        if re.fullmatch("0X[0-9a-fA-F]{1,16}", text):
            return [f'the x of 0x is a small letter: write "0x{text[2:]}"', rule]
        if re.fullmatch("0x[0-9a-fA-F_]+", text):
            return ["a hexadecimal number has 1 to 16 digits and nothing else", rule]
        if re.fullmatch("[0-9a-fA-F]+h?", text):
            return [f'hexadecimal digits have 0x before them: write "0x{text.removesuffix("h")}"', rule]
        return [rule, f"this is {node.what()}"]
    if node.kind == "number":
        if text.startswith("-"):
            return [f"a number has no sign; this is {text}", rule]
        if re.search("[.eE]", text):
            whole = f": write {int(float(text))}" if float(text) < 2**53 and float(text).is_integer() else ""
            return [f"a number has no fraction and no exponent{whole}", rule]
        return [f"{visible(text)} is above 2^64 - 1", rule]
    if text == "null":
        return ["null is no number: leave the field out for its default, or write the number", rule]
    return [rule, f"this is {node.what()}"]


def bad_element(source: Source, found: Found, path: str) -> Reasons:
    """Returns why an element of a list is refused."""
    node = found.node
    assert node is not None
    whose = re.sub(r"\[[0-9]+\]$", "", path)
    if whose == "frames":
        return bad_run(node, ["first", "count"], "frames")
    if whose.endswith(".pages"):
        return bad_pages(source, node, path)
    if whose == "order":
        return bad_actor(source, node)
    if whose.endswith(".clusters"):
        return bad_cluster(node, found)
    if whose.endswith((".flags", ".ops")):
        return [f"a flag is a text; this is {node.what()}"]
    if whose.endswith(".bio.frames"):
        return why_no_number(node, "a frame")
    if node.kind != "object":
        return [f"{what_element(whose)} is an object, {{...}}; this is {node.what()}"]
    return wrong_places(node) or wrong_bytes(node)


def what_element(whose: str) -> str:
    """Returns what the elements of a list are."""
    return {"drivers": "a driver", "script": "an operation", "then": "an item"}.get(whose.rsplit(".", 1)[-1], "an entry")


def bad_run(node: Node, names: list[str], what: str) -> Reasons:
    """Returns why an element is no list of so many numbers."""
    shape = f"[{', '.join(names)}]"
    if node.kind != "list" or len(node.elements) != len(names):
        size = f"a list of {len(node.elements)}" if node.kind == "list" else node.what()
        advice = [] if node.kind == "list" else [f"`{what}` is a list of lists: write [[{', '.join(names)}], ...]"]
        return [f"an element of `{what}` is {shape}; this is {size}", *advice]
    for name, each in zip(names, node.elements):
        value = number_of(each)
        if value is None or value > U64:
            return [f"an element of `{what}` is {shape}", *why_no_number(each, name)]
    if number_of(node.elements[-1]) == 0:
        return [f"an element of `{what}` is {shape}, with a count of at least 1"]
    return []


def bad_pages(source: Source, node: Node, path: str) -> Reasons:
    """Returns why an element of `pages` is refused."""
    wrong = bad_run(node, ["va", "frame", "count"], "pages")
    if wrong:
        return wrong
    va, frame, size = (number_of(each) or 0 for each in node.elements)
    if va % PAGE:
        return [f"the virtual address {va:#x} is no begin of a page: take {va // PAGE * PAGE:#x}, a multiple of 4096 (0x1000)"]
    if va + PAGE * size > END_OF_PAGES:
        return [f"virtual addresses of pages are below {END_OF_PAGES:#x}: memories of `dmamem` lie above it"]
    whose, place = re.sub(r"\[[0-9]+\]$", "", path), int(path.rsplit("[", 1)[1][:-1])
    pages = source.find(whose).node
    for number, other in enumerate(pages.elements[:place] if pages is not None else []):
        first, _, length = (number_of(each) or 0 for each in other.elements)
        begin, end = max(va, first), min(va + PAGE * size, first + PAGE * length)
        if begin < end:
            return [f"the virtual page {begin:#x} is in {whose}[{number}] already ({source.where(f'{whose}[{number}]')})"]
    return []


def bad_actor(source: Source, node: Node) -> Reasons:
    """Returns why an element of `order` names no actor."""
    drivers = source.find("drivers").node
    most = len(drivers.elements) - 1 if drivers is not None else 0
    rule = f"an element of `order` is s (script), d (device) or c (callback) and a driver's number from 0 to {most}, such as \"s0\""
    if node.kind == "text" and re.fullmatch("[sdc][0-9]+", node.text):
        if int(node.text[1:]) > most:
            return [f"there is no driver {int(node.text[1:])}: drivers are numbered from 0", rule]
        return [f'write "{node.text[0]}{int(node.text[1:])}", without leading zeros', rule]
    return [rule, f"this is {node.what()}"]


def bad_cluster(node: Node, found: Found) -> Reasons:
    """Returns why a cluster is refused."""
    value = number_of(node)
    if value is None:
        return why_no_number(node, "a cluster")
    if value % PAGE:
        return [f"a cluster is a whole page: {value:#x} is no multiple of 4096, {value // PAGE * PAGE:#x} is"]
    clusters = [number_of(each) for each in found.parent.elements] if found.parent is not None else []
    if clusters.count(value) > 1:
        return [f"the cluster {value:#x} is in the list twice: each cluster has bytes of its own"]
    return [f"an entry of this send names bytes of the page {value:#x}: the chain is copied to the clusters, so take another page"]


def wrong_places(node: Node) -> Reasons:
    """Returns why an operation says its place wrongly."""
    keys = {key for key in ("va", "mem", "off") if key in node.members}
    operation = node.words_of("op")
    if operation not in ("load", "cpu_read", "cpu_write"):
        return []
    if {"va", "mem"} <= keys:
        return ["both `va` and `mem` are given: say the place by one of them"]
    if "va" not in keys and "mem" not in keys:
        return [f"`{operation}` says no place: give `va`, a virtual address, or `mem`, the name of a memory"]
    if {"va", "off"} <= keys:
        return ["`off` goes with `mem` only: add it to the `va` instead"]
    return []


def wrong_bytes(node: Node) -> Reasons:
    """Returns why an operation or item says its bytes wrongly."""
    rule = "bytes are `hex` alone, such as \"hex\": \"00ff\", or `fill` with `len`, such as \"fill\": 7, \"len\": 16"
    if {"hex", "fill"} <= node.members.keys():
        return ["both `hex` and `fill` are given", rule]
    if {"hex", "len"} <= node.members.keys():
        return ["`len` is given beside `hex`, which says itself how many bytes there are: remove `len`", rule]
    if "len" in node.members:
        return ["`len` is given without `fill`: which byte is written?", rule]
    return ["no bytes are given", rule]
