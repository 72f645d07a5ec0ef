"""Why a scenario is refused: where, and what was probably meant."""

from __future__ import annotations

import re
from collections.abc import Callable

from model.reader import (
    ITEMS, MAX_ACCESS, MAX_BPAGES, MAX_BUFFER, MAX_DRIVERS, MAX_ENTRIES, MAX_FRAME_NUMBER, MAX_FRAMES, MAX_LOADED, MAX_ORDER,
    MAX_READS, MAX_STEPS, OPERATIONS, Kind, Refusal,
)
from model.scenario import PAGE

from .fields import bad_field
from .source import Found, Node, Source
from .tables import (
    FLAGS, OPS, WORDS_OF_KINDS, Reasons, driver_of, is_item, keys_of, names_before, names_of, number_of,
)
from .words import count, did_you_mean, labelled, listed, nearest, visible

LEAST_ADDRESS = 0x100000
WORDS_OF_REPORT = {"resend", "ring_step", "callback", "release"}
LIMITS: dict[str, str] = {
    "max_bpages": f"`max_bpages` is from 1 to {MAX_BPAGES} pages of 4096 bytes",
    "drivers": f"a scenario has at most {MAX_DRIVERS} drivers",
    "order": f"`order` has at most {MAX_ORDER} elements",
    "frame_number": f"frame numbers are below {MAX_FRAME_NUMBER:#x} (2^30): first + count may not be more",
    "frames": f"a scenario has at most {MAX_FRAMES} frames, over all elements of `frames` together",
    "entries": f"a list of entries, clusters or frames has at most {MAX_ENTRIES} elements",
    "steps": f"a script has at most {MAX_STEPS} steps: each operation and each item counts 1, and a `kick` its `count` more",
    "access": f"one read or write has at most {MAX_ACCESS} bytes: make several of them",
    "reads": f"all reads of a scenario together have at most {MAX_READS} bytes, and this one goes over: read less",
    "buffer": f"one load has at most {MAX_BUFFER} bytes, over all its entries: make several loads",
    "loaded": f"all loads of a scenario together have at most {MAX_LOADED} bytes (a `send` counts twice), and this one goes over",
}


def explain_refusal(source: Source, refusal: Refusal) -> list[str]:
    """Returns the explanation of a refusal: the place, its line with a caret, and the causes."""
    if refusal.kind == "NotJson":
        fault = source.fault
        place = fault.place if fault is not None else 0
        reasons = fault.reasons if fault is not None else ["this is no JSON text"]
    else:
        found = source.find(refusal.path)
        place = place_of(found)
        reasons = reasons_of(source, refusal, found) or ["the value is none that this field can have"]
    lines = [f"{source.at(place)}: refused: {visible(refusal.text(), 300)}", *source.line_with_caret(place)]
    for reason in reasons:
        lines += labelled("hint" if reason.endswith("?") else "because", reason)
    for note in twice_reasons(source):
        lines += labelled("note", note)
    return lines


def place_of(found: Found) -> int:
    """Returns the place to point at: the value, the key if it is wrong itself, or the object that misses it."""
    if found.node is None:
        return found.place
    if found.parent is not None and found.parent.kind == "object" and found.last not in keys_of(found.parent, found.parent_path):
        return found.place
    return found.node.begin


def twice_reasons(source: Source) -> Reasons:
    """Returns what to say of keys that an object has twice."""
    return [
        f"`{visible(one.path)}` is given twice, at {source.at(one.first)} and {source.at(one.second)}; the last one counts"
        for one in source.twice[:3]
    ]


def reasons_of(source: Source, refusal: Refusal, found: Found) -> Reasons:
    """Returns the causes of a refusal."""
    limit = re.fullmatch(r"Limit\((\w+)\)", refusal.kind)
    if limit is not None:
        return [LIMITS[limit[1]], *numbers_of_limit(limit[1], found)]
    judges: dict[str, Callable[[Source, Found], Reasons]] = {
        "BadOp": bad_op, "BadFlag": bad_flag, "UnknownName": unknown_name, "FrameAbsent": frame_absent,
        "FrameTwice": frame_twice, "BadField": bad_field,
    }
    return judges[refusal.kind](source, found)


def numbers_of_limit(limit: str, found: Found) -> Reasons:
    """Returns the numbers that are over a limit, if they are at hand."""
    node = found.node
    if node is None:
        return []
    if limit in ("drivers", "order", "entries"):
        return [f"there are {len(node.elements)}"]
    if limit in ("frame_number", "frames") and len(node.elements) == 2:
        first, size = (number_of(each) or 0 for each in node.elements)
        hint = maybe_address(first) if limit == "frame_number" else []
        return [f"this element has {count(size, 'frame')} from frame {first:#x} on", *hint]
    if limit == "max_bpages":
        return [f"this is {node.what()}", "the number is one of pages, not of bytes"]
    if limit == "access" and "len" in node.members:
        return [f"this one has {node.members['len'].text}"]
    if limit == "access" and node.words_of("hex"):
        return [f"this one has {len(node.words_of('hex')) // 2}"]
    if limit == "buffer":
        entries = node.members.get("entries") or (node.members["bio"].members.get("entries") if "bio" in node.members else None)
        sizes = [each.members["len"] for each in entries.elements] if entries is not None else []
        length = sum(number_of(each) or 0 for each in sizes) or number_of(node.members.get("len"))
        return [f"this one has {length}"] if length else []
    return []


def maybe_address(frame: int) -> Reasons:
    """Returns the question whether a frame number is an address."""
    if frame >= PAGE and frame % PAGE == 0:
        return [f"frame {frame:#x}: did you give an address? Frame numbers are address / 4096, so this would be {frame // PAGE:#x}"]
    return []


# The kinds of refusals


def bad_op(source: Source, found: Found) -> Reasons:
    """Returns why a word is no operation or item here."""
    word = found.node.text if found.node is not None else ""
    in_then = is_item(found.parent_path)
    here, other = (ITEMS, OPERATIONS) if in_then else (OPERATIONS, ITEMS)
    if word in other and in_then:
        return [f"`{word}` is an operation of a script: it cannot be in a `then`, which has {listed(list(ITEMS))}"]
    if word in other:
        return [f"`{word}` is an item: the device does it, so it is in the `then` of a load and not in a script",
                "put it there, with the PRE sync before it and the POST sync after it, and `await` the map where the script needs it done"]
    if word in WORDS_OF_REPORT:
        return [f"`{word}` is a word of the journal only: the program takes this step by itself"]
    asked = did_you_mean(word, here) or did_you_mean(word, other)
    return [*asked, f"the words here are {listed(list(here))}"]


def bad_flag(source: Source, found: Found) -> Reasons:
    """Returns why a word is no flag here."""
    word = found.node.text if found.node is not None else ""
    key, path = re.sub(r"\[[0-9]+\]$", "", found.parent_path).rsplit(".", 1)[-1], found.parent_path.rsplit(".", 1)[0]
    step = source.find(path).node
    operation = step.words_of("op") if step is not None else ""
    here = OPS if key == "ops" else FLAGS.get(operation, ())
    pieces = [piece for piece in re.split(r"[|,+\s]+", word) if piece]
    if len(pieces) > 1 and all(nearest(piece, here) for piece in pieces):
        written = ", ".join(f'"{nearest(piece, here)}"' for piece in pieces)
        return [f"each word is a text of its own: write [{written}]"]
    said: Reasons = []
    upper = word.upper().removeprefix("BUS_DMA_").removeprefix("BUS_DMASYNC_")
    for other, words in {**FLAGS, "sync": OPS}.items():
        if upper in words and upper not in here:
            users = [each for each, its in FLAGS.items() if upper in its] or ["sync", "sync_range"]
            said = [f"{upper} is a word of {listed(users)}, not of `{key}` of {operation}"]
    if not said:
        said = did_you_mean(word, here)
    if word == "":
        said = ["the text is empty: an empty list, [], has no flags"]
    return [*said, f"the words of `{key}` of {operation} are {listed(here)}"]


def unknown_name(source: Source, found: Found) -> Reasons:
    """Returns why a name is unknown here: its kind, its place, or its spelling."""
    name = found.node.text if found.node is not None else ""
    path = f"{found.parent_path}.{found.last}"
    before = names_before(source, path)
    wanted = wanted_kinds(source, found)
    needs = listed([WORDS_OF_KINDS[kind] for kind in wanted], "or")
    if name in before:
        kind, made = before[name]
        said = [f"`{name}` is {WORDS_OF_KINDS[kind]}, made at {source.where(made)}; `{found.last}` needs {needs}"]
        return [*said, *other_kind_advice(before, kind, wanted, found)]
    number = driver_of(path)
    later = names_of(source, f"drivers[{number}].script")
    if name in later:
        kind, made = later[name]
        here = re.match(r"drivers\[[0-9]+\]\.script\[[0-9]+\]", path)
        if here is not None and made == here[0]:
            return [f"`{name}` is the name that this operation makes itself: name one that was made before it"]
        return [f"`{name}` is made later, at {source.where(made)}: move this operation after it, or the making before"]
    fitting = [each for each, (kind, _) in before.items() if kind in wanted]
    said = did_you_mean(name, fitting)
    for other in range(len(source.top.members["drivers"].elements) if source.top is not None else 0):
        if other != number and name in names_of(source, f"drivers[{other}].script"):
            said.append(f"driver {other} has a `{name}`, but each driver has names of its own: make it in driver {number}, too")
            break
    have = f"driver {number} has made {listed(fitting[:12])} so far" if fitting else f"driver {number} has made none so far"
    return [f"no operation before this one has made `{visible(name)}`", *said, f"`{found.last}` needs {needs}: {have}"]


def other_kind_advice(before: dict[str, tuple[Kind, str]], kind: Kind, wanted: list[Kind], found: Found) -> Reasons:
    """Returns what to do with a name of another kind."""
    operation = found.parent.words_of("op") if found.parent is not None else ""
    if operation == "map_destroy" and kind is Kind.MEMORY:
        return ["the map of a memory ends with its memory: use `dmamem_free`"]
    if operation == "dmamem_free" and kind is Kind.MAP:
        return ["a map is ended by `map_destroy`"]
    if operation == "dmamem" and kind is Kind.IOMMU_TAG:
        return ["no memory is made with an IOMMU tag: make another tag by `tag`"]
    if operation == "map" and kind is Kind.MEMORY and found.node is not None:
        name = found.node.text
        return [f"a memory has a map of its own with its name: to load the memory, remove this `map`, name the map {name} where the one "
                f"removed was named, and load it by \"map\": \"{name}\", \"mem\": \"{name}\" and the same `len`, without `va`",
                f"to load other bytes, make the map with {listed([f'`{each}`' for each in fitting_names(before, wanted)], 'or')}"]
    fitting = fitting_names(before, wanted)
    return [f"it could be {listed([f'`{name}`' for name in fitting], 'or')}"] if fitting else []


def fitting_names(before: dict[str, tuple[Kind, str]], wanted: list[Kind]) -> list[str]:
    """Returns the first names made before that are of a kind that is wanted."""
    return [name for name, (its, _) in before.items() if its in wanted][:6]


def wanted_kinds(source: Source, found: Found) -> list[Kind]:
    """Returns which kinds of names a field takes."""
    operation = found.parent.words_of("op") if found.parent is not None else ""
    if found.last == "tag" and is_item(found.parent_path):
        return [Kind.IOMMU_TAG]
    if found.last == "parent" or operation == "dmamem":
        return [Kind.TAG]
    if found.last == "map" and operation == "map_destroy":
        return [Kind.MAP]
    by_field = {"tag": [Kind.TAG, Kind.IOMMU_TAG], "mem": [Kind.MEMORY], "ring": [Kind.RING]}
    return by_field.get(found.last, [Kind.MAP, Kind.MEMORY])


def frames_of(node: Node | None) -> list[tuple[int, int]]:
    """Returns the runs of frames of a list of `frames`, those that can be read."""
    runs: list[tuple[int, int]] = []
    for element in node.elements if node is not None else []:
        numbers = [number_of(each) for each in element.elements]
        if len(numbers) == 2 and numbers[0] is not None and numbers[1] is not None:
            runs.append((numbers[0], numbers[1]))
    return runs


def frame_absent(source: Source, found: Found) -> Reasons:
    """Returns which frame is not there, and what was probably meant."""
    path = f"{found.parent_path}{found.last}"
    node = found.node
    assert node is not None
    number = driver_of(path)
    in_bio = ".bio." in path
    runs = pages_frames(source, number) if in_bio else frames_of(source.find("frames").node)
    if in_bio:
        wanted = [number_of(node) or 0]
    else:
        first, size = (number_of(each) or 0 for each in node.elements[1:3])
        wanted = list(range(first, first + min(size, MAX_FRAMES + 1)))
    known = {frame for begin, size in runs for frame in range(begin, begin + min(size, MAX_FRAMES))}
    missing = next((frame for frame in wanted if frame not in known), wanted[-1])
    have = listed([f"{begin:#x} to {begin + size - 1:#x}" for begin, size in runs[:6]]) or "none"
    said = maybe_address(missing) if missing % PAGE == 0 and missing // PAGE in known else []
    if missing == wanted[0] and not said and missing >= LEAST_ADDRESS:
        said = maybe_address(missing)
    if not said and missing in (f for b, s in frames_of(source.find("frames").node) for f in range(b, b + min(s, MAX_FRAMES))):
        said = [f"frame {missing:#x} exists, but is in no `pages` of driver {number}"]
    if in_bio:
        return [*said, f"frame {missing:#x} is none of this driver's pages; these are frames {have}"]
    if not said and missing != wanted[0]:
        said = [f"the element names frames {wanted[0]:#x} to {wanted[-1]:#x}: is the count too large?"]
    return [*said, f"frame {missing:#x} is not in `frames`, which has {have}: add it there, or name another frame"]


def pages_frames(source: Source, number: int | None) -> list[tuple[int, int]]:
    """Returns the runs of frames of a driver's pages."""
    pages = source.find(f"drivers[{number}].pages").node
    runs: list[tuple[int, int]] = []
    for element in pages.elements if pages is not None else []:
        numbers = [number_of(each) for each in element.elements]
        if len(numbers) == 3 and numbers[1] is not None and numbers[2] is not None:
            runs.append((numbers[1], numbers[2]))
    return runs


def frame_twice(source: Source, found: Found) -> Reasons:
    """Returns which element had the frame before."""
    path = f"{found.parent_path}{found.last}"
    if path.startswith("frames"):
        runs = [(f"frames[{place}]", run) for place, run in enumerate(frames_of(source.find("frames").node))]
        what = "each frame is in `frames` once"
    else:
        drivers = source.find("drivers").node
        runs = [
            (f"drivers[{number}].pages[{place}]", run)
            for number in range(len(drivers.elements) if drivers is not None else 0)
            for place, run in enumerate(pages_frames(source, number))
        ]
        what = "each frame belongs to one driver, and is one page of it"
    mine = next((run for name, run in runs if name == path), (0, 0))
    for name, (first, size) in runs:
        begin, end = max(first, mine[0]), min(first + size, mine[0] + mine[1])
        if name != path and begin < end:
            return [f"frame {begin:#x} is in {name} already ({source.where(name)}): {what}"]
    return [what]
