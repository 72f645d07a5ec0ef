"""Scenarios that are broken in one place, or in two, drawn from a seed.

A number counts through all fields of all objects, so that a thousand of them break each field of each operation in
several ways. Some breaks leave a scenario that is read; the comparison takes these like any other.
"""
from __future__ import annotations

import copy
import json
import random
from typing import Any, Callable, Iterator

from . import drawn
from .forms import BIOS, ITEMS, LOADS, NAMES, OPERATIONS

Fields = dict[str, Any]
Break = Callable[[random.Random, Fields], None]

# A scenario that has every operation, every item and every bio with all of its fields.
FULL: Fields = {
    "frames": [[16, 16], ["0x1000", 8], [64, 2]],
    "max_bpages": 8,
    "drivers": [
        {
            "pages": [["0x100000", "0x1000", 3], ["0x103000", 64, 2]],
            "script": [
                {"op": "tag", "name": "p", "lowaddr": "0xffffff", "highaddr": 2**40, "maxsize": 8192, "nsegments": 4},
                {"op": "tag", "name": "t", "parent": "p", "alignment": 2, "boundary": 4096, "lowaddr": "0xffffff",
                 "highaddr": "0xffffffffffffffff", "maxsize": 8192, "nsegments": 4, "maxsegsz": 4096, "flags": ["ALLOCNOW"]},
                {"op": "iommu_tag", "name": "u", "lowaddr": "0xffff", "boundary": 0, "maxsize": 8192, "nsegments": 4,
                 "maxsegsz": 8192},
                {"op": "map", "name": "m", "tag": "t"},
                {"op": "map", "name": "d", "tag": "u"},
                {"op": "dmamem", "name": "q", "tag": "p", "flags": ["ZERO", "COHERENT"]},
                {"op": "load", "map": "m", "va": "0x100000", "len": 100, "flags": ["NOWAIT"], "then": [
                    {"op": "sync", "map": "m", "ops": ["PREREAD", "PREWRITE"]},
                    {"op": "sync_range", "map": "m", "off": 0, "len": 8, "ops": ["PREREAD"]},
                    {"op": "dev_read", "map": "m", "off": 0, "len": 8},
                    {"op": "dev_write", "map": "m", "off": 0, "hex": "00ff"},
                    {"op": "dev_write", "map": "m", "off": 0, "fill": 7, "len": 2},
                    {"op": "dev_read_at", "tag": "u", "addr": "0x1000", "len": 4},
                    {"op": "dev_write_at", "tag": "u", "addr": 4096, "hex": "aB"},
                    {"op": "dev_write_at", "tag": "u", "addr": 4096, "fill": 7, "len": 2}]},
                {"op": "unload", "map": "m"},
                {"op": "load", "map": "q", "mem": "q", "len": 64, "flags": [], "then": []},
                {"op": "load_vector", "map": "d", "entries": [{"va": "0x101000", "len": 8}, {"va": 4096, "len": 0}],
                 "flags": ["WAITOK"], "then": [{"op": "sync", "map": "d", "ops": []}]},
                {"op": "load_mbuf", "map": "m", "entries": [{"va": "0x101000", "len": 8}], "then": []},
                {"op": "load_bio", "map": "m", "bio": {"kind": "mapped", "va": "0x100000", "len": 8}, "flags": [], "then": []},
                {"op": "load_bio", "map": "m", "bio": {"kind": "vector", "entries": [{"va": "0x100000", "len": 8}]},
                 "flags": ["NOWAIT"], "then": []},
                {"op": "load_bio", "map": "m", "bio": {"kind": "unmapped", "frames": ["0x1000", 64], "off": 8, "len": 8},
                 "flags": [], "then": []},
                {"op": "send", "map": "m", "entries": [{"va": "0x100000", "len": 8}, {"va": "0x101000", "len": 8}],
                 "clusters": ["0x102000"], "then": []},
                {"op": "await", "map": "m"},
                {"op": "sync", "map": "m", "ops": ["POSTREAD"]},
                {"op": "sync_range", "map": "m", "off": 0, "len": 8, "ops": ["POSTWRITE"]},
                {"op": "cpu_read", "va": "0x100000", "len": 8},
                {"op": "cpu_read", "mem": "q", "off": 8, "len": 8},
                {"op": "cpu_write", "va": "0x100000", "hex": "0011"},
                {"op": "cpu_write", "mem": "q", "off": 8, "fill": 255, "len": 8},
                {"op": "ring", "name": "r", "mem": "q", "slots": 2},
                {"op": "ring_post", "ring": "r", "slot": 0, "map": "m", "off": 0, "len": 8, "kind": 1, "fill": 0},
                {"op": "kick", "ring": "r", "count": 2},
                {"op": "dmamem_free", "mem": "q"},
                {"op": "map_destroy", "map": "m"},
                {"op": "tag_destroy", "tag": "u"}],
        },
        {"pages": [["0x100000", "0x1003", 1]], "script": [{"op": "tag", "name": "p"}]},
    ],
    "order": ["s0", "d0", "c0", "s1"],
}
WRONG_VALUES: tuple[Any, ...] = (
    None, True, "", "x", "M!", "a" * 33, "0x", "0X1", "0x" + "1" * 17, "0xg", "abc", -1, 1.5, 1e2, [], {}, [1], ["s0"], {"a": 1},
    2**32, 2**64 - 1, 2**64, 0, 255, 256, 4096, 4097, "0xffffffff", "0xFFFFFFFFFFFFFFFF", [None], [[]], [{}], ["PREREAD", 5],
    ["NOWAIT", "nowait"], ["ZERO", "COHERENT", "WAITOK"], ["s00"], ["s99"], ["x0"], [[1, 2, 3]], [["0x1000", 1]], "nothing_made",
)
# A field that excludes another.
BESIDE = {"va": "mem", "mem": "va", "off": "va", "hex": "fill", "fill": "hex", "len": "hex"}
UNKNOWN_KEYS = ("zz", "", "Op", "a.b", "off", "len", "flags", "then", "va", "mem", "\u00e9", "a\nb", "map", "name", "[0]", "\U0001f600")
TEXTS = ('"\\ud800"', '"\\ude00\\ud83d"', "1e400", "-0", "01", "1.", ".5", "1e", "+1", "'a'", "NaN", "tru", "nullx", '"\x01"', '"\\x"',
         "-", "[1,]", '{"a":1,}', '{"a" 1}', "{1:2}", "[" * 127 + "]" * 127, "[" * 124 + "]" * 124, "9" * 400, '"a', "/**/1",
         '{"a":1e999,"a":1}', "1E+2", "-5", "1e-400", "\ufeff1", '"\\u00e9"', "\u00a01")


def objects_in(value: Any) -> list[Fields]:
    """The objects that are elements of a list."""
    return [it for it in value if isinstance(it, dict)] if isinstance(value, list) else []


def objects(scenario: Fields) -> Iterator[tuple[str, Fields]]:
    """All objects of a scenario, each with its name in the tables."""
    yield "top", scenario
    for driver in objects_in(scenario.get("drivers")):
        yield "driver", driver
        for step in objects_in(driver.get("script")):
            yield str(step.get("op")), step
            yield from ((f"then.{item.get('op')}", item) for item in objects_in(step.get("then")))
            yield from ((f"{step.get('op')}.entry", entry) for entry in objects_in(step.get("entries")))
            yield from ((f"bio.{bio.get('kind')}", bio) for bio in objects_in([step.get("bio")]))


def lists(scenario: Fields) -> list[list[Any]]:
    """The lists of objects of a scenario."""
    those = [here[key] for _, here in objects(scenario) for key in ("drivers", "script", "then", "entries") if here.get(key)]
    return [it for it in those if isinstance(it, list)]


def scripts(scenario: Fields) -> list[list[Any]]:
    return [here["script"] for name, here in objects(scenario) if name == "driver" and isinstance(here.get("script"), list)]


def all_fields() -> list[tuple[str, str]]:
    """Each field of each object, with the name of the object."""
    made = [("top", name) for name in ("frames", "max_bpages", "drivers", "order")]
    made += [("driver", name) for name in ("pages", "script")]
    made += [(word, name) for word, names in OPERATIONS.items() for name in ("op", *names)]
    made += [(f"then.{word}", name) for word, names in ITEMS.items() for name in ("op", *names)]
    made += [(f"bio.{kind}", name) for kind, names in BIOS.items() for name in ("kind", *names)]
    return made + [(f"{word}.entry", name) for word in ("load_vector", "load_mbuf", "send") for name in ("va", "len")]


FIELDS = all_fields()


def found(rng: random.Random, scenario: Fields, name: str, field: str = "") -> Fields:
    """An object of this name, which has the field if one has it."""
    those = [it for other, it in objects(scenario) if other == name]
    having = [it for it in those if field in it]
    return rng.choice(having or those or [scenario])


# Breaks of one field


def break_field(rng: random.Random, scenario: Fields, name: str, field: str, way: int) -> None:
    """Breaks a field in one of six ways."""
    here = found(rng, scenario, name, field)
    if way == 0:
        here[field] = rng.choice((None, True, {}, 1.5, -1))
    elif way == 1 and isinstance(here.get(field), list):
        element = "nothing" if field in ("flags", "ops") else copy.deepcopy(rng.choice(WRONG_VALUES))
        here[field].insert(rng.randrange(len(here[field]) + 1), element)
    elif way == 1 and field in NAMES:
        here[field] = "nothing"
    elif way == 1 and field in BESIDE:
        here.update({BESIDE[field]: rng.choice((0, None, "q", "00")), field: here.get(field, 0)})
    elif way == 2:
        here[rng.choice(UNKNOWN_KEYS)] = rng.choice((1, None, "a"))
    elif way == 3:
        here.pop(field, None)
        here.pop(BESIDE.get(field, ""), None)
    elif way == 4 and field in ("flags", "ops"):
        here[field] = ["WAITOK", 5] if field == "flags" else ["PREREAD", None]
    elif way == 4 and field in NAMES:
        here[field] = rng.choice(("M!", "", "p", "u", "m", "q", "r", "d", 5, "a" * 32, "a" * 33, "_a", "9a"))
    elif rng.randrange(4) == 0:
        here.pop(field, None)
    else:
        here[field] = copy.deepcopy(rng.choice(WRONG_VALUES))


def break_anything(rng: random.Random, scenario: Fields) -> None:
    """Breaks a field that some object has."""
    name, here = rng.choice(list(objects(scenario)))
    break_field(rng, scenario, name, rng.choice(sorted(here)) if here else "zz", rng.randrange(6))


def break_element(rng: random.Random, scenario: Fields) -> None:
    """Puts another value in the place of an object in a list, or gives it another word."""
    those = rng.choice(lists(scenario) or [[None]])
    at = rng.randrange(len(those))
    if rng.randrange(2) or not isinstance(those[at], dict) or "op" not in those[at]:
        those[at] = copy.deepcopy(rng.choice((None, 5, "tag", [], {}, {"op": 5}, {"op": "tag"}, {"op": None, "zz": 1})))
    else:
        those[at]["op"] = rng.choice(("nothing", "ring_step", "resend", "", "Tag", "dev_read", "load", "sync", "kick", 7, None))


def break_numbers(rng: random.Random, scenario: Fields) -> None:
    """Breaks the frames of the machine or the pages of a driver."""
    pages = [here.setdefault("pages", []) for name, here in objects(scenario) if name == "driver"]
    those = rng.choice([it for it in pages if isinstance(it, list)] + [scenario["frames"]])
    wrong = ([], [1], [1, 2, 3, 4], ["a", 1], [1, 0], [2**30, 1], [2**30 - 1, 1], [0, 8193], [0, 2**64 - 1], [-1, 1], [1.0, 1],
             [4096, 1], [16, 1], None, 5, {}, [0, 0, 1], [4097, 4096, 1], [2**20, 16, 0], [2**44, 2**20, 1], [2**20, 4096, 2**50],
             ["0xfffff7fffffff000", 4101, 1], ["0xfffff80000000000", 4101, 1], [2**20, 4102, 1], [2**22, 4096, 1], [2**22, 4102, 1])
    those.insert(rng.randrange(len(those) + 1), copy.deepcopy(rng.choice(wrong)))


def break_names(rng: random.Random, scenario: Fields) -> None:
    """Makes a name twice, or moves an operation to the front, where its names are not made."""
    script = rng.choice(scripts(scenario))
    makers = [step for step in objects_in(script) if step.get("op") in drawn.MAKERS and "name" in step]
    if makers and rng.randrange(2):
        script.append({**rng.choice(makers), "name": rng.choice(makers)["name"]})
    elif rng.randrange(3) == 0:
        script.append({"op": "tag", "name": "own", "parent": "own"})
    elif script:
        script.insert(0, script.pop(rng.randrange(len(script))))


# Breaks of the limits


def many_drivers(rng: random.Random, scenario: Fields) -> None:
    scenario["drivers"] += [{"script": []} for _ in range(rng.choice((16, 17)) - len(scenario["drivers"]))]


def many_actors(rng: random.Random, scenario: Fields) -> None:
    scenario["order"] = ["s0"] * rng.choice((65_536, 65_537))
    if rng.randrange(2):
        scenario["order"][0] = 5


def many_steps(rng: random.Random, scenario: Fields) -> None:
    """A script of about as many steps as are allowed, of operations, items or steps of a ring."""
    script = scenario["drivers"][0]["script"]
    steps = sum(1 + len(step.get("then", ())) + (int(str(step["count"]), 0) if step["op"] == "kick" else 0) for step in script)
    left = 4096 - steps + rng.choice((0, 1, 1))
    rings = [step["name"] for step in script if step["op"] == "ring"]
    maps = [step["name"] for step in script if step["op"] in ("map", "dmamem")]
    if rings and rng.randrange(2):
        script.append({"op": "kick", "ring": rings[0], "count": max(left - 1, 1)})
    elif maps and rng.randrange(2):
        item = {"op": "sync", "map": maps[0], "ops": []}
        script.append({"op": "load_mbuf", "map": maps[0], "entries": [], "then": [item] * (left - 1)})
    else:
        script += [{"op": "cpu_read", "va": 0, "len": 0}] * left
    if rng.randrange(3) == 0:
        those = script[-1].get("then") or script
        those[-1] = rng.choice(({"op": "zz"}, 5, {"zz": 1}))


def many_entries(rng: random.Random, scenario: Fields) -> None:
    step = found(rng, scenario, rng.choice(("load_vector", "load_mbuf", "send", "load_bio")))
    here = step.get("bio", step)
    key = rng.choice([key for key in ("entries", "clusters", "frames") if key in here] or ["entries"])
    element: Any = {"va": 0, "len": 0} if key == "entries" else 64
    here[key] = [element] * rng.choice((4096, 4097)) if key != "clusters" else [4096 * k for k in range(rng.choice((4096, 4097)))]


def long_access(rng: random.Random, scenario: Fields) -> None:
    word = rng.choice(("cpu_read", "cpu_write", "then.dev_read", "then.dev_write", "then.dev_read_at", "then.dev_write_at"))
    here = found(rng, scenario, word)
    length = rng.choice((4096, 4097, 2**64 - 1))
    if "hex" in here:
        here["hex"] = "00" * min(length, 5000)
    else:
        here["len"] = length


def only(scenario: Fields, *scripts_of: list[Fields]) -> None:
    """Takes these scripts in place of the scenario's."""
    tag = [{"op": "tag", "name": "t"}, {"op": "map", "name": "m", "tag": "t"}]
    scenario["drivers"] = [{"script": copy.deepcopy([*tag, *script])} for script in scripts_of]
    scenario.pop("order", None)


def many_reads(rng: random.Random, scenario: Fields) -> None:
    """As many bytes read by two drivers as are allowed, or a byte more."""
    read = {"op": "cpu_read", "va": 0, "len": 4096}
    items = [{"op": "dev_read", "map": "m", "off": 0, "len": 4096}] * 8
    load = {"op": "load", "map": "m", "va": 0, "len": 0, "then": items}
    last = {"op": "cpu_read", "va": 0, "len": rng.choice((0, 1))}
    only(scenario, [read] * 100 + [load] * 4, [load] * rng.choice((2, 3)) + [read] * rng.choice((100, 108)), [last])


def long_load(rng: random.Random, scenario: Fields) -> None:
    here = found(rng, scenario, rng.choice(LOADS))
    length = rng.choice((2**20, 2**20 + 1, 2**64 - 1))
    here = here.get("bio", here)
    if here.get("entries"):
        for entry in here["entries"]:
            entry["len"] = length if rng.randrange(2) else length // len(here["entries"])
    else:
        here["len"] = length


def many_loads(rng: random.Random, scenario: Fields) -> None:
    """As many bytes loaded by two drivers as are allowed, or a byte more."""
    load = {"op": "load", "map": "m", "va": 0, "len": 2**20}
    send = {"op": "send", "map": "m", "entries": [{"va": 0, "len": 2**19}] * 2, "clusters": []}
    last = rng.choice(({"op": "load", "map": "m", "va": 0, "len": rng.choice((0, 1))},
                       {"op": "load_mbuf", "map": "m", "entries": [{"va": 0, "len": 1}]}))
    only(scenario, [load] * 4 + [send] * 2, [load] * rng.choice((3, 4, 4, 5)), [send] * 2 + [last])


def many_frames(rng: random.Random, scenario: Fields) -> None:
    scenario["frames"].append([2**20, rng.choice((8192, 8100, 8193))])
    scenario["frames"].append([2**29, rng.choice((1, 2**29, 2**29 + 1))])


def odd_clusters(rng: random.Random, scenario: Fields) -> None:
    """Entries and clusters that may share bytes, also at the end of all addresses."""
    step = found(rng, scenario, "send")
    ends = (0, 1, 4095, 4096, 4097, 8191, 8192, 2**64 - 4096, 2**64 - 4097, 2**64 - 1)
    lengths = (0, 0, 1, 2, 4096, 4097, 8192)
    step["entries"] = [{"va": rng.choice(ends), "len": rng.choice(lengths)} for _ in range(rng.choice((1, 2, 3)))]
    step["clusters"] = [rng.choice((0, 4096, 8192, 12288, 2**64 - 4096, 2**64 - 8192, 4097)) for _ in range(rng.choice((0, 1, 2, 3)))]


def few_bpages(rng: random.Random, scenario: Fields) -> None:
    scenario["max_bpages"] = rng.choice((0, 1, 8192, 8193, 2**64 - 1))


# Breaks of the text


def broken_text(rng: random.Random, text: str) -> bytes:
    """The text with a character more or less, cut off, or with a value that may be no JSON."""
    at = rng.randrange(len(text))
    choice = rng.randrange(9)
    if choice == 0:
        return text[:at].encode()
    if choice == 1:
        return (text[:at] + text[at + 1 :]).encode()
    if choice == 2:
        return (text[:at] + rng.choice(',:{}[]"\\ \n0x-') + text[at:]).encode()
    if choice == 3:
        return text[:at].encode() + rng.choice((b"\xff", b"\xc0\x80", b"\xed\xa0\x80", b"\xf5", b"\x00", b"\xc3\xa9")) + text[at:].encode()
    if choice == 4:
        return (rng.choice(("", " \t\r\n", "\ufeff", "\x0b", "\x0c", "//")) + text + rng.choice((" \n", "x", "\x00", "{}", ","))).encode()
    if choice == 5:
        return rng.choice(("", " ", "5", "null", '"a"', "[]", "{}", "[" * 127 + "]" * 127, "[" * 128 + "]" * 128, "true")).encode()
    value = rng.choice(TEXTS)
    if choice == 6:
        return (text[:-1] + f', "{rng.choice(("zz", "order", "frames", "max_bpages"))}": {value}}}').encode()
    if choice == 7:
        return ('{"frames": ' + value + ", " + text[1:]).encode()
    numbers = [k for k in range(1, len(text)) if text[k].isdigit() and text[k - 1] == " "]
    at = rng.choice(numbers)
    end = at + len(text[at:]) - len(text[at:].lstrip("0123456789"))
    return (text[:at] + value + text[end:]).encode()


LIMIT_BREAKS: tuple[Break, ...] = (
    many_drivers, many_actors, many_steps, many_entries, long_access, many_reads, long_load, many_loads, few_bpages, many_frames,
    odd_clusters, odd_clusters,
)
OTHER_BREAKS: tuple[Break, ...] = (break_element, break_numbers, break_names, break_numbers, break_anything)


def scenario_text(seed: str, number: int) -> bytes:
    """The broken scenario of this number."""
    rng = random.Random(seed)
    quarter, part = divmod(number, 4)
    base = copy.deepcopy(FULL) if part < 3 or quarter % 2 else drawn.scenario(seed)
    if part < 3:
        way, place = divmod(3 * quarter + part, len(FIELDS))
        name, field = FIELDS[place]
        break_field(rng, base, name, field, way % 6)
    elif quarter % 4 == 1:
        LIMIT_BREAKS[quarter // 4 % len(LIMIT_BREAKS)](rng, base)
    elif quarter % 4 > 1:
        OTHER_BREAKS[quarter // 2 % len(OTHER_BREAKS)](rng, base)
    if part == 3 and rng.randrange(3) == 0:
        break_anything(rng, base)
    text = json.dumps(base, ensure_ascii=rng.randrange(2) == 0)
    return broken_text(rng, text) if part == 3 and quarter % 4 == 0 else text.encode()
