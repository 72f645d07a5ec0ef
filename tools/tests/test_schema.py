#!/usr/bin/env python3
"""Tests docs/scenario.schema.json: what is read, the schema accepts; what is refused, it refuses or cannot see.

What it cannot see is in these classes only:

- text: what is no JSON, and numbers such as 1.0, 1e2 and -0, which are whole numbers for JSON Schema;
- names: a name that nothing made, that is made twice or that is of another kind, and an actor of no driver;
- frames: a frame that is absent or there twice, and a virtual page or a cluster that is there twice;
- sums: limits on what several values have together.

Every seventh of 1,200 broken scenarios is judged, and each of them with `--all`.
"""

from __future__ import annotations

import json
import re
import sys
from collections import Counter
from collections.abc import Iterator
from pathlib import Path
from typing import Any

TOP = Path(__file__).resolve().parent.parent.parent
sys.dont_write_bytecode = True
sys.path.insert(0, str(TOP))

from model import broken, drawn, forms  # noqa: E402
from model.reader import Refusal, read_scenario  # noqa: E402
from tools.tests.json_schema import Validator  # noqa: E402

SCHEMA: dict[str, Any] = json.loads((TOP / "docs" / "scenario.schema.json").read_text(encoding="utf-8"))
SUMS = "steps reads buffer loaded frames frame_number"
NUMBER_FORMS = re.compile(rb"[:\[,]\s*(-0|-?\d+(\.\d+)?[eE][+-]?\d+|-?\d+\.\d+)\s*[,\]}]")


def stored() -> Iterator[tuple[str, bytes]]:
    """Yields the scenarios of the repository with their names."""
    for folder in ("examples", "cases"):
        for path in sorted((TOP / folder).rglob("*")):
            where = str(path.relative_to(TOP))
            if path.suffix == ".json":
                yield where, path.read_bytes()
            if path.suffix == ".rows":
                for number, line in enumerate(path.read_text(encoding="utf-8").splitlines(), 1):
                    yield f"{where} line {number}", json.loads(line).get("stdin", "").encode()
            if path.suffix == ".refusals":
                for number, line in enumerate(path.read_text(encoding="utf-8").splitlines(), 1):
                    yield f"{where} line {number}", line.split(" <- ", 1)[1].encode()


def class_of(refusal: Refusal, data: bytes) -> str | None:
    """Returns the class of a refusal that the schema cannot see, or nothing if it is in none."""
    if refusal.kind == "NotJson":
        return "text"
    if refusal.kind == "UnknownName":
        return "names"
    if refusal.kind in ("FrameAbsent", "FrameTwice"):
        return "frames"
    if refusal.kind in [f"Limit({name})" for name in SUMS.split()]:
        return "sums"
    if NUMBER_FORMS.search(data):
        return "text"
    if refusal.path.endswith(".name") or re.fullmatch(r"order\[\d+\]", refusal.path):
        return "names"
    if re.search(r"(\.pages|\.clusters)\[\d+\]$", refusal.path):
        return "frames"
    return None


def judge(name: str, data: bytes, schema: Validator, seen: Counter[str]) -> None:
    """Compares the model's verdict on a scenario with the schema's."""
    try:
        read_scenario(data)
        refusal = None
    except Refusal as found:
        refusal = found
    try:
        value = json.loads(data)
        is_accepted = schema.accepts(value)
    except (ValueError, RecursionError):
        is_accepted = True
    if refusal is None:
        assert is_accepted, f"{name}: the schema refuses a scenario that is read"
        seen["read"] += 1
    elif is_accepted:
        where = class_of(refusal, data)
        assert where is not None, f"{name}: the schema does not see {refusal.text()}"
        seen[where] += 1
    else:
        seen["refused by the schema"] += 1


def test_tables() -> None:
    """The schema has the words and the fields of the tables, no more and no fewer."""
    definitions = SCHEMA["$defs"]

    def fields(name: str) -> set[str]:
        return set(definitions[name]["properties"]) - {"op", "kind"} | ({"kind"} & {*definitions[name]["required"]})

    for word, names in forms.OPERATIONS.items():
        assert fields(f"operation_{word}") == set(names), word
    for word, names in forms.ITEMS.items():
        name = f"operation_{word}" if word in forms.OPERATIONS else f"item_{word}"
        assert fields(name) == set(names), word
    for kind, names in forms.BIOS.items():
        assert fields(f"bio_{kind}") - {"kind"} == set(names), kind
    for table, name in ((forms.OPERATIONS, "operation"), (forms.ITEMS, "item")):
        assert {it["const"] for it in definitions[name]["properties"]["op"]["oneOf"]} == set(table), name
    for word, words in forms.FLAGS.items():
        name = f"{word if word in ('tag', 'dmamem') else 'load'}_flags"
        assert {it["const"] for it in definitions[name]["items"]["oneOf"]} == set(words), word
    assert {it["const"] for it in definitions["ops"]["items"]["oneOf"]} == set(forms.OPS)


def test_descriptions() -> None:
    """Each field has a description, its own or that of what it refers to, and so has each word of a list of words."""
    lists = [SCHEMA["$defs"][name]["properties"]["op"] for name in ("operation", "item")]
    lists += [definition["items"] for definition in SCHEMA["$defs"].values() if "enum" in definition.get("items", {})]
    assert len(lists) == 6
    for words in lists:
        assert words["enum"] == [each["const"] for each in words["oneOf"]] and all(each["description"] for each in words["oneOf"])
    for name, definition in SCHEMA["$defs"].items():
        for key, each in definition.get("properties", {}).items():
            referred = SCHEMA["$defs"].get(str(each.get("$ref", "")).removeprefix("#/$defs/"), {})
            assert each.get("description") or referred.get("description") or key == "kind", f"{name}.{key}"


def test_defaults() -> None:
    """The defaults of the schema are those that the model reads."""
    script = [{"op": "tag", "name": "t"}, {"op": "iommu_tag", "name": "u"}]
    scenario = read_scenario(json.dumps({"frames": [], "drivers": [{"script": script}]}).encode())
    assert scenario.max_bpages == SCHEMA["properties"]["max_bpages"]["default"]
    for step in scenario.drivers[0].script:
        for key, each in SCHEMA["$defs"][f"operation_{step.word}"]["properties"].items():
            if "default" in each and key != "flags":
                assert getattr(step, key) == int(str(each["default"]), 0), f"{step.word}.{key}"


def main() -> None:
    """Runs the tests."""
    test_tables()
    test_descriptions()
    test_defaults()
    schema, seen = Validator(SCHEMA), Counter[str]()
    for name, data in stored():
        judge(name, data, schema, seen)
    for number in range(0, 1200, 1 if sys.argv[1:] == ["--all"] else 7):
        name = f"broken.1.{number}"
        judge(name, broken.scenario_text(name, number), schema, seen)
    for number in range(20):
        judge(f"drawn.{number}", json.dumps(drawn.scenario(f"schema.{number}")).encode(), schema, seen)
    assert seen["read"] > 80 and all(seen[each] for each in ("text", "names", "frames", "sums")), seen
    print("test_schema:", ", ".join(f"{count} {what}" for what, count in seen.most_common()))


main()
