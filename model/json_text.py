"""One JSON text, as `serde_json` reads it into a value.

Python's own reader does most of it, and keeps the last of equal keys. It takes some texts that are refused
here: surrogates that stand alone, `NaN` and `Infinity`, numbers too great for a double, and deep nesting.
"""

from __future__ import annotations

import json
import math
import re
from dataclasses import dataclass
from typing import NoReturn

MAX_NESTING = 127
TOKEN = re.compile(r'"[^"\\]*(?:\\.[^"\\]*)*"|[\[\]{}]', re.DOTALL)
ESCAPE = re.compile(r"\\u[dD][89abAB]..\\u[dD][c-fC-F]..|\\u(?P<alone>[dD][89a-fA-F]..)|\\.", re.DOTALL)


class NotJson(Exception):
    """The bytes are no JSON text."""


@dataclass(frozen=True)
class JsonNumber:
    """A number: `whole` is its value if it is a whole number from 0 to 2^64 - 1 without sign, fraction and exponent."""
    whole: int | None


JsonValue = None | bool | JsonNumber | str | list["JsonValue"] | dict[str, "JsonValue"]


def read_json(data: bytes) -> JsonValue:
    """Returns the value of a JSON text, or raises `NotJson`."""
    try:
        text = data.decode("utf-8")
        judge_tokens(text)
        value: JsonValue = json.loads(text, parse_int=number, parse_float=number, parse_constant=refuse)
    except (ValueError, RecursionError) as damage:
        raise NotJson from damage
    return value


def judge_tokens(text: str) -> None:
    """Refuses a surrogate that stands alone, and lists and objects that are nested more than 127 levels deep."""
    depth = 0
    for token in TOKEN.finditer(text):
        mark = token.group()
        if mark[0] == '"':
            if "\\" in mark and any(escape["alone"] for escape in ESCAPE.finditer(mark)):
                raise NotJson
        else:
            depth += 1 if mark in "[{" else -1
            if depth > MAX_NESTING:
                raise NotJson


def number(text: str) -> JsonNumber:
    """Returns a number; one whose nearest double would be infinite is refused."""
    if text.isdecimal() and len(text) <= 20 and int(text) < 2**64:
        return JsonNumber(int(text))
    if math.isinf(float(text)):
        raise NotJson
    return JsonNumber(None)


def refuse(word: str) -> NoReturn:
    """Refuses `NaN` and `Infinity`."""
    raise NotJson
