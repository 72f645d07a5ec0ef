"""The first line of the input of `check`: the number of the scenario's bytes."""

from __future__ import annotations

import re

from model.check import HEADER

from .words import count, labelled, visible

USE = "write it by `wc -c < scenario | tr -d ' '`"


def cut(data: bytes) -> tuple[bytes, bytes] | None:
    """Returns the scenario and the journal of an input, or `None` if its header is not right."""
    header = HEADER.match(data)
    if header is None or len(data) - header.end() < int(header.group(1)):
        return None
    end = header.end() + int(header.group(1))
    return data[header.end() : end], data[end:]


def explain_header(name: str, data: bytes) -> list[str]:
    """Returns why the header of an input is refused, under its line."""
    line = data.split(b"\n", 1)[0]
    text = visible(line.decode("utf-8", "replace"), 60)
    return [f"{name}:1:1: refused: BadHeader", f"  1 | {text}", "    | ^", *labelled("because", reason(data, line))]


def reason(data: bytes, line: bytes) -> str:
    """Returns what is wrong with a header."""
    header = HEADER.match(data)
    if header is not None:
        wanted, there = int(header.group(1)), len(data) - header.end()
        return f"the header announces {count(wanted, 'byte')} of a scenario, but only {there} follow it: {USE}"
    if not data:
        return f"the input is empty: its first line is the number of the scenario's bytes; {USE}"
    if line.strip(b" \t\r").isdigit() and line != line.strip(b" \t\r"):
        return "spaces, tabs or a carriage return are beside the number. Some `wc -c` pad it: " + USE
    if re.fullmatch(rb"0[0-9]+", line):
        return "the number has a leading zero"
    if line.isdigit() and len(line) > 8:
        return "the number has more than 8 digits: no input is that long"
    if line.isdigit():
        return "the number has no line feed after it"
    if line.lstrip().startswith(b"{"):
        return f"the scenario has no header: the first line is the number of its bytes; {USE}"
    return f"the first line is the number of the scenario's bytes, with decimal digits only; {USE}"
