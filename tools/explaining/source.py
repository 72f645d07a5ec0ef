"""A scenario's text with the places of its values: the line and column of each path, and of what is not JSON.

The model decides what is refused. This reader only finds places: it takes the same texts as the model's reader
does, and says of the others where they stop being JSON, and what was probably meant.
"""

from __future__ import annotations

import math
import re
from bisect import bisect_right
from dataclasses import dataclass
from typing import NoReturn

from .words import visible

MAX_NESTING = 127
WIDEST_LINE = 110
SPACE = re.compile(r"[ \t\n\r]*")
PLAIN = re.compile(r'[^"\\\x00-\x1f]*')
SIMPLE_TEXT = re.compile(r'"([^"\\\x00-\x1f]*)"')
NUMBER = re.compile(r"-?(?:0|[1-9][0-9]*)(?:\.[0-9]+)?(?:[eE][+-]?[0-9]+)?")
NUMBER_LIKE = re.compile(r"[-+]?[0-9.][0-9A-Za-z_.+-]*")
WORD = re.compile(r"[A-Za-z_$][A-Za-z0-9_$]*")
ESCAPE = re.compile(r'\\(?:["\\/bfnrt]|u[0-9a-fA-F]{4})')
UNIT = re.compile(r"\\u([0-9a-fA-F]{4})")
LETTERS = {"b": "\b", "f": "\f", "n": "\n", "r": "\r", "t": "\t"}
NAMES_OF_KINDS = {"object": "an object", "list": "a list", "text": "a text", "number": "a number"}


@dataclass
class Fault(Exception):
    """Where a text stops being JSON, and why."""

    place: int
    reasons: list[str]


class Node:
    """A value of the text: its kind, where it begins and ends, and what it has.

    The kind is `object`, `list`, `text`, `number` or `word`; `text` is that of a text without escapes, a number as
    it is written, or `true`, `false` or `null`. A large scenario has a million values, so they are kept small.
    """

    __slots__ = ("kind", "begin", "end", "text", "elements", "members", "keys")

    def __init__(self, kind: str, begin: int, end: int, text: str = "") -> None:
        self.kind, self.begin, self.end, self.text = kind, begin, end, text
        self.elements: list[Node] = [] if kind == "list" else NO_ELEMENTS
        self.members: dict[str, Node] = {} if kind == "object" else NO_MEMBERS
        self.keys: dict[str, int] = {} if kind == "object" else NO_KEYS

    def what(self) -> str:
        """Returns what the value is, in words."""
        if self.kind == "text":
            return f'the text "{visible(self.text)}"'
        if self.kind in ("number", "word"):
            return visible(self.text)
        return NAMES_OF_KINDS[self.kind]

    def words_of(self, key: str) -> str:
        """Returns the text of a member that is a text, or nothing."""
        member = self.members.get(key)
        return member.text if member is not None and member.kind == "text" else ""


NO_ELEMENTS: list[Node] = []
NO_MEMBERS: dict[str, Node] = {}
NO_KEYS: dict[str, int] = {}


@dataclass(frozen=True)
class Twice:
    """A key that an object has twice: its path, and where both are."""

    path: str
    first: int
    second: int


@dataclass(frozen=True)
class Found:
    """What a path leads to: its value, the object or list that has it, and its last part.

    If the path leads nowhere, for a field that is missing, there is no value.
    """

    node: Node | None
    parent: Node | None
    parent_path: str
    last: str
    place: int


class Source:
    """A file with a scenario, by its name and its bytes."""

    def __init__(self, name: str, data: bytes) -> None:
        self.name = name
        self.twice: list[Twice] = []
        self.fault: Fault | None = None
        self.top: Node | None = None
        self.line_begins: list[int] = []
        try:
            self.text = data.decode("utf-8")
        except UnicodeDecodeError as damage:
            self.text = data.decode("utf-8", "replace")
            place = len(data[: damage.start].decode("utf-8", "replace"))
            self.fault = Fault(place, why_not_utf_8(data, damage.start))
        if self.fault is None:
            try:
                self.top = _Reader(self.text, self.twice).whole()
            except Fault as fault:
                self.fault = fault

    def line_and_column(self, place: int) -> tuple[int, int]:
        """Returns the line and the column of a place, both counted from 1."""
        if not self.line_begins:
            self.line_begins = [0, *(found.end() for found in re.finditer("\n", self.text))]
        line = bisect_right(self.line_begins, place)
        return line, place - self.line_begins[line - 1] + 1

    def at(self, place: int) -> str:
        """Returns a place as `file:line:column`."""
        line, column = self.line_and_column(place)
        return f"{self.name}:{line}:{column}"

    def find(self, path: str) -> Found:
        """Returns what is at a path."""
        node, parent, parent_path, last, left = self.top, None, "", "", path
        place = node.begin if node is not None else 0
        while left and node is not None:
            step = next_step(node, left)
            if step is None:
                last = left.lstrip(".")
                return Found(None, node, path[: len(path) - len(left)], last, node.begin)
            parent, parent_path, last = node, path[: len(path) - len(left)], step.lstrip(".")
            left = left[len(step) :]
            if step.startswith("["):
                node = node.elements[int(step[1:-1])]
                place = node.begin
            else:
                place = node.keys[last]
                node = node.members[last]
        return Found(node, parent, parent_path, last, place)

    def where(self, path: str) -> str:
        """Returns the place of a path's value as `file:line:column`."""
        found = self.find(path)
        return self.at(found.node.begin if found.node is not None else found.place)

    def line_with_caret(self, place: int) -> list[str]:
        """Returns the line of a place, cut if it is long, and a line with a caret below the place."""
        begin = self.text.rfind("\n", 0, place) + 1
        end = self.text.find("\n", place)
        end = len(self.text) if end < 0 else end
        first = max(begin, place - WIDEST_LINE // 2) if end - begin > WIDEST_LINE else begin
        last = min(end, first + WIDEST_LINE)
        shown = "".join(one if one.isprintable() else " " if one in "\t\r" else "?" for one in self.text[first:last])
        left = "..." if first > begin else ""
        number = str(self.line_and_column(place)[0])
        margin = " " * len(number)
        return [
            f"  {number} | {left}{shown}{'...' if last < end else ''}",
            f"  {margin} | {' ' * (len(left) + place - first)}^",
        ]


def next_step(node: Node, left: str) -> str | None:
    """Returns the first step of a path that leads on from a value: `.key` or `[n]`."""
    if node.kind == "list":
        found = re.match(r"\[([0-9]+)\]", left)
        return found[0] if found is not None and int(found[1]) < len(node.elements) else None
    dot = "." if left.startswith(".") else ""
    rest = left[len(dot) :]
    for key in sorted(node.members, key=len, reverse=True):
        if rest.startswith(key) and (rest == key or rest[len(key)] in ".["):
            return dot + key
    return None


def why_not_utf_8(data: bytes, place: int) -> list[str]:
    """Returns why bytes are no UTF-8."""
    if data[:2] in (b"\xff\xfe", b"\xfe\xff"):
        return ["the file is UTF-16: save it as UTF-8, without a byte order mark"]
    return [f"byte 0x{data[place]:02x} is no UTF-8 here: save the file as UTF-8"]


class _Reader:
    """Reads a text, and finds the first place where it is no JSON."""

    def __init__(self, text: str, twice: list[Twice]) -> None:
        self.text = text
        self.twice = twice
        self.place = 0
        self.path: list[str] = []

    def whole(self) -> Node:
        """Reads the one value of the text."""
        if self.text.startswith("\ufeff"):
            raise Fault(0, ["the file begins with a byte order mark (BOM): save it as UTF-8 without one"])
        self.skip()
        if self.place == len(self.text):
            raise Fault(self.place, ["the file is empty: a scenario is an object with `frames` and `drivers`"])
        value = self.value(0)
        self.skip()
        if self.place < len(self.text):
            self.wrong_after_the_end()
        return value

    def skip(self) -> None:
        """Goes to the next token."""
        found = SPACE.match(self.text, self.place)
        assert found is not None
        self.place = found.end()

    def peek(self) -> str:
        """Returns the next character, or nothing at the end."""
        return self.text[self.place : self.place + 1]

    def value(self, depth: int) -> Node:
        """Reads a value that lies in `depth` lists and objects."""
        first = self.peek()
        if first in ("{", "[") and first:
            if depth == MAX_NESTING:
                raise Fault(self.place, [f"lists and objects are nested more than {MAX_NESTING} levels deep"])
            return self.members(depth + 1) if first == "{" else self.elements(depth + 1)
        if first == '"':
            return self.words()
        found = NUMBER.match(self.text, self.place)
        if found is not None and not re.match(r"[0-9A-Za-z_.+-]", self.text[found.end() : found.end() + 1]):
            return self.number(found)
        for word in ("true", "false", "null"):
            if self.text.startswith(word, self.place) and not WORD.match(self.text, self.place + len(word)):
                begin, self.place = self.place, self.place + len(word)
                return Node("word", begin, self.place, word)
        self.wrong_value()

    def number(self, found: re.Match[str]) -> Node:
        """Reads a number; its nearest double must be finite."""
        if math.isinf(float(found[0])):
            raise Fault(self.place, ["this number is larger than any that JSON readers hold"])
        begin, self.place = self.place, found.end()
        return Node("number", begin, self.place, found[0])

    def words(self) -> Node:
        """Reads a text."""
        begin = self.place
        quick = SIMPLE_TEXT.match(self.text, begin)
        if quick is not None:
            self.place = quick.end()
            return Node("text", begin, self.place, quick[1])
        pieces: list[str] = []
        self.place += 1
        while True:
            found = PLAIN.match(self.text, self.place)
            assert found is not None
            pieces.append(found[0])
            self.place = found.end()
            mark = self.peek()
            if mark == '"':
                self.place += 1
                return Node("text", begin, self.place, "".join(pieces))
            if mark == "\\":
                pieces.append(self.escape())
            elif mark in ("", "\n", "\r"):
                raise Fault(begin, ['the text that begins here has no `"` at its end on this line'])
            else:
                raise Fault(self.place, [f"a text must not have the control character 0x{ord(mark):02x}: write it as an escape"])

    def escape(self) -> str:
        """Reads an escape of a text."""
        found = ESCAPE.match(self.text, self.place)
        if found is None:
            shown = visible(self.text[self.place : self.place + 2])
            raise Fault(self.place, [f'`{shown}` is no escape: there are \\" \\\\ \\/ \\b \\f \\n \\r \\t and \\u with four digits'])
        begin, self.place = self.place, found.end()
        unit = UNIT.fullmatch(found[0])
        if unit is None:
            return LETTERS.get(found[0][1], found[0][1])
        first = int(unit[1], 16)
        if not 0xD800 <= first < 0xE000:
            return chr(first)
        second = UNIT.match(self.text, self.place)
        if first >= 0xDC00 or second is None or not 0xDC00 <= int(second[1], 16) < 0xE000:
            raise Fault(begin, ["half of a surrogate pair stands alone: write the character itself, or both halves"])
        self.place = second.end()
        return chr(0x10000 + ((first - 0xD800) << 10) + int(second[1], 16) - 0xDC00)

    def members(self, depth: int) -> Node:
        """Reads an object."""
        node = Node("object", self.place, self.place)
        self.place += 1
        self.skip()
        while self.peek() != "}":
            if self.peek() != '"':
                self.wrong_key(node)
            begin = self.place
            key = self.words().text
            self.skip()
            if self.peek() != ":":
                self.wrong_colon(key)
            self.place += 1
            self.skip()
            if key in node.keys:
                self.twice.append(Twice(self.path_of(key), node.keys[key], begin))
            self.path.append(f".{key}")
            node.members[key] = self.value(depth)
            node.keys[key] = begin
            self.path.pop()
            self.skip()
            if not self.comma(node, "}"):
                break
        return self.closed(node)

    def elements(self, depth: int) -> Node:
        """Reads a list."""
        node = Node("list", self.place, self.place)
        self.place += 1
        self.skip()
        while self.peek() != "]":
            self.path.append(f"[{len(node.elements)}]")
            if self.peek() in ("}", ""):
                self.wrong_end(node, "]")
            node.elements.append(self.value(depth))
            self.path.pop()
            self.skip()
            if not self.comma(node, "]"):
                break
        return self.closed(node)

    def closed(self, node: Node) -> Node:
        """Ends a list or an object after its last mark."""
        self.place += 1
        node.end = self.place
        return node

    def comma(self, node: Node, close: str) -> bool:
        """Takes a comma and returns whether there was one; else the list or object ends here."""
        if self.peek() == close:
            return False
        if self.peek() == ",":
            before = self.place
            self.place += 1
            self.skip()
            if self.peek() == close:
                raise Fault(before, [f"a comma after the last element: remove it, JSON has no comma before `{close}`"])
            return True
        self.wrong_end(node, close)

    def path_of(self, key: str) -> str:
        """Returns the path of a key of the object that is read."""
        return "".join([*self.path, f".{key}"]).lstrip(".")

    # What is wrong

    def comment(self) -> list[str]:
        """Returns what to say of a comment at this place, or nothing."""
        for mark in ("//", "/*", "#", "--"):
            if self.text.startswith(mark, self.place):
                return [f"`{mark}` begins a comment in other languages: JSON has none, remove it"]
        return []

    def wrong_end(self, node: Node, close: str) -> NoReturn:
        """Refuses what is in place of a comma or of the end of a list or object."""
        opened = f"the {node.kind} that begins at line {self.text.count(chr(10), 0, node.begin) + 1}"
        mark = self.peek()
        if mark == "":
            raise Fault(node.begin, [f"the text ends, and the {node.kind} that begins here has no `{close}`"])
        if mark in ("}", "]"):
            raise Fault(self.place, [f"`{mark}` is here, but {opened} must be closed first, by `{close}`"])
        if comment := self.comment():
            raise Fault(self.place, comment)
        if mark in ('"', "{", "[") or NUMBER_LIKE.match(self.text, self.place) or WORD.match(self.text, self.place):
            self.place = len(self.text[: self.place].rstrip())
            raise Fault(self.place, [f"a comma is missing here, or the `{close}` of {opened}"])
        if mark == ":":
            raise Fault(self.place, ["`:` is for the members of an object, `{...}`"])
        raise Fault(self.place, [*self.odd_character(), f"here must be a comma, or the `{close}` of {opened}"])

    def wrong_key(self, node: Node) -> NoReturn:
        """Refuses what is in place of a key."""
        if self.peek() in ("", "]"):
            self.wrong_end(node, "}")
        if comment := self.comment():
            raise Fault(self.place, comment)
        word = WORD.match(self.text, self.place)
        if word is not None:
            raise Fault(self.place, [f'a key is in double quotes: write "{word[0]}"'])
        raise Fault(self.place, [*self.odd_character(), "here must be a key in double quotes, as in \"op\": \"load\""])

    def wrong_colon(self, key: str) -> NoReturn:
        """Refuses what is in place of a colon."""
        if self.peek() == "=":
            raise Fault(self.place, ["write `:` after a key, not `=`"])
        raise Fault(self.place, [f'after the key "{visible(key)}" there must be `:` and a value'])

    def wrong_value(self) -> NoReturn:
        """Refuses what is in place of a value."""
        if comment := self.comment():
            raise Fault(self.place, comment)
        like = NUMBER_LIKE.match(self.text, self.place)
        if like is not None:
            raise Fault(self.place, [why_no_number(like[0])])
        word = WORD.match(self.text, self.place)
        if word is not None:
            raise Fault(self.place, [why_no_word(word[0])])
        if self.peek() == "":
            raise Fault(self.place, ["the text ends where a value must be"])
        if self.peek() == ",":
            raise Fault(self.place, ["a value is missing before this comma"])
        raise Fault(self.place, [*self.odd_character(), "here must be a value"])

    def wrong_after_the_end(self) -> NoReturn:
        """Refuses what follows the value."""
        if comment := self.comment():
            raise Fault(self.place, comment)
        if self.peek() in ("}", "]"):
            raise Fault(self.place, [f"one `{self.peek()}` too many: the scenario has ended before it"])
        reason = "the scenario has ended before this: a file has one scenario and nothing after it"
        raise Fault(self.place, [reason])

    def odd_character(self) -> list[str]:
        """Returns what to say of a character that JSON does not have, or nothing."""
        mark = self.peek()
        if mark in ("'", "\u2018", "\u2019", "\u201c", "\u201d", "`"):
            return [f'a text and a key are in double quotes, "...", not in {mark}']
        if mark in ("(", ")"):
            return ["a list is in square brackets, and an object in braces"]
        if mark == ";":
            return ["`;` is no mark of JSON: put a comma between elements"]
        if mark and not mark.isprintable():
            return [f"the character U+{ord(mark):04X} is no white space of JSON"]
        return []


def why_no_number(text: str) -> str:
    """Returns why a text that looks like a number is none."""
    if re.fullmatch("0[xX][0-9a-fA-F]{1,16}", text):
        return f'a hexadecimal number is in double quotes: write "0x{text[2:]}"'
    if re.fullmatch("0[0-9]+", text):
        return f"a number does not begin with 0: write {text.lstrip('0') or '0'}"
    if text.startswith("+"):
        return f"a number has no plus sign: write {text[1:]}"
    if re.fullmatch("[0-9]+[kKmMgG]i?[bB]?", text):
        times = {"k": 1024, "m": 1024**2, "g": 1024**3}[re.sub("[^kmg]", "", text.lower())[0]]
        return f"a number has no unit: write {int(re.sub('[^0-9]', '', text)) * times}"
    if re.fullmatch("[0-9][0-9_]*", text):
        return f"a number has no underscores: write {text.replace('_', '')}"
    return f"`{visible(text)}` is no number of JSON: write decimal digits, or \"0x...\" in double quotes"


def why_no_word(word: str) -> str:
    """Returns why a bare word is no value."""
    other = {"True": "true", "False": "false", "None": "null", "TRUE": "true", "FALSE": "false", "NULL": "null"}
    if word in other:
        return f"`{word}` is written {other[word]} in JSON (no field of a scenario takes it)"
    if word.lower() in ("nan", "inf", "infinity"):
        return f"`{word}` is no number of JSON"
    return f'a text is in double quotes: write "{word}"'
