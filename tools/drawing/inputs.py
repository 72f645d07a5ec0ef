"""Reads what a tool is given, and ends it with one line on standard error if it cannot go on.

The statuses are those of `tools/explain`: 1 for a journal that is not right, 64 for the words, 65 for a scenario that is
refused, 66 for a file that cannot be read or is too long, and 73 for a failed write.
"""

from __future__ import annotations

import argparse
import os
import sys
from collections.abc import Callable
from pathlib import Path
from typing import NoReturn

from model.program import MAX_INPUT
from model.reader import Refusal, read_scenario
from model.scenario import Scenario

TOP = Path(__file__).resolve().parent.parent.parent
NOT_RIGHT, WORDS, REFUSED, NO_INPUT, WRITE_FAILED, INTERRUPTED = 1, 64, 65, 66, 73, 130


class Stop(Exception):
    """Why a tool cannot go on: its exit status and one line."""

    def __init__(self, status: int, text: str) -> None:
        super().__init__(text)
        self.status = status
        self.text = text


class Words(argparse.ArgumentParser):
    """The words of a tool; wrong ones are one line and the status 64."""

    def error(self, message: str) -> NoReturn:
        """Ends the tool."""
        raise Stop(WORDS, f"{message} (see {self.prog} --help)")


def whole_number(least: int, most: int) -> Callable[[str], int]:
    """Returns a reader of decimal numbers in these bounds."""

    def read(text: str) -> int:
        if not text.isascii() or not text.isdigit() or len(text) > 20 or not least <= int(text) <= most:
            raise argparse.ArgumentTypeError(f"{text!r} is no number from {least} to {most}")
        return int(text)

    return read


def read_input(name: str) -> bytes:
    """Returns the bytes of a file, or of standard input if the name is `-`."""
    try:
        if name == "-" and sys.stdin is None:
            raise Stop(NO_INPUT, "standard input is closed")
        if name == "-":
            data = sys.stdin.buffer.read(MAX_INPUT + 1)
        else:
            with open(name, "rb") as file:
                data = file.read(MAX_INPUT + 1)
    except (OSError, ValueError) as error:
        raise Stop(NO_INPUT, f"{name}: {getattr(error, 'strerror', None) or error}") from error
    if len(data) > MAX_INPUT:
        raise Stop(NO_INPUT, f"{name}: input is too long")
    return data


def scenario_of(name: str, data: bytes) -> Scenario:
    """Returns the scenario that the bytes are."""
    try:
        return read_scenario(data)
    except Refusal as refusal:
        advice = "`tools/explain` says where and why"
        raise Stop(REFUSED, f"{shown(name)}: bad scenario: {shown(refusal.text())} ({advice})") from refusal


def shown(text: str) -> str:
    """Returns a text that may come from an input so that it fits in one line."""
    clean = "".join(character if character.isprintable() else "?" for character in text)
    return clean if len(clean) <= 300 else f"{clean[:297]}..."


class Progress:
    """Says how far a long piece of work is, on standard error, if that is a terminal."""

    def __init__(self, tool: str, what: str, of: int | None = None, every: int = 1000) -> None:
        self.tool, self.what, self.of, self.every = tool, what, of, every
        self.is_shown = sys.stderr.isatty()
        self.was_shown = False

    def at(self, number: int) -> None:
        """Shows a number from time to time."""
        if self.is_shown and number and number % self.every == 0:
            whole = f" of {self.of:,}" if self.of is not None else ""
            print(f"\r{self.tool}: {number:,}{whole} {self.what}", end="", file=sys.stderr, flush=True)
            self.was_shown = True

    def end(self) -> None:
        """Ends the line."""
        if self.was_shown:
            print("\r\x1b[K", end="", file=sys.stderr, flush=True)


def status_of(tool: str, work: Callable[[list[str]], int], words: list[str]) -> int:
    """Runs a tool, says in one line why it cannot go on if it cannot, and returns its exit status."""
    if sys.stdout is None:
        print(f"{tool}: standard output is closed", file=sys.stderr)
        return WRITE_FAILED
    try:
        status = work(words)
        sys.stdout.flush()
        return status
    except Stop as stop:
        print(f"{tool}: {shown(stop.text)}", file=sys.stderr)
        return stop.status
    except KeyboardInterrupt:
        return INTERRUPTED
    except OSError as error:
        print(f"{tool}: write failed: {error.strerror}", file=sys.stderr)
        os.dup2(os.open(os.devnull, os.O_WRONLY), sys.stdout.fileno())
        return WRITE_FAILED


def main_of(tool: str, work: Callable[[list[str]], int]) -> NoReturn:
    """Runs a tool with the words that it was called with, and ends it with its status."""
    sys.exit(status_of(tool, work, sys.argv[1:]))
