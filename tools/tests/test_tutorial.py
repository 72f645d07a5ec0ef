#!/usr/bin/env python3
"""Runs the commands of docs/TUTORIAL.md in a new folder, and compares what they print with what the page shows.

With `--write`, the page gets what they print.
"""

from __future__ import annotations

import re
import subprocess
import sys
import tempfile
from pathlib import Path

TOP = Path(__file__).resolve().parent.parent.parent
PAGE = TOP / "docs" / "TUTORIAL.md"
BLOCK = re.compile(r"^```(json|console)(?: (\S+))?\n(.*?)^```$", re.M | re.S)


def printed(command: str, folder: Path) -> str:
    """Runs a command as a shell does, and returns what it prints on both streams."""
    ran = subprocess.run(
        ["bash", "-c", command], cwd=folder, stdout=subprocess.PIPE, stderr=subprocess.STDOUT, timeout=100, check=False
    )
    return ran.stdout.decode()


def run_page(page: str) -> tuple[str, list[str]]:
    """Returns the page as its commands print it, and the commands that print something else."""
    wrong: list[str] = []
    with tempfile.TemporaryDirectory() as name:
        folder = Path(name)
        for what in ("tools", "model", "docs", "examples"):
            (folder / what).symlink_to(TOP / what)

        def block(found: re.Match[str]) -> str:
            kind, file, text = found.groups()
            if kind == "json":
                (folder / file).write_text(text, encoding="utf-8")
                return found[0]
            parts = re.split(r"^\$ (.*)\n", text, flags=re.M)[1:]
            made = "```console\n"
            for command, shown in zip(parts[::2], parts[1::2]):
                output = printed(command, folder)
                if output != shown:
                    wrong.append(command)
                made += f"$ {command}\n{output}"
            return f"{made}```"

        return BLOCK.sub(block, page), wrong


def main() -> int:
    """Runs the page."""
    page = PAGE.read_text(encoding="utf-8")
    made, wrong = run_page(page)
    if sys.argv[1:] == ["--write"]:
        PAGE.write_text(made, encoding="utf-8")
        return 0
    for command in wrong:
        print(f"test_tutorial: docs/TUTORIAL.md does not show what this prints: {command}", file=sys.stderr)
    print(f"test_tutorial: {len(re.findall('^[$] ', page, re.M))} commands, {len(wrong)} with another output")
    return int(bool(wrong))


sys.exit(main())
