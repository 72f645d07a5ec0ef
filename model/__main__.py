"""Runs the model as the program: `python3 -m model replay`, `run`, `check` or `storm N SEED`.

`python3 -m model replay --states` prints what each step left, one JSON object a line.
"""

from __future__ import annotations

import sys

from .program import MAX_INPUT, is_command, run
from .states import states


def main(words: list[str]) -> int:
    """Reads standard input where the words ask for it, and prints what the model answers."""
    reads = is_command(words) and words[0] != "storm" or words == ["replay", "--states"]
    data = sys.stdin.buffer.read(MAX_INPUT + 1) if reads else b""
    status, output, errors = states(data) if words == ["replay", "--states"] else run(words, data)
    sys.stdout.buffer.write(output)
    sys.stderr.buffer.write(errors)
    return status


sys.exit(main(sys.argv[1:]))
