#!/usr/bin/env python3
"""Tests of tools/explain: what it shows of each report, errno and refusal, of wrong journals, and of bad input.

    tools/tests/test_explain.py            runs the tests
    tools/tests/test_explain.py --write    writes what the tool shows into tools/tests/explain, to be read over

A file of tools/tests/explain has cases. A case is a line `=== NAME OPTIONS`, a scenario, maybe a line `--- journal` and
a journal, and then a line `--- shown` and what the tool prints. There `(DRIVERS.md)` stands for a sentence of a table
of docs/DRIVERS.md, so that the page can be edited. The examples of docs/TOOLS.md are written as they are printed.
"""

from __future__ import annotations

import io
import json
import pathlib
import re
import subprocess
import sys
import tempfile
import time
import unittest
from contextlib import redirect_stderr, redirect_stdout
from typing import NamedTuple

sys.dont_write_bytecode = True
TOP = pathlib.Path(__file__).resolve().parents[2]
sys.path[:0] = [str(TOP), str(TOP / "tools")]

from explaining import main as tool  # noqa: E402
from explaining import pages  # noqa: E402
from explaining.mistakes import JUDGES  # noqa: E402
from explaining.refusals import LIMITS  # noqa: E402
from model import program  # noqa: E402
from model.check import first_wrong_line  # noqa: E402
from model.reader import Refusal, read_scenario  # noqa: E402

CASES = TOP / "tools" / "tests" / "explain"
PAGE_OF_TOOLS = TOP / "docs" / "TOOLS.md"
EXAMPLE = re.compile(r"^```\n\$ tools/explain (.*)\n((?:.*\n)*?)```$", re.M)
ERRNOS = ("EINVAL", "ENOMEM", "EINPROGRESS", "EFBIG", "EBUSY")
REFUSALS = ("NotJson", "BadField", "BadOp", "BadFlag", "UnknownName", "FrameAbsent", "FrameTwice", "BadHeader")
MOST_SECONDS = 60


class Case(NamedTuple):
    """A case: its name, the options, the scenario, a journal, and what is shown."""

    name: str
    options: list[str]
    scenario: str
    journal: str | None
    shown: str

    def text(self) -> str:
        """Returns the case as it is in its file."""
        journal = f"--- journal\n{self.journal}" if self.journal is not None else ""
        return f"{' '.join(['===', self.name, *self.options])}\n{self.scenario}{journal}--- shown\n{self.shown}"


def cases_of(file: pathlib.Path) -> list[Case]:
    """Returns the cases of a file."""
    cases: list[Case] = []
    for text in re.split(r"^=== ", file.read_text(encoding="utf-8"), flags=re.M)[1:]:
        head, _, rest = text.partition("\n")
        given, _, shown = rest.partition("--- shown\n")
        scenario, mark, journal = given.partition("--- journal\n")
        name, *options = head.split()
        cases.append(Case(name, options, scenario, journal if mark else None, shown))
    return cases


def run_tool(words: list[str]) -> tuple[int, str, str]:
    """Runs the tool in this process; returns its status and what it prints."""
    out, err = io.StringIO(), io.StringIO()
    with redirect_stdout(out), redirect_stderr(err):
        status = tool.main(words)
    return status, out.getvalue(), err.getvalue()


def show(case: Case) -> str:
    """Returns what the tool shows of a case, with the names of its files without their folder."""
    with tempfile.TemporaryDirectory() as folder:
        scenario, journal = pathlib.Path(folder, "scenario.json"), pathlib.Path(folder, "journal")
        scenario.write_bytes(case.scenario.encode())
        words = [*case.options, str(scenario)]
        if case.journal is not None:
            journal.write_bytes(case.journal.encode())
            words.append(str(journal))
        _, out, err = run_tool(words)
        return without_sentences(unfolded((out + err).replace(folder + "/", "")))


def unfolded(text: str) -> str:
    """Returns text whose wrapped lines are joined: the length of the folder's name does not matter then."""
    return re.sub(r"\n {11}(?=\S)", " ", text)


def without_sentences(text: str) -> str:
    """Returns text in which the sentences of the page's tables, after `rule` and `do`, are marked only."""
    page = {pages.sentence(pages.plain(cell)) for row in pages.rows() for cell in row}

    def mark(line: re.Match[str]) -> str:
        two = any(line[2].startswith(f"{first} ") and line[2][len(first) + 1 :] in page for first in page)
        return f"{line[1]}(DRIVERS.md)" if line[2] in page or two else line[0]

    return re.sub(r"^(  (?:rule|do)\s+)(.*)$", mark, text, flags=re.M)


def written_page() -> str:
    """Returns docs/TOOLS.md with the examples of this tool as it prints them now."""

    def printed(example: re.Match[str]) -> str:
        ran = subprocess.run(["tools/explain", *example[1].split()], cwd=TOP, capture_output=True, text=True)
        return f"```\n$ tools/explain {example[1]}\n{ran.stdout}```"

    return EXAMPLE.sub(printed, PAGE_OF_TOOLS.read_text(encoding="utf-8"))


def all_cases() -> list[Case]:
    """Returns the cases of all files."""
    return [case for file in sorted(CASES.glob("*.cases")) for case in cases_of(file)]


def long_scenarios() -> list[tuple[str, dict[str, object], str]]:
    """Returns the limits that only long scenarios go over, with such a scenario and what is said of it."""
    script = [{"op": "tag", "name": "t"}, {"op": "map", "name": "m", "tag": "t"},
              {"op": "load_mbuf", "map": "m", "entries": [{"va": 0, "len": 0}] * 4097}]
    return [
        ("order", {"frames": [], "drivers": [{"script": []}], "order": ["s0"] * 65537},
         "`order` has at most 65536 elements\n  because  there are 65537\n"),
        ("entries", {"frames": [], "drivers": [{"script": script}]}, "at most 4096 elements\n  because  there are 4097\n"),
    ]


def write() -> None:
    """Writes what the tool shows into the files of cases."""
    for file in sorted(CASES.glob("*.cases")):
        file.write_text("".join(case._replace(shown=show(case)).text() for case in cases_of(file)), encoding="utf-8")
    PAGE_OF_TOOLS.write_text(written_page(), encoding="utf-8")


class Shown(unittest.TestCase):
    """What is shown of each case."""

    def test_cases_are_shown_as_written(self) -> None:
        for case in all_cases():
            with self.subTest(case.name):
                self.assertEqual(show(case), case.shown)

    def test_each_report_is_shown(self) -> None:
        shown = "".join(case.shown for case in all_cases())
        self.assertEqual(len(JUDGES), 16)
        for name in JUDGES:
            self.assertRegex(shown, rf"-> report {name} [0-9]+\n", name)

    def test_each_report_and_errno_has_the_row_of_the_page(self) -> None:
        page = pages.PAGE_OF_DRIVERS.read_text(encoding="utf-8")
        named = set(re.findall(r"^\| `([A-Z][A-Za-z]+)` \| [^|]* \| [^|]* \|$", page, re.M))
        self.assertEqual(named, {*JUDGES, *ERRNOS})
        for name in JUDGES:
            self.assertNotIn("no row", pages.of_report(name).means)
            self.assertTrue(pages.of_report(name).todo)
        for case in all_cases():
            for line in re.findall(r"^  (?:rule|do) .*$", case.shown, re.M):
                self.assertTrue(line.endswith("(DRIVERS.md)"), line)

    def test_each_errno_is_shown(self) -> None:
        shown = "".join(case.shown for case in all_cases())
        for errno in ERRNOS:
            self.assertRegex(shown, rf"-> {errno}\b", errno)

    def test_each_refusal_and_limit_is_shown(self) -> None:
        shown = "".join(case.shown for case in all_cases())
        for limit, scenario, said in long_scenarios():
            long = show(Case(limit, [], json.dumps(scenario), None, ""))
            self.assertIn(f"refused: Limit({limit})", long)
            self.assertIn(said, long)
            shown += long
        for word in [*REFUSALS, *(f"Limit({limit})" for limit in LIMITS)]:
            self.assertIn(f"refused: {word}", shown, word)

    def test_the_example_of_the_page_is_what_the_tool_prints(self) -> None:
        page = PAGE_OF_TOOLS.read_text(encoding="utf-8")
        self.assertTrue(EXAMPLE.search(page))
        self.assertEqual(written_page(), page, "renew the examples by tools/tests/test_explain.py --write")


class Judged(unittest.TestCase):
    """Journals that the check refuses."""

    def test_the_verdict_is_that_of_the_check(self) -> None:
        scenario = (TOP / "examples" / "deferred_load.json").read_bytes()
        lines = (TOP / "examples" / "deferred_load.json.stdout").read_bytes().splitlines(keepends=True)
        wrong = [lines[:at] + lines[at + 1 :] for at in range(len(lines))]
        wrong += [[*lines[:at], lines[at].replace(b"0", b"1"), *lines[at + 1 :]] for at in range(0, len(lines), 3)]
        wrong += [lines[:-1] + [lines[-1][:-1]], [*lines, b"\n"], [b"\xff\x00\n"], [line[:-1] + b"\r\n" for line in lines]]
        with tempfile.TemporaryDirectory() as folder:
            file, journal = pathlib.Path(folder, "scenario.json"), pathlib.Path(folder, "journal")
            file.write_bytes(scenario)
            for text in map(b"".join, wrong):
                journal.write_bytes(text)
                status, out, _ = run_tool([str(file), str(journal)])
                at = first_wrong_line(read_scenario(scenario), text)
                self.assertEqual(status, 0 if at is None else 1)
                self.assertIn(f"the check says `no {at}`" if at is not None else "end finished", out)


    def test_the_journals_of_the_examples_are_explained(self) -> None:
        for scenario in sorted((TOP / "examples").glob("*.json")):
            status, out, err = run_tool(["--all", str(scenario), f"{scenario}.stdout"])
            self.assertEqual((status, err), (0, ""), scenario.name)
            entries = len(re.findall(r"^\d+ ", pathlib.Path(f"{scenario}.stdout").read_text(), re.M))
            self.assertEqual(len(re.findall(r"^\d+ ", out, re.M)), entries, scenario.name)


class Bad(unittest.TestCase):
    """Bad input: one line, a status, and no traceback."""

    def one_line(self, words: list[str], status: int) -> None:
        """Runs the tool and asks for one line of error."""
        ended, out, err = run_tool(words)
        self.assertEqual((ended, out, err.count("\n")), (status, "", 1), err)
        self.assertTrue(err.startswith("explain: "))

    def test_wrong_words(self) -> None:
        example = str(TOP / "examples" / "stuck.json")
        for words in ([], ["--what"], [example, "x", "y"], ["--line", "x", example], ["--all", "--reports", example],
                      ["--map", "n", example], ["--driver", "7", example], ["--line", "99", example], ["--line", "0", example]):
            self.one_line(words, 64)

    def test_files_that_cannot_be_read(self) -> None:
        example = str(TOP / "examples" / "stuck.json")
        for words in (["/no/such/file"], [str(TOP)], ["a\0b"], [example, "/no/such/file"], [example, str(TOP)]):
            self.one_line(words, 66)

    def test_input_that_is_too_long(self) -> None:
        with tempfile.NamedTemporaryFile() as file:
            file.truncate(program.MAX_INPUT + 1)
            self.one_line([file.name], 66)
            self.one_line([str(TOP / "examples" / "stuck.json"), file.name], 66)

    def test_bytes_of_every_kind(self) -> None:
        scenario = (TOP / "examples" / "stuck.json").read_bytes()
        texts = [b"", b"\xff\xfe{\0}\0", b"\xef\xbb\xbf{}", b"\0", b"[" * 200,
                 b"{" * 200, b'"\\ud800"', b'{"a":', b"\x1b[31m", b"1e999", scenario[:-2]]
        texts += [scenario[:at] for at in range(0, len(scenario) - 1, 37)] + [scenario.replace(b'"', b"'"), scenario.replace(b",", b"")]
        with tempfile.NamedTemporaryFile() as file:
            for text in texts:
                pathlib.Path(file.name).write_bytes(text)
                status, out, err = run_tool([file.name])
                self.assertEqual((status, err), (65, ""), text[:40])
                self.assertRegex(out, r"^\S+:\d+:\d+: refused: ")
                self.assertNotIn("\x1b", out)

    def test_the_script_prints_no_traceback_and_no_progress(self) -> None:
        ran = subprocess.run([TOP / "tools" / "explain", "/no/such/file"], capture_output=True, text=True)
        self.assertEqual((ran.returncode, ran.stdout), (66, ""))
        self.assertEqual(ran.stderr, "explain: /no/such/file: No such file or directory\n")


class Terminal(unittest.TestCase):
    """How far the work is."""

    def test_progress_is_said_on_a_terminal_only(self) -> None:
        for is_terminal, said in ((True, "\rexplain: entry 256 of 512 \r\033[K"), (False, "")):
            err = io.StringIO()
            setattr(err, "isatty", lambda: is_terminal)
            with redirect_stderr(err):
                progress = tool.Progress(512)
                progress.next = 0
                progress.at(256)
                progress.end()
            self.assertEqual(err.getvalue(), said)


class Refused(unittest.TestCase):
    """The places of what is refused."""

    def test_the_reader_of_places_takes_what_the_model_takes(self) -> None:
        for file in sorted((TOP / "cases").rglob("*.refusals")):
            for line in file.read_text(encoding="utf-8").splitlines():
                text = line.split(" <- ")[1].encode()
                source = tool.Source("scenario.json", text)
                with self.assertRaises(Refusal) as refused:
                    read_scenario(text)
                self.assertEqual(source.fault is not None, refused.exception.kind == "NotJson", line)
                self.assertNotIn("the value is none that", "".join(tool.explain_refusal(source, refused.exception)), line)


class Large(unittest.TestCase):
    """A journal with 100,000 entries."""

    def test_a_journal_of_100000_entries_takes_seconds(self) -> None:
        ring = [{"op": "tag", "name": "r", "maxsize": 64}, {"op": "dmamem", "name": "q", "tag": "r", "flags": ["ZERO", "COHERENT"]},
                {"op": "ring", "name": "x", "mem": "q", "slots": 4}, {"op": "kick", "ring": "x", "count": 4050}]
        entries = [{"va": "0x100000", "len": 1}] * 4000
        script = [{"op": "tag", "name": "t", "lowaddr": "0xffffff", "maxsize": 4096 * 4000, "nsegments": 4000},
                  {"op": "map", "name": "m", "tag": "t"},
                  *[{"op": "load_vector", "map": "m", "entries": entries}, {"op": "unload", "map": "m"}] * 9]
        drivers = [{"pages": [["0x100000", 4096, 1]], "script": [*ring, *script]}, *[{"script": ring}] * 15]
        plan = {"frames": [[0, 4050], [4096, 4001]], "drivers": drivers}
        with tempfile.TemporaryDirectory() as folder:
            file, journal = pathlib.Path(folder, "scenario.json"), pathlib.Path(folder, "journal")
            file.write_text(json.dumps(plan))
            journal.write_bytes(program.run(["replay"], file.read_bytes())[1])
            begin = time.process_time()
            status, out, err = run_tool([str(file), str(journal)])
        self.assertEqual((status, err), (0, ""))
        self.assertIn("64780 more such entries are left out (64780 NotLoaded)", out)
        self.assertIn("end finished, 100884 entries, 64800 reports", out)
        self.assertLess(time.process_time() - begin, MOST_SECONDS)


if __name__ == "__main__":
    if sys.argv[1:] == ["--write"]:
        write()
    else:
        unittest.main()
