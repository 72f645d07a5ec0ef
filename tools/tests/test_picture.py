#!/usr/bin/env python3
"""Tests tools/picture and tools/orders: what they draw and find, and how they end on bad input."""

from __future__ import annotations

import importlib.machinery
import importlib.util
import io
import json
import random
import re
import subprocess
import sys
import tempfile
import xml.dom.minidom
from html.parser import HTMLParser
from pathlib import Path
from typing import Any

TOP = Path(__file__).resolve().parent.parent.parent
sys.dont_write_bytecode = True
sys.path.insert(0, str(TOP))

from model import drawn  # noqa: E402
from model.answers import InProgress, Report  # noqa: E402
from model.check import first_wrong_line  # noqa: E402
from model.program import run_scenario  # noqa: E402
from model.reader import read_scenario  # noqa: E402
from model.storm import storm_scenario  # noqa: E402
from model.world import World  # noqa: E402
from tools.drawing.chart import Chart  # noqa: E402
from tools.drawing.inputs import status_of  # noqa: E402
from tools.drawing.history import LOADED, WAITING, History, WrongLine, follow, history_of  # noqa: E402
from tools.drawing.meaning import meaning_of  # noqa: E402
from tools.drawing.page import page, picture  # noqa: E402
from tools.drawing.search import drawn_run, run_after, short_orders, shortest  # noqa: E402

REPORTS = (
    "Absent Unmapped MapBusy NotLoaded PastEnd DeviceReadUnlent DeviceWriteUnlent CpuReadLent CpuWriteLent StaleByte "
    "SyncOrder MixedSync Overlap NotDeferred ForeignMemory Untranslated"
).split()
EMPTY = b'{"frames": [], "drivers": []}'


def example(name: str) -> bytes:
    """Returns a scenario of the examples."""
    return (TOP / "examples" / f"{name}.json").read_bytes()


def history(data: bytes) -> History:
    """Returns the history of a replay."""
    return history_of(read_scenario(data), None, "test")


def ended(tool: str, *words: str, given: bytes = b"") -> tuple[int, str, str]:
    """Runs a tool in this process; returns its status, its output and its error."""
    path = str(TOP / "tools" / tool)
    spec = importlib.util.spec_from_loader(tool, importlib.machinery.SourceFileLoader(tool, path))
    assert spec is not None and spec.loader is not None
    module = importlib.util.module_from_spec(spec)
    spec.loader.exec_module(module)
    streams = sys.stdin, sys.stdout, sys.stderr
    sys.stdin, sys.stdout, sys.stderr = (io.TextIOWrapper(io.BytesIO(it), "utf-8") for it in (given, b"", b""))
    try:
        status = status_of(module.TOOL, module.main, list(words))
        return status, written(sys.stdout), written(sys.stderr)
    finally:
        sys.stdin, sys.stdout, sys.stderr = streams


def written(stream: Any) -> str:
    """Returns what was written to a stream."""
    stream.flush()
    return str(stream.buffer.getvalue().decode())


def run_tool(tool: str, *words: str) -> tuple[int, bytes, bytes]:
    """Runs a tool as a program of its own; returns its status, its output and its error."""
    ran = subprocess.run([str(TOP / "tools" / tool), *words], stdin=subprocess.DEVNULL, capture_output=True, timeout=100, check=False)
    return ran.returncode, ran.stdout, ran.stderr


class Elements(HTMLParser):
    """The anchors and the links of a page, and whether its elements are closed in order."""

    def __init__(self, text: str) -> None:
        super().__init__()
        self.open: list[str] = []
        self.ids: list[str] = []
        self.links: list[str] = []
        self.others: list[str] = []
        self.feed(text)
        assert not self.open, self.open

    def handle_starttag(self, tag: str, attrs: list[tuple[str, str | None]]) -> None:
        if tag not in ("meta", "br"):
            self.open.append(tag)
        for key, value in attrs:
            if key == "id":
                self.ids.append(value or "")
            if key == "href":
                self.links.append(value or "")
            if key in ("src", "srcset", "onclick", "onload") or key == "xlink:href":
                self.others.append(f"{key}={value}")

    def handle_startendtag(self, tag: str, attrs: list[tuple[str, str | None]]) -> None:
        self.handle_starttag(tag, attrs)
        self.open.pop()

    def handle_endtag(self, tag: str) -> None:
        assert self.open.pop() == tag, tag


def judge_page(name: str, shown: History, asked: tuple[int, int] | None = None) -> str:
    """Tests that a page is complete in itself and that its links lead somewhere; returns it."""
    text = page(shown, name, asked, False)
    found = Elements(text)
    assert len(found.ids) == len(set(found.ids)), name
    assert {f"#{id_}" for id_ in found.ids} >= set(found.links), name
    assert not found.others and "<script" not in text and "url(" not in text and "@import" not in text, name
    assert "is not proved" in text, name
    xml.dom.minidom.parseString(picture(shown, name, None))
    return text


def test_pictures_of_the_pages() -> None:
    """The pictures in docs/pictures are what the tool draws."""
    for name in ("deferred_load", "stale_bytes"):
        stored = (TOP / "docs" / "pictures" / f"{name}.svg").read_text(encoding="utf-8")
        assert stored == picture(history(example(name)), f"{name}.json", None), f"draw docs/pictures/{name}.svg again"


def test_deferred_load() -> None:
    """The bars, the callback and the pages of a deferred load."""
    shown = history(example("deferred_load"))
    bars = [(bar.driver, bar.kind, bar.begin, bar.end) for bar in shown.bars]
    assert bars == [
        (0, "loaded", 4, 12), (1, "waiting", 9, 14), (0, "returning", 12, 16), (1, "loaded", 14, 20), (1, "returning", 20, 22)
    ], bars
    assert [bar.lent for bar in shown.bars if bar.kind == LOADED] == [[(6, 0, 5000), (10, 0, 0)], [(15, 5000, 0), (18, 0, 0)]]
    called = shown.called_back
    assert [(it.release, it.by, it.callback, it.driver, it.map) for it in called] == [(13, 0, 14, 1, "m")], called
    counts = [(it.entry, it.total, it.free, it.reserved, it.active) for it in shown.zones[0].counts]
    assert counts[:4] == [(2, 2, 2, 0, 0), (3, 3, 3, 0, 0), (4, 3, 1, 0, 2), (9, 3, 0, 1, 2)], counts
    assert counts[-1] == (22, 3, 3, 0, 0), counts
    text = judge_page("deferred_load", shown)
    assert "the release in entry 13 gave the load of map m of driver 1 its last page" in text


def test_reports() -> None:
    """Each report is drawn, linked and explained in the words of DRIVERS."""
    shown = history(example("every_report"))
    text = judge_page("every_report", shown)
    assert {entry.answer.name for entry in shown.reports() if isinstance(entry.answer, Report)} == set(REPORTS)
    for entry in shown.reports():
        meaning = meaning_of(entry)
        assert meaning is not None and meaning.means and meaning.mend, entry
        assert f"href='#e{entry.number}'" in text or f'href="#e{entry.number}"' in text
        assert f'id="p{entry.number}"' in text and f'id="e{entry.number}"' in text
    assert text.count("What to do:") == len(shown.reports())


def test_stuck() -> None:
    """A script that is stuck is drawn."""
    assert "stuck at await m2" in judge_page("stuck", history(example("stuck")))


def test_every_scenario() -> None:
    """Examples and drawn scenarios have pages; bars do not overlap, and zones add up."""
    texts = [(path.name, path.read_bytes()) for path in sorted((TOP / "examples").glob("*.json"))]
    texts += [(f"drawn {number}", json.dumps(drawn.scenario(f"pictures.{number}")).encode()) for number in range(6)]
    for name, data in [*texts, ("empty", EMPTY), ("no steps", b'{"frames": [], "drivers": [{"script": []}]}')]:
        shown = history(data)
        judge_page(name, shown)
        last: dict[tuple[int, str], int | None] = {}
        for bar in shown.bars:
            end = last.get((bar.driver, bar.map), 0)
            assert end is not None and end <= bar.begin and (bar.end is None or bar.begin < bar.end), f"{name} {bar}"
            last[bar.driver, bar.map] = bar.end
        for zone in shown.zones:
            assert all(it.total == it.free + it.reserved + it.active for it in zone.counts), name
            lines = shown.end_lines[8 * zone.number : 8 * zone.number + 4]
            it = zone.counts[-1]
            assert [line.split(": ")[1] for line in lines] == [str(n) for n in (it.total, it.free, it.reserved, it.active)]
        stored = TOP / "examples" / f"{name}.stdout"
        if stored.exists():
            printed = history_of(read_scenario(data), stored.read_bytes(), "test")
            assert printed == shown, name
        waits = sum(isinstance(entry.answer, InProgress) for entry in shown.entries)
        assert waits == sum(bar.kind == WAITING for bar in shown.bars), name


def test_journals() -> None:
    """A journal is judged as the model's check judges it."""
    draws = random.Random("journals")
    for name in ("deferred_load", "stuck", "every_report"):
        scenario = read_scenario(example(name))
        lines = run_scenario(scenario, True)[1].splitlines(keepends=True)
        for _ in range(40):
            broken, place = list(lines), draws.randrange(len(lines))
            change = draws.randrange(5)
            if change == 0:
                del broken[place]
            elif change == 1:
                broken.insert(place, broken[draws.randrange(len(lines))])
            elif change == 2:
                broken[place] = broken[place].replace(b"0", b"00", 1)
            elif change == 3:
                broken[place] = broken[place][:-1] + draws.choice((b"", b"\r\n", b" \n"))
            text = b"".join(broken)
            try:
                for _entry in follow(World(scenario), text):
                    pass
                found = None
            except WrongLine as wrong:
                found = wrong.number
            assert found == first_wrong_line(scenario, text), (name, text)


def test_long_run() -> None:
    """A long run is drawn in windows, and the page says what it leaves out."""
    shown = history_of(storm_scenario(30, 7), None, "test")
    text = judge_page("storm", shown)
    assert "The whole run, entries 0 to" in text and "windows of 100 entries are not drawn" in text
    judge_page("part", shown, (100, len(shown.entries) - 1))
    chart = Chart(shown, 0, len(shown.entries) - 1)
    chart.draw("storm")
    assert chart.left_out["marks of single entries"] == len(shown.entries)
    assert text.count("<svg") == 11 and len(text) < 2_000_000


def test_progress() -> None:
    """A tool says on a terminal how far it is, and nothing elsewhere."""
    for is_terminal in (True, False):
        stream, before = io.StringIO(), sys.stderr
        setattr(stream, "isatty", lambda: is_terminal)
        sys.stderr = stream
        try:
            history_of(storm_scenario(30, 7), None, "test")
        finally:
            sys.stderr = before
        assert ("1,000 entries" in stream.getvalue()) == is_terminal and bool(stream.getvalue()) == is_terminal


def test_many_maps() -> None:
    """More maps than rows share rows; each bar has its map's name, or the page counts what it leaves out."""
    script: list[dict[str, Any]] = [{"op": "tag", "name": "t", "maxsize": 4096}]
    script += [{"op": "map", "name": f"rx{number}", "tag": "t"} for number in range(30)]
    script += [{"op": "load", "map": f"rx{number}", "va": "0x100000", "len": 8} for number in range(25)]
    driver = {"pages": [["0x100000", "0x1000", 1]], "script": script}
    text = judge_page("many", history(json.dumps({"frames": [["0x1000", 1]], "drivers": [driver]}).encode()))
    assert "bars of maps for which no row was free: 5" in text and "any map" in text and ">rx3 8 bytes<" in text


def test_orders() -> None:
    """An order that reports is found, and the replay of the scenario with it is what was shown."""
    scenario = read_scenario(example("deferred_load"))
    short = short_orders(scenario, 50)
    assert not short.are_all and 20 < len(short.orders) <= 50
    assert len({tuple(order) for order in short.orders}) == len(short.orders)
    for order in short.orders[:5]:
        run_after(scenario, order)
    status, output, error = ended("orders", str(TOP / "examples" / "deferred_load.json"), "--tries", "20")
    assert (status, error) == (1, ""), (status, error)
    order = json.loads(re.findall(r'"order": (\[.*\])', output)[0])
    shown = re.findall(r"^  (\d+ .*)$", output, re.M)[0]
    replayed = run_scenario(read_scenario(json.dumps({**json.loads(example("deferred_load")), "order": order}).encode()), True)
    assert shown in replayed[1].decode().splitlines() and replayed[0] == 1
    assert ended("orders", str(TOP / "examples" / "deferred_load.json"), "--tries", "20") == (status, output, error)
    run = next(run for run in (drawn_run(scenario, random.Random(seed)) for seed in range(50)) if not run.is_clean())
    best, again = shortest(scenario, run)
    assert len(best) <= len(run.entries) and not again.is_clean()
    assert ended("orders", "-", given=example("first_transfer"))[0] == 0
    assert ended("orders", "-", given=example("stuck"))[0] == 2
    assert ended("orders", "-", given=EMPTY)[:2] == (
        0, "The orders are the model's; what they show is not proved.\nTried: the only order.\n"
        "       1  finished, no report\nNone of them is stuck or reports.\n",
    )


def test_bad_input() -> None:
    """Bad words and bad input end with one line and the program's statuses."""
    with tempfile.TemporaryDirectory() as folder:
        long, journal = Path(folder, "long"), Path(folder, "journal")
        long.write_bytes(b" " * 16_777_217)
        journal.write_bytes(b"0 s0 tag t -> ok\nnonsense\n")
        good = str(TOP / "examples" / "stuck.json")
        cases: list[tuple[str, list[str], bytes, int]] = [
            ("picture", [], b"", 64), ("picture", ["--nothing", good], b"", 64), ("picture", [good, "--entries", "x"], b"", 64),
            ("picture", [good, "--entries", "2..1"], b"", 64), ("picture", ["-"], b"{", 65), ("picture", ["-"], b'{"a\\n\xff":1}', 65),
            ("picture", [good, str(journal)], b"", 1), ("picture", [good, "-"], b"\xff", 1), ("picture", [good, "-"], b"", 1),
            ("picture", [str(long)], b"", 66), ("picture", [folder], b"", 66), ("picture", ["/nothing/here"], b"", 66),
            ("orders", [], b"", 64), ("orders", [good, "--tries", "-1"], b"", 64), ("orders", [good, "--seed", "x"], b"", 64),
            ("orders", ["-"], b"[]", 65),
        ]
        for tool, words, given, status in cases:
            found, output, error = ended(tool, *words, given=given)
            assert found == status and not output, (tool, words, found, output[:200])
            assert error.count("\n") == 1 and error.startswith(f"tools/{tool}: "), error


def test_programs() -> None:
    """The tools run as programs."""
    name = str(TOP / "examples" / "stale_bytes.json")
    status, output, error = run_tool("picture", "--svg", name)
    assert (status, error) == (0, b"") and output == (TOP / "docs" / "pictures" / "stale_bytes.svg").read_bytes()
    status, output, error = run_tool("orders")
    assert (status, output) == (64, b"") and error.count(b"\n") == 1 and b"Traceback" not in error


def main() -> None:
    """Runs the tests."""
    tests = [test for name, test in sorted(globals().items()) if name.startswith("test_")]
    for test in tests:
        test()
    print(f"test_picture: {len(tests)} passed")


main()
