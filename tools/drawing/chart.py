"""Draws a part of a history as an SVG: actors, maps with what they lend, callbacks, reports, and zones.

An entry of the journal has a column, and what an entry changed begins in the middle of its column. If a column is
narrower than `NARROW`, the marks of single entries are left out and so is what would be narrower than a pixel; the
chart counts what it leaves out.
"""

from __future__ import annotations

import re
from collections import Counter
from collections.abc import Collection, Iterable
from dataclasses import dataclass, field
from html import escape

from model.answers import Entry, Refused, Report

from .history import LOADED, RETURNING, WAITING, Bar, CalledBack, Counts, History, ZoneHistory
from .meaning import words_of

WIDTH, LEFT, RIGHT = 960, 156, 14
PLOT = WIDTH - LEFT - RIGHT
NARROW = 5.0
ACTOR_ROW, MAP_ROW, ZONE_ROW, GAP = 16, 24, 64, 16
NAME_ROW, MOST_NAME_ROWS = 13, 3
MOST_LANES, MOST_ZONES, MOST_WIDE = 20, 6, 90
ACTORS = (("c", "callbacks"), ("d", "device"), ("s", "script"))

STYLE = """
.busdma { --bg: #ffffff; --fg: #1b1f24; --dim: #59636e; --grid: #e3e7eb; --load: #e6eef8; --edge: #5b7ea8;
  --read: #0969da; --write: #8250df; --wait: #ffe8a3; --waits: #8a5a00; --free: #b7dfc0; --active: #9cc4f2;
  --report: #cf222e; --errno: #9a6700; font: 12px system-ui, "DejaVu Sans", Arial, sans-serif; }
@media (prefers-color-scheme: dark) { .busdma { --bg: #0d1117; --fg: #e6edf3; --dim: #9aa4af; --grid: #262c34;
  --load: #17263a; --edge: #7fa6d6; --read: #58a6ff; --write: #bc8cff; --wait: #6e5310; --waits: #e3b341;
  --free: #2b6b3b; --active: #265c9c; --report: #ff7b72; --errno: #e3b341; } }
@media print { .busdma { --bg: #ffffff; --fg: #000000; --dim: #444444; --grid: #dddddd; --load: #eef3fa; --edge: #5b7ea8;
  --read: #0969da; --write: #8250df; --wait: #ffe8a3; --waits: #8a5a00; --free: #b7dfc0; --active: #9cc4f2;
  --report: #cf222e; --errno: #9a6700; } }
.busdma text { fill: var(--fg); } .busdma .dim { fill: var(--dim); } .busdma .small { font-size: 11px; }
.busdma .bold { font-weight: 600; } .busdma .ground { fill: var(--bg); }
.busdma .grid { stroke: var(--grid); fill: none; } .busdma .axis { stroke: var(--dim); fill: none; }
.busdma .entry { fill: var(--fg); } .busdma .errno { fill: var(--bg); stroke: var(--errno); stroke-width: 2; }
.busdma .report { fill: var(--report); } .busdma .column { fill: var(--report); opacity: .1; }
.busdma .stuck { stroke: var(--report); stroke-width: 2; stroke-dasharray: 4 3; fill: none; }
.busdma text.alarm { fill: var(--report); } .busdma .dense { fill: var(--dim); } .busdma .hit { fill: transparent; }
.busdma .loaded { fill: var(--load); stroke: var(--edge); }
.busdma .waiting { fill: var(--wait); stroke: var(--waits); stroke-dasharray: 3 2; }
.busdma .returning { fill: none; stroke: var(--edge); stroke-dasharray: 2 3; }
.busdma .thin { stroke: none; fill: var(--active); } .busdma .waiting.thin { fill: var(--waits); }
.busdma .returning.thin { fill: var(--grid); } .busdma .merged { fill: var(--edge); opacity: .55; }
.busdma .read { fill: var(--read); } .busdma .write { fill: var(--write); }
.busdma .arrow { stroke: var(--fg); stroke-width: 1.5; fill: none; } .busdma .head { fill: var(--fg); }
.busdma .active { fill: var(--active); } .busdma .reserved { fill: var(--wait); } .busdma .free { fill: var(--free); }
.busdma .total { stroke: var(--fg); stroke-width: 1.5; fill: none; }
.busdma a:focus { outline: none; } .busdma a:focus-visible .hit { stroke: var(--fg); stroke-width: 2; }
.busdma a:hover .hit { fill: var(--dim); fill-opacity: .2; } .busdma a:target .hit { stroke: var(--report); stroke-width: 2; }
"""


def tag(name: str, content: str = "", **attributes: object) -> str:
    """Returns an element; an attribute `class_` is `class`, and numbers are rounded."""
    words = [
        f'{key.rstrip("_").replace("_", "-")}="{escape(f"{value:.1f}".removesuffix(".0") if isinstance(value, float) else str(value))}"'
        for key, value in attributes.items()
        if value is not None
    ]
    head = " ".join([name, *words])
    return f"<{head}>{content}</{name}>" if content else f"<{head}/>"


def text(x: float, y: float, content: str, class_: str = "", anchor: str | None = None) -> str:
    """Returns a line of text."""
    return tag("text", escape(content), x=x, y=y, class_=class_ or None, text_anchor=anchor)


def title(content: str) -> str:
    """Returns what is shown when the pointer rests on an element."""
    return tag("title", escape(content))


def short(name: str, most: int) -> str:
    """Returns a name that is not too long."""
    return name if len(name) <= most else f"{name[: most - 1]}…"


def line_of(entry: Entry, most: int = 200) -> str:
    """Returns the line of an entry; a long one is cut."""
    return short(entry.line().rstrip("\n"), most)


@dataclass
class Chart:
    """A picture of the entries from `first` to `last`, both of them in it."""

    history: History
    first: int
    last: int
    anchors: bool = True
    explains: bool = True
    lines: Collection[int] = ()
    parts: list[str] = field(default_factory=list)
    y: float = 0.0
    left_out: Counter[str] = field(default_factory=Counter)
    actor_y: dict[str, float] = field(default_factory=dict)

    @property
    def step(self) -> float:
        """Returns the width of an entry's column."""
        return min(float(MOST_WIDE), PLOT / max(1, self.last - self.first + 1))

    @property
    def is_narrow(self) -> bool:
        """Returns whether single entries are left out."""
        return self.step < NARROW

    def x(self, place: float) -> float:
        """Returns where a place of the journal is, held within the picture."""
        return LEFT + self.step * (min(max(place, self.first), self.last + 1) - self.first)

    def middle(self, entry: int) -> float:
        """Returns the middle of an entry's column."""
        return self.x(entry + 0.5)

    def words_of(self, entry: Entry) -> str:
        """Returns the line of an entry, its path, and what its report means if the picture explains reports."""
        words = [line_of(entry), entry.path, words_of(entry) if self.explains else ""]
        return "\n".join(word for word in words if word)

    def link(self, entry: int, content: str, id_: str | None = None) -> str:
        """Returns the content as a link to the entry's line, if the line is shown."""
        if entry not in self.lines:
            return tag("g", content)
        return tag("a", content, href=f"#e{entry}", id=id_ if self.anchors else None)

    def draw(self, name: str) -> str:
        """Returns the picture."""
        self.draw_axis()
        for driver in range(len(self.history.scenario.drivers)):
            self.draw_driver(driver)
        for called in self.history.called_back:
            if self.first <= called.callback <= self.last and self.first <= called.release <= self.last:
                self.draw_arrow(called)
        for zone in self.zones_drawn():
            self.draw_zone(zone)
        self.draw_legend()
        height = self.y + 8
        words = f"{name}: entries {self.first:,} to {self.last:,}, end {self.history.end}"
        ground = tag("rect", width=WIDTH, height=height, class_="ground")
        body = title(words) + tag("style", STYLE) + ground + "\n".join(self.parts)
        return tag(
            "svg", body, xmlns="http://www.w3.org/2000/svg", viewBox=f"0 0 {WIDTH} {height:.0f}", width=WIDTH,
            height=f"{height:.0f}", class_="busdma", role="group", aria_label=words,
        )

    def draw_axis(self) -> None:
        """Draws the numbers of the entries."""
        count = self.last - self.first + 1
        every = next(n for n in (1, 2, 5, 10, 20, 50, 100, 200, 500, 1000, 2000, 5000, 10_000, 20_000, 50_000)
                     if n * self.step >= max(18, 7 * len(f"{self.last:,}") + 10) or n == 50_000)
        self.parts.append(text(4, 16, "entry", "dim small"))
        for entry in range(self.first + -self.first % every, self.first + count, every):
            self.parts.append(text(self.middle(entry), 16, f"{entry:,}", "dim small", "middle"))
        self.y = 26

    def entries_of(self, driver: int) -> list[Entry]:
        """Returns the entries of a driver that are in the picture."""
        return [e for e in self.history.entries[self.first : self.last + 1] if int(e.actor[1:]) == driver]

    def draw_driver(self, driver: int) -> None:
        """Draws a driver: its actors, then its maps."""
        entries = self.entries_of(driver)
        bars = [
            bar for bar in self.history.bars
            if bar.driver == driver and bar.begin <= self.last and bar.last(len(self.history.entries)) >= self.first
        ]
        if not entries and not bars:
            self.left_out["drivers that do nothing here"] += 1
            return
        top = self.y
        self.parts.append(tag("path", d=f"M0 {top} H{WIDTH}", class_="grid"))
        self.parts.append(text(4, top + 15, f"driver {driver}", "bold"))
        self.y += 4
        for letter, what in ACTORS:
            its = [entry for entry in entries if entry.actor[0] == letter]
            if its:
                self.draw_actor(f"{letter}{driver}", what, its)
        reports = [entry for entry in entries if isinstance(entry.answer, Report)]
        if reports and not self.is_narrow:
            self.draw_report_names(reports)
        for name, lane in self.lanes(bars):
            self.draw_lane(name, lane)
        self.y += 6

    def draw_actor(self, actor: str, what: str, entries: list[Entry]) -> None:
        """Draws the steps of an actor."""
        middle = self.y + ACTOR_ROW / 2
        self.actor_y[actor] = middle
        self.parts.append(text(LEFT - 8, middle + 4, f"{what} {actor}", "dim small", "end"))
        self.parts.append(tag("path", d=f"M{LEFT} {middle} H{LEFT + self.step * (self.last - self.first + 1):.1f}", class_="grid"))
        self.draw_stuck(actor, entries[-1].number, middle)
        if self.is_narrow:
            self.draw_dense(entries, middle)
        else:
            for entry in entries:
                self.draw_entry(entry, middle)
        self.y += ACTOR_ROW

    def draw_stuck(self, actor: str, last: int, middle: float) -> None:
        """Draws that a script waits until the end of the run, if it does."""
        waits = self.history.stuck.get(int(actor[1:]))
        if actor[0] != "s" or waits is None or self.last < len(self.history.entries) - 1:
            return
        begin, end = self.middle(last) + 6, self.x(self.last + 1)
        words = f"stuck at {waits.done()}"
        self.parts.append(tag("g", title(f"{words} ({waits.path}) until the end of the run") + tag(
            "path", d=f"M{begin:.1f} {middle} H{end:.1f} M{end:.1f} {middle - 5} v10", class_="stuck"
        )))
        if end - begin > 6.4 * len(words) + 10:
            self.parts.append(text(end - 6, middle - 3, words, "alarm small", "end"))

    def draw_entry(self, entry: Entry, middle: float) -> None:
        """Draws the mark of an entry, with its line on hover."""
        x, size = self.middle(entry.number), min(4.0, self.step / 2.2)
        if isinstance(entry.answer, Report):
            size = max(size, 5.0)
            self.parts.append(tag("rect", x=self.x(entry.number), y=self.y, width=self.step, height=ACTOR_ROW, class_="column"))
            mark = tag("path", d=f"M{x:.1f} {middle - size} l{size} {size} l{-size} {size} l{-size} {-size} z", class_="report")
        elif isinstance(entry.answer, Refused) or entry.answer.text().startswith("ENOMEM"):
            mark = tag("rect", x=x - size + 1, y=middle - size + 1, width=2 * size - 2, height=2 * size - 2, class_="errno")
        else:
            mark = tag("circle", cx=x, cy=middle, r=size * 0.85, class_="entry")
        hit = tag("rect", x=self.x(entry.number), y=self.y, width=self.step, height=ACTOR_ROW, class_="hit")
        self.parts.append(self.link(entry.number, title(self.words_of(entry)) + mark + hit, f"p{entry.number}"))

    def draw_report_names(self, reports: list[Entry]) -> None:
        """Draws the names of a driver's reports below its steps, in rows in which they do not touch."""
        ends: list[float] = []
        for entry in reports:
            words = entry.answer.text().removeprefix("report ")
            x, width = self.middle(entry.number), 6.3 * len(words) + 6
            begin, anchor = (x - 5, "start") if x - 5 + width <= WIDTH - 2 else (x + 5 - width, "end")
            row = next((row for row, end in enumerate(ends) if end < begin), len(ends))
            if row == MOST_NAME_ROWS:
                self.left_out["names of reports without room (the text on hover has them)"] += 1
                continue
            ends[row : row + 1] = [begin + width]
            y = self.y + NAME_ROW * row + 10
            words_drawn = text(x - 5 if anchor == "start" else x + 5, y, words, "alarm small", anchor)
            self.parts.append(self.link(entry.number, title(self.words_of(entry)) + words_drawn))
        self.parts.append(text(LEFT - 8, self.y + 10, "reports", "dim small", "end"))
        self.y += NAME_ROW * len(ends) + 2

    def draw_dense(self, entries: list[Entry], middle: float) -> None:
        """Draws how many steps an actor took, by columns of three pixels, and its reports."""
        columns: Counter[int] = Counter()
        reports: dict[int, list[Entry]] = {}
        for entry in entries:
            columns[int((self.middle(entry.number) - LEFT) / 3)] += 1
            if isinstance(entry.answer, Report):
                reports.setdefault(int((self.middle(entry.number) - LEFT) / 6), []).append(entry)
        most = max(columns.values())
        path = "".join(
            f"M{LEFT + 3 * column} {middle + 6} v{-max(1.0, 12 * count / most):.1f} h2.5 V{middle + 6} z"
            for column, count in sorted(columns.items())
        )
        words = f"{len(entries):,} steps; a column of full height has {most:,}"
        self.parts.append(tag("path", title(words), d=path, class_="dense"))
        self.left_out["marks of single entries"] += len(entries)
        for column, those in sorted(reports.items()):
            x = LEFT + 6 * column + 3
            more = f"\nand {len(those) - 1:,} more reports here" if len(those) > 1 else ""
            mark = tag("path", d=f"M{x} {middle - 6} l5 6 l-5 6 l-5 -6 z", class_="report")
            hit = tag("rect", x=x - 6, y=self.y, width=12, height=ACTOR_ROW, class_="hit")
            words = self.words_of(those[0]) + more
            self.parts.append(self.link(those[0].number, title(words) + mark + hit, f"p{those[0].number}"))
            self.left_out["marks of single entries"] -= 1

    def lanes(self, bars: list[Bar]) -> list[tuple[str, list[Bar]]]:
        """Returns the lanes of a driver: one for each map, or shared ones if there are too many maps."""
        names = sorted({bar.map for bar in bars}, key=by_number)
        if len(names) <= MOST_LANES:
            return [(name, [bar for bar in bars if bar.map == name]) for name in names]
        lanes: list[list[Bar]] = []
        for bar in bars:
            free = next((lane for lane in lanes if lane[-1].last(len(self.history.entries)) <= bar.begin + 0.5), None)
            if free is not None:
                free.append(bar)
            elif len(lanes) < MOST_LANES:
                lanes.append([bar])
            else:
                self.left_out["bars of maps for which no row was free"] += 1
        return [("any map" if number == 0 else "", lane) for number, lane in enumerate(lanes)]

    def draw_lane(self, name: str, bars: list[Bar]) -> None:
        """Draws the bars of a lane; those narrower than a pixel become one."""
        self.parts.append(text(LEFT - 8, self.y + 16, short(name, 15) if name in ("any map", "") else f"map {short(name, 13)}", "small", "end"))
        merged: list[tuple[float, float, int]] = []
        before = float(LEFT)
        for bar in bars:
            begin, end = self.x(bar.begin + 0.5), self.x(bar.last(len(self.history.entries)))
            if end - begin >= 1.5 or not self.is_narrow:
                self.draw_bar(bar, begin, end, before if name in ("any map", "") else None)
            elif merged and begin - merged[-1][1] < 1:
                merged[-1] = merged[-1][0], max(end, merged[-1][1]), merged[-1][2] + 1
            else:
                merged.append((begin, max(end, begin + 1), 1))
            before = end
        for begin, end, count in merged:
            words = title(f"{count:,} bars narrower than a pixel and a half, drawn as one")
            self.parts.append(tag("rect", words, x=begin, y=self.y + 3, width=end - begin, height=MAP_ROW - 6, class_="merged"))
            self.left_out["bars of maps that are drawn as one with their neighbours"] += count
        self.y += MAP_ROW

    def draw_bar(self, bar: Bar, begin: float, end: float, before: float | None) -> None:
        """Draws what a map was doing, and what it lent; in a shared lane, `before` is the end of the bar before it."""
        show_map = before is not None
        top, height = self.y + 3, MAP_ROW - 6
        until = f"entry {bar.end:,}" if bar.end is not None else "the end of the run"
        what = {LOADED: f"loaded, {bar.length:,} bytes, {bar.text}", WAITING: f"waits for pages, has {bar.text}"}
        words = f"map {bar.map} of driver {bar.driver}: {what.get(bar.kind, 'gives its pages back')}\nfrom entry {bar.begin:,} to {until}"
        if bar.kind == RETURNING:
            top, height = top + 6, height - 12
        is_thin = end - begin < 8
        class_, round_ = f"{bar.kind} thin" if is_thin else bar.kind, None if is_thin else 2
        parts = [tag("rect", x=begin, y=top, width=max(1.0, end - begin), height=height, class_=class_, rx=round_)]
        parts += self.lent_bands(bar, end, top, height)
        label, rooms = self.label_of(bar, show_map), self.rooms_of(bar, begin, end)
        fitting = [(words, left) for words in (label, bar.map if show_map else "") if words
                   for left, right in rooms if 6.4 * len(words) + 8 < right - left]
        if fitting:
            parts.append(text(fitting[0][1] + 4, self.y + 16, fitting[0][0], "small"))
        elif before is not None and 6.4 * len(bar.map) + 8 < begin - before:
            parts.append(text(begin - 4, self.y + 16, bar.map, "small", "end"))
        elif label:
            self.left_out["labels of bars without room (the text on hover has them)"] += 1
        entry = max(bar.begin, self.first)
        self.parts.append(self.link(bar.begin if bar.begin in self.lines else entry, title(words) + "".join(parts)))

    def label_of(self, bar: Bar, show_map: bool) -> str:
        """Returns the words in a bar."""
        name = f"{bar.map} " if show_map else ""
        if bar.kind == WAITING:
            return f"{name}waits, {bar.text}"
        return f"{name}{bar.length:,} bytes" if bar.kind == LOADED else name.strip()

    def rooms_of(self, bar: Bar, begin: float, end: float) -> list[tuple[float, float]]:
        """Returns the parts of a bar in which nothing is lent."""
        rooms: list[tuple[float, float]] = []
        is_lent = False
        for entry, to_read, to_write in bar.lent:
            place = min(end, self.x(entry + 0.5))
            if not is_lent:
                rooms.append((begin, place))
            begin, is_lent = place, to_read > 0 or to_write > 0
        return rooms if is_lent else [*rooms, (begin, end)]

    def lent_bands(self, bar: Bar, end: float, top: float, height: float) -> Iterable[str]:
        """Draws what a load lends: to read in the upper half, to write in the lower one."""
        for place, (entry, to_read, to_write) in enumerate(bar.lent):
            until = self.x(bar.lent[place + 1][0] + 0.5) if place + 1 < len(bar.lent) else end
            begin = self.x(entry + 0.5)
            if until <= begin:
                continue
            for count, class_, lower in ((to_read, "read", 0), (to_write, "write", 1)):
                if count and bar.length:
                    half = height / 2 - 1
                    size = max(1.5, half * count / bar.length)
                    y = top + (height / 2 - size if not lower else height / 2)
                    words = f"map {bar.map} lends {count:,} of {bar.length:,} bytes to {class_}, from entry {entry:,} on"
                    yield tag("rect", title(words), x=begin, y=y, width=until - begin, height=size, class_=class_)

    def draw_arrow(self, called: CalledBack) -> None:
        """Draws the way from a release to the callback that it made ready."""
        if f"s{called.by}" not in self.actor_y or f"c{called.driver}" not in self.actor_y:
            return
        begin, end = self.middle(called.release), self.middle(called.callback)
        if self.is_narrow and end - begin < 3:
            self.left_out["arrows shorter than three pixels"] += 1
            return
        top, bottom = self.actor_y[f"s{called.by}"], self.actor_y[f"c{called.driver}"]
        down = 1 if bottom > top else -1
        y1, y2 = top + 5 * down, bottom - 7 * down
        path = f"M{begin:.1f} {y1} C{begin:.1f} {(y1 + y2) / 2} {end:.1f} {(y1 + y2) / 2} {end:.1f} {y2 - 3 * down}"
        words = (
            f"the release in entry {called.release:,} gave the load of map {called.map} of driver {called.driver} its last "
            f"page; its callback is entry {called.callback:,}"
        )
        head = f"M{end:.1f} {y2 + 2 * down} l-4 {-7 * down} h8 z"
        self.parts.append(tag("g", title(words) + tag("path", d=path, class_="arrow") + tag("path", d=head, class_="head")))

    def zones_drawn(self) -> list[ZoneHistory]:
        """Returns the zones of the picture."""
        zones = [zone for zone in self.history.zones if zone.counts and zone.counts[0].entry <= self.last]
        self.left_out[f"zones after the first {MOST_ZONES}"] += len(zones[MOST_ZONES:])
        return zones[:MOST_ZONES]

    def draw_zone(self, zone: ZoneHistory) -> None:
        """Draws the pages of a zone as steps: active, reserved and free, one on the other; together the total."""
        most = max(counts.total for counts in zone.counts)
        self.parts.append(tag("path", d=f"M0 {self.y} H{WIDTH}", class_="grid"))
        top, bottom = self.y + 14, self.y + ZONE_ROW - 8
        scale = (bottom - top) / max(1, most)
        self.parts.append(text(4, self.y + 15, f"zone {zone.number}", "bold"))
        self.parts.append(text(4, self.y + 30, f"to {zone.lowaddr:#x}", "dim small"))
        self.parts.append(text(LEFT - 8, top + 4, f"{most:,}", "dim small", "end"))
        self.parts.append(text(LEFT - 8, bottom + 4, "0", "dim small", "end"))
        before = [counts for counts in zone.counts if counts.entry < self.first][-1:]
        shown = before + [counts for counts in zone.counts if self.first <= counts.entry <= self.last]
        end = self.x(self.last + 1)
        kept = shown if not self.is_narrow else thinned(shown, self)
        self.left_out["steps of zones within a pixel of others"] += len(shown) - len(kept)
        areas: dict[str, list[str]] = {"active": [], "reserved": [], "free": []}
        outline = ""
        for place, counts in enumerate(kept):
            begin = self.x(counts.entry + 0.5)
            until = self.x(kept[place + 1].entry + 0.5) if place + 1 < len(kept) else end
            base = bottom
            for name, count in (("active", counts.active), ("reserved", counts.reserved), ("free", counts.free)):
                if count and until > begin:
                    areas[name].append(f"M{begin:.1f} {base:.1f} V{base - count * scale:.1f} H{until:.1f} V{base:.1f} z")
                base -= count * scale
            outline += f"{'L' if outline else 'M'}{begin:.1f} {base:.1f} H{until:.1f}"
            if not self.is_narrow and until > begin:
                words = (
                    f"zone {zone.number} after entry {counts.entry:,}: {counts.total:,} pages, {counts.free:,} free, "
                    f"{counts.reserved:,} reserved, {counts.active:,} active"
                )
                areas.setdefault("hit", []).append(
                    tag("rect", title(words), x=begin, y=top, width=until - begin, height=bottom - top, class_="hit")
                )
        hits = areas.pop("hit", [])
        for name, paths in areas.items():
            if paths:
                self.parts.append(tag("path", title(f"{name} pages of zone {zone.number}"), d=" ".join(paths), class_=name))
        self.parts.append(tag("path", d=outline, class_="total"))
        self.parts.append(tag("path", d=f"M{LEFT} {bottom} H{end:.1f}", class_="axis"))
        self.parts += hits
        self.y += ZONE_ROW

    def draw_legend(self) -> None:
        """Draws what the colours and marks mean."""
        self.parts.append(tag("path", d=f"M0 {self.y} H{WIDTH}", class_="grid"))
        self.y += GAP + 2
        x, kinds = float(LEFT), {bar.kind for bar in self.history.bars}
        items: list[tuple[str, str]] = [("entry", "step"), ("errno", "errno"), ("report", "report")]
        if self.is_narrow:
            items[0] = ("dense", "steps")
        items += [(LOADED, "loaded")] if LOADED in kinds else []
        if any(bar.lent for bar in self.history.bars):
            items += [("read", "lent to read (above)"), ("write", "lent to write (below)")]
        items += [("stuck", "script is stuck")] if self.history.stuck else []
        items += [(WAITING, "waits")] if WAITING in kinds else []
        items += [(RETURNING, "gives pages back")] if RETURNING in kinds else []
        items += [("arrow", "release that made a callback ready")] if self.history.called_back else []
        if self.history.zones:
            items += [("active", "pages: active"), ("reserved", "reserved"), ("free", "free"), ("total", "total")]
        for class_, words in items:
            width = 24 + 6.1 * len(words)
            if x + width > WIDTH - RIGHT:
                x, self.y = float(LEFT), self.y + 18
            self.parts.append(sample(class_, x, self.y - 4))
            self.parts.append(text(x + 16, self.y, words, "small"))
            x += width + 6
        self.y += 6

    def words_left_out(self) -> list[str]:
        """Returns what the picture leaves out."""
        return [f"{what}: {count:,}" for what, count in self.left_out.items() if count > 0]


def by_number(name: str) -> list[tuple[int, str]]:
    """Returns what names are sorted by: `m2` comes before `m10`."""
    return [(int(part), "") if part.isdigit() else (-1, part) for part in re.split("([0-9]+)", name)]


def sample(class_: str, x: float, y: float) -> str:
    """Returns the mark of a legend."""
    if class_ == "report":
        return tag("path", d=f"M{x + 5:.1f} {y - 5:.1f} l5 5 l-5 5 l-5 -5 z", class_=class_)
    if class_ == "entry":
        return tag("circle", cx=x + 5, cy=y, r=3.5, class_=class_)
    if class_ in ("arrow", "total", "stuck"):
        return tag("path", d=f"M{x:.1f} {y:.1f} h12", class_=class_)
    return tag("rect", x=x, y=y - 4, width=11, height=8, class_=class_)


def thinned(counts: list[Counts], chart: Chart) -> list[Counts]:
    """Returns the last counts of each pixel."""
    by_pixel = {int(chart.x(each.entry + 0.5)): each for each in counts}
    return list(by_pixel.values())
