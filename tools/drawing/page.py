"""The page of a run: its picture, its reports with what they mean, its journal, and what it leaves out."""

from __future__ import annotations

from collections.abc import Iterable
from html import escape

from model.answers import Entry, Refused, Report

from .chart import Chart, line_of, tag
from .history import WAITING, History
from .meaning import meaning_of

WINDOW = 100
MOST_WINDOWS, MOST_REPORTS, MOST_LINES = 10, 200, 6000
UNPROVED = (
    "What this page shows is the reading of the independent model in model/. It is tested against the program, and it is "
    "not proved."
)

STYLE = """
:root { color-scheme: light dark; --ground: #ffffff; --fg: #1b1f24; --dim: #59636e; --line: #d1d9e0; --report: #cf222e;
  --mark: #fff3c4; --link: #0550ae; }
@media (prefers-color-scheme: dark) { :root { --ground: #0d1117; --fg: #e6edf3; --dim: #9aa4af; --line: #3d444d;
  --report: #ff7b72; --mark: #3d3212; --link: #79b8ff; } }
* { box-sizing: border-box; } html { scroll-padding-top: 9rem; }
body { margin: 0; padding: 1rem 1.25rem 3rem; background: var(--ground); color: var(--fg);
  font: 15px/1.5 system-ui, "DejaVu Sans", Arial, sans-serif; }
h1 { font-size: 1.35rem; margin: 0 0 .25rem; overflow-wrap: anywhere; } h2 { font-size: 1.1rem; margin: 1.5rem 0 .5rem; }
h3 { font-size: .95rem; margin: 1.25rem 0 .25rem; } p, ul { margin: .25rem 0 .75rem; max-width: 60rem; }
a { color: var(--link); } a:focus-visible, [tabindex]:focus-visible { outline: 2px solid var(--link); outline-offset: 1px; }
.dim { color: var(--dim); } code, .journal { font: 13px/1.55 ui-monospace, "DejaVu Sans Mono", monospace; }
.picture { overflow-x: auto; border: 1px solid var(--line); border-radius: 4px; }
.picture svg { display: block; width: 100%; min-width: 820px; height: auto; }
.journal { border: 1px solid var(--line); border-radius: 4px; padding: .5rem 0; overflow: auto; max-height: 70vh; }
.journal div { padding: 0 .75rem; white-space: pre; } .journal a { text-decoration: none; display: inline-block; }
.journal a:hover { text-decoration: underline; }
.journal .report { color: var(--report); font-weight: 600; } .journal .gap { color: var(--dim); font-style: italic; }
:target { background: var(--mark); outline: 1px solid var(--report); }
.reports { padding-left: 1.25rem; } .reports > li { margin-bottom: .75rem; } .reports code:first-child { color: var(--report); }
.skip a { margin-right: 1rem; }
@media (min-width: 1200px) {
  main { display: grid; grid-template-columns: minmax(0, 1fr) 25rem; column-gap: 1.5rem; align-items: start; }
  .side { position: sticky; top: .5rem; grid-column: 2; grid-row: 1; } .side h2 { margin-top: 0; }
  .side .journal { max-height: calc(100vh - 4rem); } .middle { grid-column: 1; min-width: 0; } .middle > h2:first-child { margin-top: 0; }
}
@media print {
  :root { --ground: #ffffff; --fg: #000000; --dim: #444444; --line: #bbbbbb; --report: #a40e26; --link: #000000; }
  body { padding: 0; font-size: 10pt; } main { display: block; } .skip { display: none; }
  .side { position: static; } .journal, .side .journal { max-height: none; overflow: visible; border: 0; font-size: 8pt; }
  .journal div { white-space: pre-wrap; overflow-wrap: anywhere; } .picture { border: 0; overflow: visible; }
  .picture svg { min-width: 0; } svg, .reports > li { break-inside: avoid; } h2, h3 { break-after: avoid; } a { text-decoration: none; }
}
"""


def charts_of(history: History, asked: tuple[int, int] | None) -> list[Chart]:
    """Returns the pictures of a page: the whole run, and windows of a long one."""
    last = max(0, len(history.entries) - 1)
    if asked is not None:
        return [Chart(history, *asked)]
    whole = Chart(history, 0, last)
    if not whole.is_narrow:
        return [whole]
    return [whole, *(Chart(history, begin, min(begin + WINDOW - 1, last)) for begin in windows_of(history))]


def windows_of(history: History) -> list[int]:
    """Returns where the windows of a long run begin: all of a run that is not very long, else those that matter."""
    count = -(-len(history.entries) // WINDOW)
    if count <= MOST_WINDOWS:
        return [WINDOW * number for number in range(count)]
    first_waits = [bar.begin // WINDOW for bar in history.bars if bar.kind == WAITING][:1]
    wanted = [0, count - 1, *first_waits, *(entry.number // WINDOW for entry in history.reports()), *range(count)]
    return sorted(WINDOW * number for number in list(dict.fromkeys(wanted))[:MOST_WINDOWS])


def picture(history: History, name: str, asked: tuple[int, int] | None) -> str:
    """Returns the picture alone, as SVG."""
    chart = charts_of(history, asked)[0]
    chart.explains = False
    return chart.draw(name) + "\n"


def ranges_shown(history: History, charts: list[Chart]) -> list[range]:
    """Returns the lines of the journal that are shown: all, or those of the pictures and about the reports."""
    count = len(history.entries)
    if count <= MOST_LINES:
        return [range(count)]
    wanted = [range(chart.first, chart.last + 1) for chart in charts if not chart.is_narrow]
    room = MOST_LINES - sum(map(len, wanted))
    around = [range(max(0, e.number - 5), min(count, e.number + 6)) for e in history.reports()[: room // 11]]
    merged: list[range] = []
    for each in sorted([*wanted, *around], key=lambda it: it.start):
        if merged and each.start <= merged[-1].stop:
            merged[-1] = range(merged[-1].start, max(each.stop, merged[-1].stop))
        else:
            merged.append(each)
    return merged


def journal_lines(history: History, shown: list[range], drawn: set[int]) -> Iterable[str]:
    """Returns the lines of the journal, each with the anchor of its entry."""
    before = 0
    for each in shown:
        if each.start > before:
            yield tag("div", f"the lines of the entries {before:,} to {each.start - 1:,} are left out", class_="gap")
        for entry in history.entries[each.start : each.stop]:
            yield journal_line(entry, entry.number in drawn)
        before = each.stop
    if before < len(history.entries):
        yield tag("div", f"the lines of the entries {before:,} to {len(history.entries) - 1:,} are left out", class_="gap")
    for line in history.end_lines:
        yield tag("div", escape(line))


def journal_line(entry: Entry, is_drawn: bool) -> str:
    """Returns a line of the journal."""
    line = line_of(entry, 160)
    number, _, rest = line.partition(" ")
    head = tag("a", number, href=f"#p{entry.number}") if is_drawn else number
    class_ = "report" if isinstance(entry.answer, Report) else "errno" if isinstance(entry.answer, Refused) else None
    return tag("div", f"{head} {escape(rest)}", id=f"e{entry.number}", class_=class_, title=entry.path or None)


def reports_list(history: History, visible: set[int]) -> str:
    """Returns the reports with what they mean and what to do."""
    reports = history.reports()
    if not reports:
        return tag("p", "There is no report: no mistake in the order of loads, syncs and accesses was met in this run.")
    lines: list[str] = []
    for entry in reports[:MOST_REPORTS]:
        assert isinstance(entry.answer, Report)
        line = tag("code", escape(line_of(entry, 160)))
        if entry.number in visible:
            line = tag("a", line, href=f"#e{entry.number}")
        meaning = meaning_of(entry)
        words = f"<br>{escape(meaning.means)} <b>What to do:</b> {escape(meaning.mend)}" if meaning is not None else ""
        holder = entry.answer.cause.get("holder")
        held = f" The byte is in the load of map <code>{escape(str(holder))}</code>." if holder is not None else ""
        where = f"<br><span class='dim'>{escape(entry.path)}</span>" if entry.path else ""
        lines.append(tag("li", line + where + words + held))
    rest = len(reports) - MOST_REPORTS
    more = tag("p", f"{rest:,} more reports are left out of this list.") if rest > 0 else ""
    return tag("ol", "\n".join(lines), class_="reports") + more


def stuck_lines(history: History) -> str:
    """Returns the scripts that are stuck, in a line each."""
    words = [
        f"Script s{driver} is stuck at <code>{escape(step.done())}</code> ({escape(step.path)}). <code>tools/explain</code> says why."
        for driver, step in history.stuck.items()
    ]
    return "".join(tag("p", line) for line in words)


def sentence(words: str) -> str:
    """Returns words with a capital letter at their begin."""
    return words[:1].upper() + words[1:]


def page(history: History, name: str, asked: tuple[int, int] | None, was_judged: bool) -> str:
    """Returns the whole page."""
    charts = charts_of(history, asked)
    shown = ranges_shown(history, charts)
    visible = {number for each in shown for number in each}
    drawn: set[int] = set()
    pictures: list[str] = []
    left_out: list[str] = []
    for place, chart in enumerate(charts):
        chart.anchors = not (place == 0 and len(charts) > 1)
        chart.lines = visible
        if chart.anchors and not chart.is_narrow:
            drawn.update(range(chart.first, chart.last + 1))
        what = f"entries {chart.first:,} to {chart.last:,}"
        if len(charts) > 1:
            pictures.append(tag("h3", f"The whole run, {what}" if place == 0 else sentence(what)))
        pictures.append(tag("div", chart.draw(name), class_="picture", tabindex=0, role="region", aria_label=f"Picture of {what}"))
        left_out += [f"Of {what}: {'; '.join(words)}." for words in [chart.words_left_out()] if words]
    if len(charts) > 1:
        windows = len(charts) - 1
        of = -(-len(history.entries) // WINDOW)
        if windows < of:
            left_out.append(
                f"{of - windows:,} of {of:,} windows of {WINDOW} entries are not drawn. Drawn are the first and the last, those of "
                f"the first load that waits and of the first reports, and the next ones up to {MOST_WINDOWS}. Draw another part "
                f"with --entries A..B."
            )
    if len(history.entries) > MOST_LINES:
        left_out.append(f"{len(history.entries) - len(visible):,} of {len(history.entries):,} lines of the journal.")
    if any(len(entry.line()) > 161 for entry in history.entries):
        left_out.append("The end of lines of more than 160 characters.")
    source = "a printed journal, which was judged right line by line" if was_judged else "the model's replay of the scenario"
    summary = f"{history.end_lines[-1]}. Drawn from {source}."
    nothing_left_out = tag("p", "Nothing: every entry, bar and page is drawn.")
    return "".join([
        "<!DOCTYPE html>\n<html lang='en'><head><meta charset='utf-8'>",
        "<meta name='viewport' content='width=device-width, initial-scale=1'>",
        tag("title", f"{escape(name)}: a picture of a run"), tag("style", STYLE), "</head>\n<body>",
        tag("h1", f"A run of {escape(name)}"), tag("p", escape(summary)),
        tag("p", UNPROVED, class_="dim"),
        tag("p", "<a href='#reports'>Reports</a> <a href='#left-out'>What is left out</a> <a href='#journal'>Journal</a>", class_="skip"),
        "<main><div class='middle'>", tag("h2", "Picture"),
        tag("p", "Each column is one entry. Hover over a mark or a bar to read about it; click it to go to its line in the journal.", class_="dim"),
        "\n".join(pictures), tag("h2", "Reports", id="reports"), stuck_lines(history), reports_list(history, visible),
        tag("h2", "What is left out", id="left-out"),
        tag("ul", "".join(tag("li", escape(line)) for line in left_out)) if left_out else nothing_left_out,
        "</div><div class='side'>", tag("h2", "Journal", id="journal"),
        tag("div", "\n".join(journal_lines(history, shown, drawn)), class_="journal", tabindex=0, role="region", aria_label="Journal"),
        "</div></main></body></html>\n",
    ])
