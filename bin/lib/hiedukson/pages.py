"""An index as pages that open from disk.

    Site(entries, version)      an index's entries in the order of its table, and what gave the verdicts
    site.start()                the table of all cards, and what all pages share: bytes by path
    site.card(place, report)    path and bytes of a card's page; `report` is None where it has an error
    is_index(folder)            whether a folder is such an index

Everything that comes from a card is escaped; the pages load nothing from elsewhere.
"""

import os
import posixpath
from html import escape
from urllib.parse import quote

from . import card as cards
from . import drawing, refusals, reports, tables
from .command import printable
from .words import count

GENERATOR = "Hiedukson cards"
START = "index.html"
STYLE = "style.css"
SCRIPT = "index.js"
FOLDER = "cards"
# A larger tree is drawn as text: a picture of it would help nobody.
MOST_DRAWN = 120
# Of a longer card only the requests that say something are shown, and at most so many of those, and not the text.
LONGEST = 300
MOST_SHOWN = 1000
MOST_TEXT = 100_000

_WEB = os.path.join(os.path.dirname(__file__), "web")
_HEADS = ("Card", "Library", "Verdict", "Reason", "Filed")


class Site:
    def __init__(self, entries, version):
        self.entries = entries
        self.version = version
        self.names = _names(entries)

    def start(self):
        files = {name: _asset(name) for name in (STYLE, SCRIPT)}
        files[START] = _encoded(_index(self.entries, self.names, self.version))
        return files

    def card(self, place, report):
        entry = self.entries[place]
        before = self.entries[place - 1] if place else None
        after = self.entries[place + 1] if place + 1 < len(self.entries) else None
        page = _card(entry, report, self.names, (before, after), self.version)
        return _page_of(self.names[entry.path]), _encoded(page)


def is_index(folder):
    """Whether the start page of a folder was written by this module."""
    try:
        with open(os.path.join(folder, START), "rb") as file:
            return f'<meta name="generator" content="{GENERATOR}">'.encode() in file.read(1000)
    except OSError:
        return False


def _names(entries):
    """What each card is called in the index: its path below the folder that has them all."""
    whole = {entry.path: os.path.abspath(entry.path) for entry in entries}
    common = os.path.commonpath([os.path.dirname(path) for path in whole.values()])
    return {path: os.path.relpath(absolute, common).replace(os.sep, "/") for path, absolute in whole.items()}


def _page_of(name):
    return posixpath.join(FOLDER, name + ".html")


def _link(name):
    """The address of a card's page, from the index's folder."""
    return quote(_page_of(name), errors="surrogateescape")


def _asset(name):
    with open(os.path.join(_WEB, name), "rb") as file:
        return file.read()


def _encoded(page):
    return page.encode("utf-8", "replace")


# ---- what all pages share


def _page(title, body, root, version, script=""):
    """A whole page; `root` leads from it to the index's folder."""
    return f"""<!doctype html>
<html lang="en">
<head>
<meta charset="utf-8">
<meta name="viewport" content="width=device-width, initial-scale=1">
<meta name="generator" content="{GENERATOR}">
<title>{_text(title)}</title>
<link rel="stylesheet" href="{root}{STYLE}">
</head>
<body>
{body}
<footer class="quiet">The verdicts are those of the proved program: {_text(', '.join(version))}.</footer>
{script}</body>
</html>
"""


def _text(text):
    return escape(printable(text))


def _title(entry, names):
    return entry.said.title or names[entry.path]


def _library(entry):
    return f"{entry.said.library} {entry.said.version}".strip()


def _verdict_badge(entry):
    if entry.verdict is None:
        return '<span class="badge error">not judged</span>'
    kind = "refused" if entry.verdict.refusal else "accepted"
    return f'<span class="badge {kind}">{entry.verdict}</span>'


def _state_badge(entry):
    return f'<span class="badge {entry.state.replace(" ", "-")}">{entry.state}</span>'


# ---- the table of all cards


def _index(entries, names, version):
    heads = "".join(f'<th scope="col"><button type="button">{head}</button></th>' for head in _HEADS)
    rows = "\n".join(_row(entry, names) for entry in entries)
    body = f"""<h1>Cards</h1>
<p class="quiet">{_text(tables.counted(entries))}</p>
{_tools(entries)}
<table class="index">
<thead><tr>{heads}</tr></thead>
<tbody>
{rows}
</tbody>
</table>"""
    return _page("Cards", body, "", version, f'<script src="{SCRIPT}"></script>\n')


def _tools(entries):
    """What filters and sorts the table; it is shown by the script that does it."""
    met = sorted({entry.verdict.refusal for entry in entries if entry.verdict and entry.verdict.refusal})
    verdicts = [("", "all"), ("0", "accepted"), ("refused", "refused")]
    verdicts += [(str(refusal), f"{refusal}: {refusals.name(refusal)}") for refusal in met]
    states = [("", "all")] + [(state, state) for state in dict.fromkeys(entry.state for entry in entries)]
    columns = [(str(place), head.lower()) for place, head in enumerate(_HEADS)]
    return f"""<form class="tools" hidden onsubmit="return false">
<label class="grow">Search <input id="search" type="search" placeholder="title, library, reason"></label>
<label>Verdict <select id="verdict">{_options(verdicts)}</select></label>
<label>Filed <select id="state">{_options(states)}</select></label>
<label class="sort-by">Sort by <select id="sort-by">{_options(columns)}</select></label>
<span id="shown" class="quiet" aria-live="polite"></span>
</form>"""


def _options(pairs):
    return "".join(f'<option value="{escape(value)}">{_text(shown)}</option>' for value, shown in pairs)


def _row(entry, names):
    name = names[entry.path]
    refusal = "" if entry.verdict is None else str(entry.verdict.refusal)
    note = f' <span class="quiet">{_text(entry.note)}</span>' if entry.note else ""
    return (
        f'<tr data-refusal="{refusal}" data-state="{entry.state}">'
        f'<td><a href="{_link(name)}">{_text(_title(entry, names))}</a>'
        f"{_file(entry, name)}</td>"
        f"<td>{_text(_library(entry))}</td>"
        f'<td data-key="{refusal}">{_verdict_badge(entry)}</td>'
        f'<td class="reason" data-key="{refusal}">{_text(entry.reason)}</td>'
        f"<td>{_state_badge(entry)}{note}</td></tr>"
    )


def _file(entry, name):
    """The card's name, where its title stands above it."""
    return f'<span class="file quiet">{_text(name)}</span>' if entry.said.title else ""


# ---- a card


def _card(entry, report, names, around, version):
    root = "../" * (names[entry.path].count("/") + 1)
    facts = [fact for fact in (_file(entry, names[entry.path]), _text(_library(entry))) if fact]
    about = f'<p class="quiet">{" ".join(facts)}</p>' if facts else ""
    title = _title(entry, names)
    body = f"""<p><a href="{root}{START}">All cards</a></p>
<h1>{_text(title)}</h1>
{about}
<p>{_verdict_badge(entry)} {_text(entry.reason)} {_state_badge(entry)} <span class="quiet">{_text(entry.note)}</span></p>
{_told(entry, report) if report else ''}
{_ways(around, names, root)}"""
    return _page(title, body, root, version)


def _told(entry, report):
    parts = [_why(report), _requests(report), _trees(report), _source(entry)]
    return "\n".join(part for part in parts if part)


def _why(report):
    explanation = report.explanation
    if explanation is None:
        return ""
    met = f"<p>Met: <strong>{_text(explanation.met)}</strong></p>" if explanation.met else ""
    facts = "".join(f"<p>{_text(fact)}</p>" for fact in explanation.facts)
    return f"""<h2>Why request {explanation.index} is refused</h2>
<div class="why">
{met}{_events(explanation)}{facts}
<p><strong>Rule.</strong> {_text(explanation.rule)}</p>
<p><strong>Advice.</strong> {_text(explanation.advice)}</p>
</div>"""


def _events(explanation):
    if not explanation.events:
        return ""
    rows = "".join(
        f'<tr><td>{_text(event.what)}</td><td class="number"><a href="#r{event.index}">#{event.index}</a></td>'
        f"<td><code>{_text(event.said)}</code></td></tr>"
        for event in explanation.events
    )
    return f"<table>{rows}</table>"


def _requests(report):
    if not report.entries:
        return "<h2>Requests</h2><p>The card has none.</p>"
    rows = []
    last = -1
    for entry in _shown(report):
        rows += [_not_shown(entry.index - last - 1)] * (entry.index > last + 1)
        rows.append(_request(entry, report.is_refused_at(entry.index)))
        last = entry.index
    rows += [_not_shown(len(report.entries) - last - 1)] * (last + 1 < len(report.entries))
    rows += [_remark(reports.not_performed(report.left))] * (report.left > 0)
    table = "\n".join(rows)
    return f'<h2>Requests</h2>\n<table class="requests">\n{table}\n</table>'


def _shown(report):
    """The requests that a page shows: all of a short card; of a longer one those that changed a permission, the refused
    one, and those that its explanation names."""
    if len(report.entries) <= LONGEST:
        return report.entries
    explanation = report.explanation
    named = {explanation.index, *(event.index for event in explanation.events)} if explanation else set()
    changed = [entry.index for entry in report.entries if entry.changes]
    return [report.entries[place] for place in sorted(named.union(changed[:MOST_SHOWN]))]


def _not_shown(number):
    return _remark(f"{count(number, 'request')} not shown")


def _remark(text):
    return f'<tr><td></td><td class="quiet">{_text(text)}</td><td></td></tr>'


def _request(entry, is_refused):
    line = "" if entry.line is None else f"line {entry.line}"
    told = [entry.answer] * bool(entry.answer) + list(entry.changes)
    below = "".join(f"<li>{_text(each)}</li>" for each in told)
    mark = ' class="is-refused"' if is_refused else ""
    return (
        f'<tr id="r{entry.index}"{mark}><td class="number"><a href="#r{entry.index}">#{entry.index}</a></td>'
        f"<td><code>{_text(entry.said)}</code>{f'<ul>{below}</ul>' if below else ''}</td>"
        f'<td class="number quiet">{line}</td></tr>'
    )


def _trees(report):
    last = len(report.entries) - 1
    allocations = report.memory_after(last).allocations
    if not allocations:
        return ""
    drawn = _pictures(report, last, allocations)
    if drawn is None:
        text = "\n".join(reports.tree_lines(report, last))
        drawn = f"<pre>{escape(text)}</pre>"
    when = "before the refused request" if report.explanation else "at the end"
    width = reports.width_line(report, last)
    about = f'<p class="quiet">{_text(width)}</p>\n' if width else ""
    return f'<h2>The trees {when}</h2>\n{about}<div class="trees">{drawn}</div>'


def _pictures(report, place, allocations):
    """The trees drawn, or None where they are too large, or there is nothing to draw them."""
    if sum(len(allocation.nodes) for allocation in allocations) > MOST_DRAWN:
        return None
    marked = report.spot_at(place)
    names = report.names.at(place)
    drawn = drawing.svgs([drawing.dot([allocation], names, marked) for allocation in allocations])
    return drawn and "".join(f'<div class="tree">{each}</div>' for each in drawn)


def _source(entry):
    if entry.card.form == cards.BYTES:
        return f'<p class="quiet">The card is bytes: {count(len(entry.card.data), "byte")}.</p>'
    if len(entry.card.data) > MOST_TEXT:
        return f'<p class="quiet">The card is too long to be shown here: {count(len(entry.card.data), "byte")}.</p>'
    text = entry.card.data.decode("utf-8", "replace")
    return f"<h2>The card</h2>\n<pre>{escape(text)}</pre>"


def _ways(around, names, root):
    before, after = (
        "<span></span>" if entry is None else f'<a href="{root}{_link(names[entry.path])}">{arrow}</a>'
        for entry, arrow in zip(around, ("Previous card", "Next card"))
    )
    return f'<nav class="ways">{before}{after}</nav>'
