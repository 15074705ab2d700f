"""The page of a bench: facts and table at the top with the dial beside them, then a strip for each
label.

It is one file, XML as well as HTML, that needs nothing from elsewhere and has no script.
"""
from __future__ import annotations

import html
import os
from typing import Iterable, Iterator

from circle_median import Refused
from dial import dial, drawn_of, way_of
from drawing import count, joined, spelled, svg
from figures import Bench, Label, Trace
from strip import bins_of, strip

# Above how many labels the table scrolls.
LONG = 24

MARKS = {"steady": "", "ahead": "\u25b2 ahead", "back": "\u25bc back"}
LEAVES = "\u25c6 leaves"

# The swatches of the legends: a class of the style, how it is drawn, and the class of what it
# stands in.
_DOT, _STROKE = "M15 6h.01", "M2 6H28"
STRIP_LEGEND = (
    ("near", _DOT, "strip", "reading"), ("thrown", _DOT, "strip", "thrown reading"),
    ("line", _STROKE, "strip", "filtered phase, going on over zero"),
    ("silent", "M9 6H21", "strip", "silent wake"), ("zero", _STROKE, "strip", "tick 0"),
)
DIAL_LEGEND = (
    ("first", _STROKE, "hands", "first phase"),
    ("last", _STROKE, "hands", "last phase, with the label's number"),
    ("arc", _STROKE, "hands ahead", "drift ahead"), ("arc", _STROKE, "hands back", "drift back"),
)
SLOT_LEGEND = (("slot", "M2 1H28V11H2Z", "strip", "listening slot"),)


def _whole(title: str, parts: Iterator[str]) -> str:
    """A page with its style."""
    here = os.path.dirname(os.path.abspath(__file__))
    with open(os.path.join(here, "page.css"), encoding="utf-8") as file:
        style = file.read()
    lines = [
        "<!DOCTYPE html>",
        '<html xmlns="http://www.w3.org/1999/xhtml" lang="en">', "<head>",
        '<meta charset="utf-8"/>',
        '<meta name="viewport" content="width=device-width, initial-scale=1"/>',
        f"<title>{html.escape(title)}</title>", f"<style>\n{style}</style>", "</head>",
        "<body>", *parts, "</body>", "</html>",
    ]
    return joined(lines) + "\n"


def _option(words: str) -> str:
    return f'<span class="option">({words})</span>'


def _facts(bench: Bench) -> Iterator[str]:
    """What the page calls thrown, drifting and outside, and what it leaves undrawn."""
    limits = bench.limits
    thrown, drift = _option(f"--thrown {limits.thrown}"), _option(f"--drift {limits.drift}")
    far = count(limits.thrown, "tick")
    yield f"<li>thrown: a reading more than {far} from its filtered phase {thrown}</li>"
    yield f"<li>drifting: by more than {count(limits.drift, 'tick')} ahead or back {drift}</li>"
    if limits.slot:
        start, width = limits.slot
        end, wide = (start + width) % bench.cycle, count(width, "tick")
        slot = _option(f"--slot {start},{width}")
        yield f"<li>listening slot: from tick {start} to tick {end}, {wide} wide {slot}</li>"
    bins = bins_of(bench)
    if bins < bench.wakes:
        yield f"<li>strips draw the wakes in {bins:,} groups; every figure counts every wake</li>"


def _marks(label: Label) -> str:
    """What a label does, in words with a sign: not by colour alone."""
    marks = (MARKS[way_of(label)], LEAVES if label.outside else "")
    return ", ".join(
        f'<span class="{kind}">{words}</span>'
        for kind, words in zip((way_of(label), "leaves"), marks)
        if words
    )


def _row(bench: Bench, label: Label) -> str:
    cells = [spelled(label.first), spelled(label.last), label.drift, label.thrown, label.silent]
    if bench.limits.slot:
        cells += [label.outside, spelled(label.first_outside), spelled(label.last_outside)]
    link = f'<th scope="row"><a href="#label-{label.number}">{label.number}</a></th>'
    told = "".join(f"<td>{cell}</td>" for cell in cells)
    marks = f'<td class="mark">{_marks(label)}</td>'
    return f'<tr class="{way_of(label)}" id="row-{label.number}">{link}{told}{marks}</tr>'


def _table(bench: Bench, labels: list[Label]) -> Iterator[str]:
    heads = ["label", "first phase", "last phase", "drift", "thrown wakes", "silent wakes"]
    if bench.limits.slot:
        heads += ["outside slot", "first outside", "last outside"]
    heads.append("marks")
    long = " long" if len(labels) > LONG else ""
    caption = f"phases and drift in ticks; {_drifting(labels)}"
    yield f'<div class="rack{long}"><table><caption>{caption}</caption>'
    yield (
        "<thead><tr>" + "".join(f'<th scope="col">{head}</th>' for head in heads)
        + "</tr></thead><tbody>"
    )
    yield from (_row(bench, label) for label in labels)
    yield "</tbody></table></div>"


def _drifting(labels: list[Label]) -> str:
    """How many labels drift, in words."""
    return f"{sum(label.drifts for label in labels)} of {count(len(labels), 'label')} drifting"


def _legend(entries: Iterable[tuple[str, str, str, str]]) -> Iterator[str]:
    yield '<ul class="legend">'
    for entry, drawn, kind, words in entries:
        yield f'<li>{svg(kind, "0 0 30 12")}<path class="{entry}" d="{drawn}"/></svg>{words}</li>'
    yield "</ul>"


def _left_out(labels: list[Label]) -> Iterator[str]:
    """What a hand's length means, and what the dial does not have."""
    yield '<p class="facts">'
    yield "Each label has a ring of its own, for which its hands are longer or shorter."
    drawn = len(drawn_of(labels))
    if drawn < sum(label.first is not None for label in labels):
        yield f"The dial has the {drawn} labels that drift most."
    yield "Numbers that would overlap are left out.</p>"


def _section(bench: Bench, label: Label, trace: Trace) -> str:
    figures = "never heard"
    if label.first is not None:
        figures = f"{label.first} to {label.last}, drift {label.drift}"
    if abs(label.drift) >= bench.cycle:
        figures += f", {abs(label.drift) / bench.cycle:.1f} turns"
    link = f'<a href="#row-{label.number}">label {label.number}</a>'
    return joined([
        f'<section class="label" id="label-{label.number}">',
        f'<h3>{link} <span class="figures">{figures}</span> {_marks(label)}</h3>',
        f'<div class="wide">{strip(bench, label, trace)}</div>', "</section>",
    ])


def _body(bench: Bench, title: str) -> Iterator[str]:
    labels, strips = [], []
    for label, trace in map(bench.label, range(bench.labels)):
        strips.append(_section(bench, label, trace))
        labels.append(label)
    mask_rows, mask_columns = bench.record.mask
    yield f"<h1>{html.escape(title)}</h1>"
    yield f'<p class="lead">{count(bench.labels, "label")}, {count(bench.wakes, "wake")}, '
    yield f"a cycle of {count(bench.cycle, 'tick')}, a mask of {mask_rows} by {mask_columns}</p>"
    yield from (
        '<ul class="facts">', *_facts(bench), "</ul>", '<div class="top">', *_table(bench, labels),
    )
    slot = SLOT_LEGEND if bench.limits.slot else ()
    yield from (
        '<div class="round">', dial(bench, labels), *_legend(DIAL_LEGEND + slot),
        *_left_out(labels), "</div>", "</div>",
    )
    yield from ("<h2>Label by label</h2>", *_legend(STRIP_LEGEND + slot), *strips)
    yield "<footer>Phases, distances, steps and drift are those of the proved library. First and"
    yield "last phase are those of the first and last wake whose filtered phase is heard. A strip"
    yield "goes on over zero: its axis tells ticks of the cycle.</footer>"


def page(bench: Bench, title: str) -> str:
    """The page of a bench."""
    return _whole(title, _body(bench, title))


def refused_page(refused: Refused, title: str) -> str:
    """The page of a record that is refused. The place is that of SPECIFICATION, "Refusals": a
    reading's index, a byte's offset, or none."""
    place = "-"
    if refused.number >= 9:
        place = f"{'reading' if refused.number == 9 else 'byte'} {refused.place}"
    cells = (("number", refused.number), ("place", place), ("reason", html.escape(refused.reason)))
    return _whole(
        f"{title} is refused",
        iter([
            f"<h1>{html.escape(title)}</h1>", '<p class="lead">The record is refused.</p>',
            '<table class="refused"><tbody>',
            *(
                f'<tr><th scope="row">{head}</th><td class="mark">{cell}</td></tr>'
                for head, cell in cells
            ),
            "</tbody></table>",
        ]),
    )
