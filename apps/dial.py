"""The dial of a rack: the first and the last filtered phase of each label as hands, its drift as an
arc on a ring of its own.

Tick 0 is at the top and the cycle goes around clockwise. An arc of more than a turn winds outward;
of many turns what is left of the last one is drawn, and their number told.
"""
from __future__ import annotations

import html
import math
from typing import Iterator, NamedTuple

from drawing import joined, marks, number, path, svg, text
from figures import Bench, Label, words_of

# Radii: of the rim, of the marks' words, of the outermost and innermost ring, and where hands
# begin.
RIM, WORDS, OUTER, INNER, HUB = 180, 190, 168, 52, 14
SIDE = 2 * (WORDS + 34)

# How many labels are drawn at most, and how wide a letter and how high a line of their numbers is.
MOST, LETTER, LINE = 48, 7, 12

# An arc has so many lines for a turn; one of more turns than that is not drawn whole.
SMOOTH, MOST_TURNS = 72, 3


def _at(turn: float, radius: float) -> tuple[float, float]:
    """The point at a part of the turn and a radius."""
    return radius * math.sin(2 * math.pi * turn), -radius * math.cos(2 * math.pi * turn)


def _point(turn: float, radius: float) -> str:
    return " ".join(map(number, _at(turn, radius)))


# The face.


def _slot(bench: Bench) -> str:
    """The listening slot as a sector, half a tick wider at both ends, and wide enough to be
    seen."""
    if bench.limits.slot is None:
        return ""
    start, width = bench.limits.slot
    if width + 1 >= bench.cycle:
        return f'<circle class="slot" r="{RIM}"/>'
    half = max(0.5, bench.cycle / 720)
    begin, end = (start - half) / bench.cycle, (start + width + half) / bench.cycle
    is_large = int(end - begin > 0.5)
    return path(
        "slot", f"M0 0L{_point(begin, RIM)}A{RIM} {RIM} 0 {is_large} 1 {_point(end, RIM)}Z",
        "the listening slot",
    )


def _face(bench: Bench) -> Iterator[str]:
    """The rim with its marks; words at the sides begin or end there."""
    yield f'<circle class="rim" r="{RIM}"/>'
    for tick in marks(bench.cycle, (12, 8, 10, 9, 6, 7, 5, 4), bench.cycle / 12):
        turn = tick / bench.cycle
        x, y = _at(turn, WORDS)
        side = "middle" if abs(x) < WORDS / 4 else "left" if x > 0 else "right"
        yield path("grid", f"M{_point(turn, RIM - 5)}L{_point(turn, RIM)}")
        yield text(x, y + 4, tick, f"mark {side}")
    yield text(0, -WORDS - 14, "tick", "mark middle unit")


# The labels.


class Ring(NamedTuple):
    """A label with its radii, at its first phase and at its last, which are one but for an arc that
    winds, and what an arc is wide."""

    label: Label
    begin: float
    end: float
    wide: float


def drawn_of(labels: list[Label]) -> list[Label]:
    """The labels that the dial has, of those of which something was heard: all, or the ones that
    drift most."""
    heard = [label for label in labels if label.first is not None]
    most = sorted(heard, key=lambda label: -abs(label.drift))[:MOST]
    return sorted(most, key=lambda label: label.number)


def _turns(cycle: int, label: Label) -> float:
    """The turns of a label's arc: those of its drift, or where they are many what is left of the
    last one."""
    turns = label.drift / cycle
    return turns if abs(turns) <= MOST_TURNS else math.fmod(label.drift, cycle) / cycle


def _ring(cycle: int, label: Label, radius: float, gap: float) -> Ring:
    winds = gap * 0.35 if abs(_turns(cycle, label)) > 1 else 0
    return Ring(label, radius - winds, radius + winds, min(3, gap * 0.6))


def _arc(cycle: int, ring: Ring) -> str:
    """The way from the first to the last phase."""
    turns = _turns(cycle, ring.label)
    n = math.ceil(abs(turns) * SMOOTH)
    if n == 0:
        return ""
    begin, away = ring.label.first / cycle, ring.end - ring.begin
    points = (_point(begin + turns * i / n, ring.begin + away * i / n) for i in range(n + 1))
    return f'<path class="arc" d="M{"L".join(points)}" stroke-width="{number(ring.wide)}"/>'


def _hands(cycle: int, ring: Ring) -> Iterator[str]:
    """A label: both hands, the arc, and at the last phase a point."""
    label = ring.label
    yield f'<g class="hands {way_of(label)}"><title>{html.escape(words_of(label))}</title>'
    for kind, phase, radius in (("first", label.first, ring.begin), ("last", label.last, ring.end)):
        turn = f"rotate({360 * phase / cycle:.10g})"
        yield f'<path class="{kind}" d="M0 {-HUB}V{number(-radius)}" transform="{turn}"/>'
    yield _arc(cycle, ring)
    x, y = _at(label.last / cycle, ring.end)
    yield f'<circle class="end" cx="{number(x)}" cy="{number(y)}" r="2.4"/></g>'


class Words(NamedTuple):
    """Words at a place."""

    x: float
    y: float
    words: str

    def is_on(self, other: Words) -> bool:
        """Whether both would lie on each other."""
        wide = (len(self.words) + len(other.words)) * LETTER / 2
        return abs(self.x - other.x) < wide and abs(self.y - other.y) < LINE


def _number(cycle: int, ring: Ring) -> Words:
    """A label's number beyond its last hand, with the turns where the arc has not all of them."""
    turns = int(ring.label.drift / cycle)
    words = str(ring.label.number)
    if abs(ring.label.drift) > MOST_TURNS * cycle:
        words += f": {turns:+d} turns"
    return Words(*_at(ring.label.last / cycle, ring.end + 9), words)


def _numbers(cycle: int, rings: list[Ring]) -> Iterator[str]:
    """The numbers of labels, those that drift first, where none lies before."""
    taken: list[Words] = []
    for ring in sorted(rings, key=lambda ring: not ring.label.drifts):
        each = _number(cycle, ring)
        if not any(each.is_on(other) for other in taken):
            taken.append(each)
            yield text(each.x, each.y + 3.5, each.words, "mark middle number")


def way_of(label: Label) -> str:
    """Where a label drifts, as the page marks it."""
    if not label.drifts:
        return "steady"
    return "ahead" if label.drift > 0 else "back"


def dial(bench: Bench, labels: list[Label]) -> str:
    """The dial of a rack, a ring to each label, those that drift on top."""
    drawn = drawn_of(labels)
    gap = (OUTER - INNER) / max(1, len(drawn))
    rings = [
        _ring(bench.cycle, label, OUTER - gap * (k + 0.5), gap) for k, label in enumerate(drawn)
    ]
    on_top = sorted(rings, key=lambda ring: ring.label.drifts)
    return joined([
        svg(
            "dial", f"{-SIDE // 2} {-SIDE // 2} {SIDE} {SIDE}",
            f"the dial of the rack, {len(drawn)} of {len(labels)} labels",
        ),
        _slot(bench), *_face(bench),
        *(part for ring in on_top for part in _hands(bench.cycle, ring)),
        *_numbers(bench.cycle, rings), '<circle class="hub" r="3"/>', "</svg>",
    ])
