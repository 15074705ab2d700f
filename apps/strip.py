"""The strip of a label: its readings as dots, its filtered phase as a line, silent wakes as gaps
and in a lane of their own.

Paths are in wakes and ticks, as the figures have them; a transform lays them into the strip. A tick
is drawn where the label is as it goes on over zero, so that the line never falls through the whole
cycle; the axis tells ticks of the cycle.
"""
from __future__ import annotations

from itertools import groupby
from typing import Callable, Iterable, Iterator, NamedTuple

from drawing import joined, marks, nice, number, path, svg, text
from figures import Bench, Label, Trace, words_of

# The strip, in its own units: the drawing's width and margins, what a cycle is high, and the most
# height.
WIDTH, LEFT, RIGHT, TOP, BOTTOM = 1000, 60, 12, 18, 44
CYCLE_HEIGHT, MOST = 120, 360

# What is narrower cannot be seen.
NARROWEST = 1.5

# Below the axis lies the lane of silent wakes. Where they are too narrow it has bars, so far apart
# and so high at most.
LANE, BAR_APART, BAR = 14, 2, 9

# Marks of an axis are so far apart at least.
APART, APART_WAKES = 22, 70

# How many bins of wakes a page is drawn in, and a strip at least and at most.
BINS, FEWEST, FINEST = 200_000, 150, 2_000


def bins_of(bench: Bench) -> int:
    """How many bins a strip's wakes are drawn in: as many as there are wakes, if the page can have
    so many."""
    return min(bench.wakes, max(FEWEST, min(FINEST, BINS // bench.labels)))


class Frame(NamedTuple):
    """Where a strip has its ticks and wakes: from `low` to `high` on the unrolled axis, so many
    units for each tick and each wake."""

    low: float
    high: float
    tick: float
    wake: float

    def y(self, at: float) -> float:
        """The height of an unrolled tick."""
        return TOP + (self.high - at) * self.tick

    def x(self, wake: float) -> float:
        """The place of a wake's middle."""
        return LEFT + (wake + 0.5) * self.wake

    @property
    def bottom(self) -> float:
        """The height of the axis of wakes."""
        return self.y(self.low)

    @property
    def placed(self) -> str:
        """The transform of paths in wakes and ticks."""
        return f"matrix({self.wake:.6g} 0 0 {-self.tick:.6g} {self.x(0):.6g} {self.y(0):.6g})"


def frame_of(bench: Bench, trace: Trace) -> Frame:
    """A strip has half a cycle at least. All have the same scale, but for those that would be too
    high."""
    drawn = [at for at in (*trace.unrolled, *trace.placed) if at is not None] or [0]
    wider = max(0.0, bench.cycle / 2 - (max(drawn) + 1 - min(drawn))) / 2
    low, high = min(drawn) - 0.5 - wider, max(drawn) + 0.5 + wider
    height = min(MOST, (high - low) * CYCLE_HEIGHT / bench.cycle)
    return Frame(low, high, height / (high - low), (WIDTH - LEFT - RIGHT) / bench.wakes)


# What is drawn of the wakes. A dot is a line that is short, and not of no length, which is not
# printed.
DOT = "h.01"


def _bin(bench: Bench) -> Callable[[int], int]:
    """The bin that a wake is drawn in."""
    bins, wakes = bins_of(bench), bench.wakes
    return lambda wake: wake * bins // wakes


def _line_wakes(bench: Bench, trace: Trace, tick: float) -> Iterator[list[int]]:
    """The wakes of each bin that the line goes through: the first and last, and where it is lowest
    and highest if that can be told from them."""
    at = trace.unrolled.__getitem__
    heard = (wake for wake, phase in enumerate(trace.unrolled) if phase is not None)
    for _, some in groupby(heard, _bin(bench)):
        each = list(some)
        kept = {round(at(wake) * tick): wake for wake in (max(each, key=at), min(each, key=at))}
        for end in (each[0], each[-1]):
            kept.pop(round(at(end) * tick), None)
        yield sorted({each[0], each[-1], *kept.values()})


def _runs(bench: Bench, trace: Trace, tick: float) -> Iterator[list[int]]:
    """The wakes that the line goes through without a break. It is broken where a whole bin is
    silent."""
    run: list[int] = []
    bin_of = _bin(bench)
    for some in _line_wakes(bench, trace, tick):
        if run and bin_of(some[0]) - bin_of(run[-1]) > 1:
            yield run
            run = []
        run += some
    if run:
        yield run


def line_of(bench: Bench, trace: Trace, tick: float) -> str:
    """The line of the filtered phase, without the points between two of the same height."""
    words, at = [], trace.unrolled.__getitem__
    for run in _runs(bench, trace, tick):
        bends = [
            wake
            for before, wake, after in zip(run, run[1:], run[2:])
            if not at(before) == at(wake) == at(after)
        ]
        points = [run[0], *bends, run[-1]] if len(run) > 1 else run
        way = "L".join(f"{wake} {at(wake)}" for wake in points)
        words.append(f"M{way}{DOT if len(run) == 1 else ''}")
    return "".join(words)


def dots_of(bench: Bench, trace: Trace, which: Iterable[int], tick: float) -> str:
    """The readings of some wakes as dots, one for all that would lie on each other."""
    words, seen, bin_of = [], set(), _bin(bench)
    for wake in which:
        at = trace.placed[wake]
        spot = bin_of(wake), round(at * tick)
        if spot not in seen:
            seen.add(spot)
            words.append(f"M{wake} {at}{DOT}")
    return "".join(words)


def silence_of(trace: Trace) -> str:
    """The wakes that were not heard, as strokes from the first to the last of some that follow each
    other."""
    silent = (wake for wake, at in enumerate(trace.placed) if at is None)
    runs = (list(run) for _, run in groupby(enumerate(silent), lambda pair: pair[1] - pair[0]))
    return "".join(f"M{number(run[0][1] - 0.5)} 0H{number(run[-1][1] + 0.5)}" for run in runs)


def shares_of(trace: Trace, bars: int) -> str:
    """How many of the wakes of each bar were not heard, where single ones are too narrow: a bar is
    the higher the more they are."""
    words, wakes = [], len(trace.placed)
    for bar in range(bars):
        first, end = bar * wakes // bars, (bar + 1) * wakes // bars
        silent = trace.placed[first:end].count(None)
        if silent:
            middle, height = (first + end - 1) / 2, max(1, BAR * silent / (end - first))
            words.append(f"M{number(middle)} 0v{number(-height)}")
    return "".join(words)


def _silence(trace: Trace, frame: Frame) -> str:
    if frame.wake >= NARROWEST:
        return path("silent", silence_of(trace))
    return path("silent share", shares_of(trace, (WIDTH - LEFT - RIGHT) // BAR_APART))


# The frame.


def _tick_marks(bench: Bench, frame: Frame) -> Iterator[int]:
    """The unrolled ticks that are marked."""
    cycle, least = bench.cycle, APART / frame.tick
    ticks, turns = marks(cycle, (4, 5, 3, 6, 2), least), max(1, -(-int(least) // cycle))
    for turn in range(int(frame.low // cycle), int(frame.high // cycle) + 1):
        yield from (
            turn * cycle + tick
            for tick in ticks
            if turn % turns == 0 and frame.low <= turn * cycle + tick <= frame.high
        )


def _tick_axis(bench: Bench, frame: Frame) -> Iterator[str]:
    """Ticks of the cycle; of several zeros each says of which turn it is."""
    shown = list(_tick_marks(bench, frame))
    zeros = [at for at in shown if at % bench.cycle == 0]
    for at in shown:
        y, is_zero = frame.y(at), at % bench.cycle == 0
        yield path("zero" if is_zero else "grid", f"M{LEFT} {number(y)}H{WIDTH - RIGHT}")
        turn = f"turn {at // bench.cycle}: " if is_zero and len(zeros) > 1 else ""
        yield text(LEFT - 6, y + 3.5, f"{turn}{at % bench.cycle}", "mark right")
    yield text(LEFT - 6, TOP - 9, "tick", "mark right unit")


def _wake_axis(bench: Bench, frame: Frame) -> Iterator[str]:
    """Wakes, and the lane of the silent ones."""
    every = nice(APART_WAKES / frame.wake)
    for wake in range(0, bench.wakes, every):
        x = frame.x(wake)
        yield path("zero", f"M{number(x)} {number(frame.bottom + LANE + 6)}v4")
        yield text(x, frame.bottom + LANE + 20, wake, "mark middle")
    yield path("grid", f"M{LEFT} {number(frame.bottom + LANE)}H{WIDTH - RIGHT}")
    yield text(LEFT - 6, frame.bottom + LANE + 3.5, "silent", "mark right unit")
    yield text(LEFT - 10, frame.bottom + LANE + 20, "wake", "mark right unit")


def _slots(bench: Bench, frame: Frame) -> Iterator[str]:
    """The listening slot, as often as the strip goes around, and never too narrow to be seen."""
    if bench.limits.slot is None:
        return
    start, width = bench.limits.slot
    half = max(0.5, NARROWEST / 2 / frame.tick)
    for turn in range(int(frame.low // bench.cycle) - 1, int(frame.high // bench.cycle) + 1):
        first = turn * bench.cycle + start
        low, high = max(frame.low, first - half), min(frame.high, first + width + half)
        if low < high:
            size = f'width="{bench.wakes}" height="{number(high - low)}"'
            yield f'<rect class="slot" x="-0.5" y="{number(low)}" {size}/>'


def strip(bench: Bench, label: Label, trace: Trace) -> str:
    """The drawing of a label."""
    frame = frame_of(bench, trace)
    near = (
        wake for wake, at in enumerate(trace.placed) if at is not None and wake not in trace.thrown
    )
    lane = f"matrix({frame.wake:.6g} 0 0 1 {frame.x(0):.6g} {number(frame.bottom + LANE - 3)})"
    return joined([
        svg("strip", f"0 0 {WIDTH} {number(frame.bottom + BOTTOM)}", words_of(label)),
        f'<g transform="{frame.placed}">', *_slots(bench, frame), "</g>",
        *_tick_axis(bench, frame), *_wake_axis(bench, frame),
        f'<g transform="{frame.placed}">',
        path("near", dots_of(bench, trace, near, frame.tick)),
        path("thrown", dots_of(bench, trace, sorted(trace.thrown), frame.tick)),
        path("line", line_of(bench, trace, frame.tick)),
        "</g>",
        f'<g transform="{lane}">',
        _silence(trace, frame),
        "</g>", "</svg>",
    ])
