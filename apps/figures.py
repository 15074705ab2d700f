"""The figures of a bench record that the page shows, all of them the library's: phases, distances,
steps, slots and drift.

What is decided here is only what the page calls thrown and drifting, by thresholds that it prints.
"""
from __future__ import annotations

from array import array
from functools import lru_cache
from itertools import accumulate
from typing import Callable, NamedTuple, Optional

import circle_median
from circle_median import SILENT
from drawing import spelled

# How many answers of a call on two ticks are kept, so that the same is not asked again and again.
KEPT = 1 << 18


class Limits(NamedTuple):
    """What the page marks: a reading more than `thrown` ticks from its filtered phase, a label that
    drifts by more than `drift` ticks either way, and what leaves the slot of a start and a
    width."""

    thrown: int
    drift: int
    slot: Optional[tuple[int, int]]


def usual_limit(cycle: int) -> int:
    """The limit where none is told: a thirty-sixth of the cycle, rounded up."""
    return -(-cycle // 36)


class Trace(NamedTuple):
    """A row of the record, wake by wake, as it is drawn.

    `unrolled` has the filtered phases with the steps from each to the next added up, so that it
    goes on over zero; None where the phase is silent. `placed` has the readings beside it: the
    unrolled phase and the step from the filtered phase to the reading. `thrown` has the wakes that
    are marked.
    """

    unrolled: list[Optional[int]]
    placed: list[Optional[int]]
    thrown: set[int]


class Label(NamedTuple):
    """What the page tells of a row: `thrown`, `silent` and `outside` count its wakes."""

    number: int
    first: Optional[int]
    last: Optional[int]
    drift: int
    drifts: bool
    thrown: int
    silent: int
    outside: int
    first_outside: Optional[int]
    last_outside: Optional[int]


def words_of(label: Label) -> str:
    """A label's figures in words."""
    first, last = spelled(label.first), spelled(label.last)
    return f"label {label.number}: first {first}, last {last}, drift {label.drift}"


def _ends(some: list[int]) -> tuple[Optional[int], Optional[int]]:
    """The first and the last, if there are any."""
    return (some[0], some[-1]) if some else (None, None)


def _kept(call: Callable[..., int], *before: int) -> Callable[[int, int], int]:
    """A call of the library on two ticks, which is asked once of each two."""
    return lru_cache(KEPT)(lambda a, b: call(*before, a, b))


class Bench:
    """A record that was read and filtered by the library; a Refused if it refuses the record."""

    def __init__(
        self, data: bytes, thrown: Optional[int] = None, drift: Optional[int] = None,
    ) -> None:
        self.record = circle_median.read_record(data)
        self.cycle, (self.labels, self.wakes) = self.record.cycle, self.record.size
        usual = usual_limit(self.cycle)
        self.limits = Limits(
            usual if thrown is None else thrown, usual if drift is None else drift, None,
        )
        self.filtered = circle_median.filter(*self.record)
        self._step = _kept(circle_median.step, self.cycle)

    def listen(self, start: int, width: int) -> None:
        """Marks what leaves a slot; a Refused if the library refuses it."""
        circle_median.slot(self.cycle, 0, start, width)
        self.limits = self.limits._replace(slot=(start, width))
        self._is_inside = lru_cache(KEPT)(
            lambda phase: circle_median.slot(self.cycle, phase, start, width)
        )

    def label(self, number: int) -> tuple[Label, Trace]:
        """The figures of a row and its trace."""
        row = slice(number * self.wakes, (number + 1) * self.wakes)
        raw, filtered = self.record.readings[row], self.filtered[row]
        heard, outside = [phase for phase in filtered if phase != SILENT], self._outside(filtered)
        trace = self._trace(raw, filtered, heard)
        drift = circle_median.drift(self.cycle, filtered)
        return (
            Label(
                number, *_ends(heard), drift, abs(drift) > self.limits.drift, len(trace.thrown),
                raw.count(SILENT), len(outside), *_ends(outside),
            ),
            trace,
        )

    def _trace(self, raw: array[int], filtered: array[int], heard: list[int]) -> Trace:
        unrolled = self._unrolled(filtered, heard)
        placed = self._placed(raw, filtered, unrolled)
        return Trace(unrolled, placed, self._thrown(unrolled, placed))

    def _unrolled(self, filtered: array[int], heard: list[int]) -> list[Optional[int]]:
        steps = map(self._step, heard, heard[1:])
        going = accumulate(steps, initial=heard[0] if heard else 0)
        return [None if phase == SILENT else next(going) for phase in filtered]

    def _placed(
        self, raw: array[int], filtered: array[int], unrolled: list[Optional[int]],
    ) -> list[Optional[int]]:
        """A wake that was heard has a filtered phase, since its window has a heard reading."""
        step = self._step
        return [
            None if x == SILENT else at + step(phase, x)
            for x, phase, at in zip(raw, filtered, unrolled)
        ]

    def _thrown(self, unrolled: list[Optional[int]], placed: list[Optional[int]]) -> set[int]:
        """The wakes that are far from their filtered phase: the size of a step is the distance of
        its ends, as is proved."""
        far = self.limits.thrown
        return {
            wake
            for wake, (at, x) in enumerate(zip(unrolled, placed))
            if x is not None and abs(x - at) > far
        }

    def _outside(self, filtered: array[int]) -> list[int]:
        """The wakes whose filtered phase is not in the slot."""
        if self.limits.slot is None:
            return []
        return [
            wake
            for wake, phase in enumerate(filtered)
            if phase != SILENT and not self._is_inside(phase)
        ]
