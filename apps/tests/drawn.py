"""A page as it was drawn, read back: its table, its strips and its dial, for the tests."""
from __future__ import annotations

import re
import xml.etree.ElementTree as xml
from typing import NamedTuple, Optional

HTML, SVG = "{http://www.w3.org/1999/xhtml}", "{http://www.w3.org/2000/svg}"


class Strip(NamedTuple):
    """A strip: its line in runs of (wake, tick), its readings, which wakes are marked as silent,
    the bars of silence where wakes are too narrow, and between which ticks the slot lies."""

    line: list[list[tuple[int, int]]]
    near: list[tuple[int, int]]
    thrown: list[tuple[int, int]]
    silent: list[tuple[float, float]]
    bars: list[tuple[float, float]]
    slots: list[tuple[float, float]]


def filled(run: list[tuple[int, int]]) -> list[tuple[int, int]]:
    """A run with the wakes between two points of the same height, through which the line goes
    too."""
    between = [
        (wake, at)
        for (first, at), (last, other) in zip(run, run[1:])
        if at == other
        for wake in range(first + 1, last)
    ]
    return sorted(run + between)


class Hands(NamedTuple):
    """A label on the dial: its words, its kind and the angles of its hands in turns."""

    words: str
    kind: str
    first: float
    last: float
    arc: Optional[str]


class Page:
    """A page, by the classes of its parts. It has to be XML."""

    def __init__(self, text: str) -> None:
        self.tree = xml.fromstring(text)

    def by(self, tag: str, kind: str, within=None) -> list:
        """The parts of a tag and a class."""
        within = self.tree if within is None else within
        return [
            part
            for space in (HTML, SVG)
            for part in within.iter(space + tag)
            if kind in part.get("class", "").split()
        ]

    @staticmethod
    def words(part) -> str:
        """All text of a part."""
        return "".join(part.itertext())

    def rows(self) -> list[list[str]]:
        """The table's cells, row by row."""
        table = next(self.tree.iter(HTML + "tbody"))
        return [[self.words(cell) for cell in row] for row in table]

    def facts(self) -> list[str]:
        """The lines under the title."""
        return [self.words(item) for item in self.by("ul", "facts")[0]]

    def strips(self) -> list[Strip]:
        """The strips of all labels."""
        return [self._strip(section) for section in self.by("section", "label")]

    def _strip(self, section) -> Strip:
        def d(kind: str) -> str:
            return "".join(part.get("d") for part in self.by("path", kind, section))

        def points(path: str) -> list[tuple[int, int]]:
            return [(int(x), int(y)) for x, y in re.findall(r"[ML](-?\d+) (-?\d+)", path)]

        silent, bars = (
            [
                (float(x), float(end))
                for x, end in re.findall(rf"M(-?[\d.]+) 0{way}(-?[\d.]+)", d("silent"))
            ]
            for way in "Hv"
        )
        slots = [
            (float(rect.get("y")), float(rect.get("y")) + float(rect.get("height")))
            for rect in self.by("rect", "slot", section)
        ]
        line = [points("M" + run) for run in d("line").split("M")[1:]]
        return Strip(line, points(d("near")), points(d("thrown")), silent, bars, slots)

    def dial(self) -> list[Hands]:
        """The labels on the dial."""
        return [self._hands(part) for part in self.by("g", "hands")]

    def _hands(self, part) -> Hands:
        def turn(kind: str) -> float:
            (hand,) = self.by("path", kind, part)
            return float(re.fullmatch(r"rotate\((.*)\)", hand.get("transform"))[1]) / 360

        arcs = [arc.get("d") for arc in self.by("path", "arc", part)]
        kind = part.get("class").split()[1]
        return Hands(
            self.words(part[0]), kind, turn("first"), turn("last"), arcs[0] if arcs else None,
        )
