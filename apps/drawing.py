"""What the drawings share: numbers and text in SVG, and the marks of an axis."""
from __future__ import annotations

import html
from typing import Iterable, Optional


def number(x: float) -> str:
    """A number as short as can be, to a hundredth."""
    return f"{x:.2f}".rstrip("0").rstrip(".") if x % 1 else str(int(x))


def svg(kind: str, box: str, words: str = "") -> str:
    """The head of a drawing; without words it says nothing to who cannot see it."""
    role = f'role="img" aria-label="{html.escape(words)}"' if words else 'aria-hidden="true"'
    return f'<svg xmlns="http://www.w3.org/2000/svg" class="{kind}" viewBox="{box}" {role}>'


def text(x: float, y: float, words: object, kind: str) -> str:
    """Words at a place, of a class of the page's style."""
    return f'<text x="{number(x)}" y="{number(y)}" class="{kind}">{html.escape(str(words))}</text>'


def path(kind: str, d: str, words: str = "") -> str:
    """A path of a class, with words that are shown where it is pointed at; nothing if there is no
    path."""
    inside = f"<title>{html.escape(words)}</title>" if words else ""
    return f'<path class="{kind}" d="{d}">{inside}</path>' if d else ""


def nice(least: float) -> int:
    """The least of 1, 2, 5, 10, 20, 50 .. that is not below a number."""
    tens = 1
    while tens * 10 < least:
        tens *= 10
    return next(each * tens for each in (1, 2, 5, 10) if each * tens >= least)


def marks(cycle: int, parts: tuple[int, ...], least: float = 1) -> range:
    """The ticks of a cycle that are marked, at least so far apart: as many as the first of `parts`
    that divides it into numbers of up to four digits, else round numbers, of which none is close to
    the cycle's end."""
    even = (cycle // n for n in parts if cycle % n == 0)
    spacing = next((each for each in even if least <= each < 10_000), 0) or nice(max(1, least))
    return range(0, max(1, cycle - spacing // 2), spacing)


def spelled(x: Optional[int]) -> str:
    """A phase or a wake, and where there is none what the sheet has for a silent phase."""
    return "-" if x is None else str(x)


def count(n: int, one: str) -> str:
    """So many of a thing."""
    return f"{n:,} {one}{'' if n == 1 else 's'}"


def joined(parts: Iterable[str]) -> str:
    """Parts on lines of their own, without those that are empty."""
    return "\n".join(part for part in parts if part)
