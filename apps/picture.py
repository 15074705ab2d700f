"""Draws a bench record as one page: a table, a dial of the rack, and a strip for each label.

The figures are those of the proved library, which may refuse the record: then the page says so, and
so does the program.
"""
from __future__ import annotations

import argparse
import os

from circle_median import Refused
from common import Parser, given, name, named, no_tick, pair, run, say, stop, taken, told, whole
from drawing import count
from figures import Bench
from page import page, refused_page

# The exit status of a page that shows a refusal.
REFUSED = 3


# Above how many wakes of all labels drawing takes so long that it is told.
LONG = 2_000_000


def _slot(text: str) -> tuple[int, int]:
    return pair(text, ",", "350,20, start and width")


def title_of(words: str) -> str:
    """A title without what a page cannot hold."""
    plain = words.encode(errors="surrogateescape").decode(errors="replace")
    return "".join(each if each.isprintable() else "\ufffd" for each in plain)


def _parser() -> Parser:
    parser = Parser(
        prog=name(), formatter_class=argparse.RawDescriptionHelpFormatter,
        description="Draws a bench record as one HTML page: a table, a dial of the rack, and a\n"
        "strip for each label. It goes to standard output. Of a record that is refused the page\n"
        f"says so, and the exit status is {REFUSED}.",
        epilog="example:\n  %(prog)s --slot 80,40 bench.record > bench.html",
    )
    parser.add_argument(
        "--thrown", type=whole, metavar="TICKS",
        help="a reading is thrown if it is more than so far from its filtered phase; "
        "else a thirty-sixth of the cycle",
    )
    parser.add_argument(
        "--drift", type=whole, metavar="TICKS",
        help="a label drifts if it does by more than so much, ahead or back; "
        "else a thirty-sixth of the cycle",
    )
    parser.add_argument(
        "--slot", type=_slot, metavar="S,W",
        help="shades the listening slot that starts at tick S and is W wide, "
        "and marks the labels that leave it",
    )
    parser.add_argument("--title", help="the page's title; else the file's name")
    parser.add_argument(
        "file", nargs="?", metavar="RECORD", help="a record; else, or by a -, standard input",
    )
    return parser


def listen(bench: Bench, start: int, width: int) -> None:
    """Takes the slot, or ends the program."""
    try:
        bench.listen(start, width)
    except Refused as refused:
        stop(f"--slot {start},{width}: {no_tick((None, start, width)[refused.place], bench.cycle)}")


def main() -> None:
    """The program."""
    asked = _parser().parse_args()
    data = taken(asked.file)
    title = title_of(asked.title or os.path.basename(named(asked.file)))
    try:
        bench = Bench(data, asked.thrown, asked.drift)
    except Refused as refused:
        given(refused_page(refused, title).encode())
        stop(f"{named(asked.file)}: {told(refused)}", REFUSED)
    if asked.slot:
        listen(bench, *asked.slot)
    if bench.labels * bench.wakes > LONG:
        labels, wakes = count(bench.labels, "label"), count(bench.wakes, "wake")
        say(f"drawing {labels} of {wakes}, which takes a while")
    given(page(bench, title).encode())


if __name__ == "__main__":
    run(main)
