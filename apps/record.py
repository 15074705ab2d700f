"""Makes a bench record of a table of readings, and a table of a record.

A record is written and read by the proved library, which decides what is refused. Nothing is
written on an error.
"""
from __future__ import annotations

import argparse

import circle_median
import table
from circle_median import SILENT, Record, Refused
from common import Parser, given, name, named, no_tick, pair, run, say, stop, taken, told, whole
from drawing import count

# The numbers of the refusals that speak of an option, of the size or of a cell.
CYCLE, SIZE, MASK, READING = 1, 2, 3, 9


class BadOption(ValueError):
    """What is wrong with an option."""


def usual_mask() -> tuple[int, int]:
    """The mask that the library reads in a record whose mask field is empty."""
    return circle_median.read_record(
        bytes.fromhex("0100020001 02000400010001 030000 0400020000 FF0000")
    ).mask


def make(data: bytes, cycle: int, mask: tuple[int, int]) -> bytes:
    """The record of a table; a BadTable or a BadOption says what is wrong."""
    parsed = table.parse(data, cycle)
    try:
        return circle_median.write_record(parsed.readings, cycle, mask, parsed.size)
    except Refused as refused:
        raise _why(refused, parsed, cycle, mask) from None


def _why(refused: Refused, parsed: table.Table, cycle: int, mask: tuple[int, int]) -> ValueError:
    """A refusal in terms of the options and the table."""
    if refused.number == CYCLE:
        return BadOption(f"--cycle {cycle}: {refused}")
    if refused.number == MASK:
        return BadOption(f"--mask {mask[0]}x{mask[1]}: {refused}")
    if refused.number == READING:
        return table.BadTable(
            f"{parsed.place(refused.place)}: {no_tick(parsed.readings[refused.place], cycle)}"
        )
    labels, wakes = parsed.size
    return table.BadTable(f"{count(labels, 'label')} by {count(wakes, 'wake')}: {refused}")


def show(data: bytes) -> bytes:
    """The table of a record, which the library may refuse."""
    record = circle_median.read_record(data)
    return table.write(record.readings, record.size[1])


def summary(record: Record) -> str:
    """What a record holds, with the options that make it of its table."""
    (labels, wakes), (rows, columns) = record.size, record.mask
    silent = record.readings.count(SILENT)
    options = f"--cycle {record.cycle} --mask {rows}x{columns}"
    return f"{count(labels, 'label')} by {count(wakes, 'wake')}, {silent:,} silent, {options}"


def _mask(text: str) -> tuple[int, int]:
    return pair(text, "x", "1x15, rows by wakes")


def _maker(maker: argparse.ArgumentParser) -> None:
    maker.formatter_class = argparse.RawDescriptionHelpFormatter
    maker.description = """Makes a record of a table in CSV, in UTF-8: a row to a label, at most
1,024, a column to a wake, at most 8,192, and no row of names or column of names besides. A cell has
the wake's tick, from 0 to C - 1, and nothing or a - where the label was not heard. Cells stand
between commas, semicolons or tabs and may be quoted. Empty lines at the end are passed over, but in
a table of one column, where each silent wake has to be a -.

The record goes to standard output, and nothing does on an error; how many labels, wakes and silent
wakes it has is told besides."""
    maker.epilog = "example:\n  %(prog)s --cycle 360 --mask 1x15 readings.csv > bench.record"
    maker.add_argument(
        "--cycle", type=whole, required=True, metavar="C",
        help="ticks of the beacon cycle, 1 to 65535",
    )
    maker.add_argument(
        "--mask", type=_mask, metavar="RxT",
        help="rows and wakes of the median's window, both odd, up to 255; "
        "else the usual mask, that of a record whose mask field is empty",
    )
    maker.add_argument(
        "file", nargs="?", metavar="TABLE", help="a CSV file; else, or by a -, standard input",
    )


def _shower(shower: argparse.ArgumentParser) -> None:
    shower.formatter_class = argparse.RawDescriptionHelpFormatter
    shower.description = """Makes a table of a record's readings: a row to a label, a column to a
wake, a silent wake as a -. The options that make the record of its table again are told besides."""
    shower.epilog = "example:\n  %(prog)s bench.record > readings.csv"
    shower.add_argument(
        "file", nargs="?", metavar="RECORD", help="a record; else, or by a -, standard input",
    )


def _parser() -> Parser:
    parser = Parser(
        prog=name(),
        description="Makes a bench record of a table of readings, and a table of a record.",
        epilog="%(prog)s make --help and %(prog)s show --help say more.",
    )
    commands = parser.add_subparsers(
        dest="command", required=True, metavar="make|show", parser_class=Parser,
    )
    _maker(commands.add_parser("make", help="make a record of a table"))
    _shower(commands.add_parser("show", help="make a table of a record"))
    return parser


def main() -> None:
    """The program."""
    asked = _parser().parse_args()
    data = taken(asked.file)
    try:
        if asked.command == "make":
            product = make(data, asked.cycle, asked.mask or usual_mask())
        else:
            product = show(data)
    except BadOption as trouble:
        stop(str(trouble))
    except Refused as refused:
        stop(f"{named(asked.file)}: {told(refused)}")
    except table.BadTable as trouble:
        stop(f"{named(asked.file)}: {trouble}")
    given(product)
    say(summary(circle_median.read_record(product if asked.command == "make" else data)))


if __name__ == "__main__":
    run(main)
