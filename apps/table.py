"""Tables of readings as text, as spreadsheets write them: a row to a label, a column to a wake, and
nothing else.

A cell is a tick of the cycle, and of a silent wake it is empty or has a `-`. Cells stand between
commas; between semicolons or tabs if the first line has such. They may be quoted. Whether a number
is a tick of the cycle is for the library to say.
"""
from __future__ import annotations

import csv
from array import array
from typing import Iterator, NamedTuple

from circle_median import SILENT
from common import no_tick
from drawing import count


class BadTable(ValueError):
    """What is wrong with a table, and where."""


class Table(NamedTuple):
    """The readings of a table, row by row, its size, and the line of each row, from 1 on."""

    readings: array[int]
    size: tuple[int, int]
    lines: list[int]

    def place(self, index: int) -> str:
        """Where a reading stands, as an error names it."""
        row, column = divmod(index, self.size[1])
        return place(self.lines[row], column)


def place(line: int, column: int) -> str:
    """A cell's place; the column counts from 0 here."""
    return f"line {line}, column {column + 1}"


def _lines(data: bytes) -> list[str]:
    """The lines of a text, however they end."""
    plain = data.replace(b"\r\n", b"\n").replace(b"\r", b"\n")
    try:
        text = plain.decode("utf-8-sig")
        bad = plain.find(b"\0")
    except UnicodeDecodeError as trouble:
        text, bad = "", trouble.start
    if bad >= 0:
        line = plain.count(b"\n", 0, bad) + 1
        raise BadTable(
            f"line {line}: this is no text in UTF-8; let the spreadsheet write CSV in UTF-8"
        )
    return text.removesuffix("\n").split("\n")


def _rows(lines: list[str]) -> Iterator[tuple[int, list[str]]]:
    """The cells of each line, with its number; of an empty line none."""
    separator = next((each for each in ";\t" if each in lines[0]), ",")
    for number, line in enumerate(lines, 1):
        try:
            cells = next(csv.reader([line], delimiter=separator, strict=True), [])
        except csv.Error as trouble:
            why = "a quote is not closed" if "end of data" in str(trouble) else trouble
            raise BadTable(f"line {number}: {why}") from None
        yield number, cells if len(cells) > 1 or "".join(cells).strip() else []


def _filled(rows: Iterator[tuple[int, list[str]]]) -> Iterator[tuple[int, list[str]]]:
    """The rows without the empty lines at the end. An empty line that may stand for a label is a
    BadTable: one before the end, and any in a table of one column."""
    empty = columns = 0
    for line, cells in rows:
        if not cells:
            empty = empty or line
            continue
        if empty:
            break
        columns = len(cells)
        yield line, cells
    if empty and (cells or columns == 1):
        raise BadTable(f"line {empty} is empty; a wake that was silent can be written as a -")


def _reading(cell: str) -> int:
    """The number in a cell; ValueError if there is none, OverflowError if no cycle has it as a
    tick."""
    word = cell.strip(" \t")
    if word in ("", "-"):
        return SILENT
    if not (word.isascii() and word.isdigit()):
        raise ValueError
    digits = word.lstrip("0") or "0"
    if len(digits) > 5 or int(digits) >= SILENT:
        raise OverflowError
    return int(digits)


def _shown(cell: str) -> str:
    """A cell in an error: cut where it is long."""
    word = cell.strip(" \t")
    return word if len(word) <= 24 else f"{word[:20]}.."


def _row(line: int, cells: list[str], cycle: int) -> Iterator[int]:
    """The readings of a row."""
    for column, cell in enumerate(cells):
        try:
            yield _reading(cell)
        except OverflowError:
            raise BadTable(f"{place(line, column)}: {no_tick(_shown(cell), cycle)}") from None
        except ValueError:
            wrong = f"{_shown(cell)!r} is neither a whole number nor a silent wake, -"
            raise BadTable(f"{place(line, column)}: {wrong}") from None


def parse(data: bytes, cycle: int) -> Table:
    """The table in the bytes of a file."""
    readings, columns = array("H"), 0
    lines: list[int] = []
    for line, cells in _filled(_rows(_lines(data))):
        columns = columns or len(cells)
        if len(cells) != columns:
            raise BadTable(
                f"line {line} has {count(len(cells), 'cell')}, and line {lines[0]} has {columns}"
            )
        readings.extend(_row(line, cells, cycle))
        lines.append(line)
    if not lines:
        raise BadTable("line 1: the table is empty")
    return Table(readings, (len(lines), columns), lines)


def write(readings: array[int], columns: int) -> bytes:
    """The table of an image, a silent wake as a `-`."""
    words = ["-" if reading == SILENT else str(reading) for reading in readings]
    rows = (words[at:at + columns] for at in range(0, len(words), columns))
    return "".join(",".join(row) + "\n" for row in rows).encode()
