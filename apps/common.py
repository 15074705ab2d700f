"""What the programs for the bench share: how they are called, what they read and write, and how
they stop."""
from __future__ import annotations

import argparse
import os
import sys
from typing import Callable, NoReturn, Optional

from circle_median import Refused


def name() -> str:
    """The program's name, as it was called."""
    return os.path.basename(sys.argv[0]).replace(".py", "")


def say(message: str) -> None:
    """Tells something beside what the program makes."""
    if sys.stderr is not None:
        print(f"{name()}: {message}", file=sys.stderr)


def stop(message: str, status: int = 1) -> NoReturn:
    """Ends the program with one line."""
    say(message)
    sys.exit(status)


class Parser(argparse.ArgumentParser):
    """A parser of arguments that tells what is wrong in one line."""

    def error(self, message: str) -> NoReturn:
        stop(f"{message}; {self.prog} --help says how it is called", 2)


def whole(text: str) -> int:
    """A whole number, of ASCII digits alone."""
    if not (text.isascii() and text.isdigit() and len(text) <= 20):
        raise argparse.ArgumentTypeError(f"{text[:20]!r} is no whole number")
    return int(text)


def pair(text: str, separator: str, form: str) -> tuple[int, int]:
    """Two whole numbers with a separator between them, as in the form."""
    first, found, second = text.lower().partition(separator)
    try:
        return whole(first), whole(second)
    except argparse.ArgumentTypeError:
        raise argparse.ArgumentTypeError(f"{text[:40]!r} is not of the form {form}") from None


def named(path: Optional[str]) -> str:
    """How a file is called in a message."""
    return "standard input" if path in (None, "-") else str(path)


def taken(path: Optional[str]) -> bytes:
    """The bytes of a file, or of standard input where none is named."""
    try:
        if path is None or path == "-":
            os.set_blocking(0, True)
            with open(0, "rb", closefd=False) as file:
                return file.read()
        with open(path, "rb") as file:
            return file.read()
    except OSError as trouble:
        stop(f"{named(path)} cannot be read: {trouble.strerror}")


def given(product: bytes) -> None:
    """Writes all of what a program makes to standard output."""
    try:
        os.set_blocking(1, True)
        with open(1, "wb", closefd=False) as file:
            file.write(product)
    except OSError as trouble:
        stop(f"standard output cannot be written: {trouble.strerror}")


def told(refused: Refused) -> str:
    """A refusal, with a hint where the bytes do not begin as a record does."""
    is_other = refused.number in (10, 11) and refused.place == 0
    return f"{refused}{'; it does not begin as a bench record does' if is_other else ''}"


def no_tick(cell: object, cycle: int) -> str:
    """What is wrong with a number that is no tick."""
    return f"{cell} is no tick of a cycle of {cycle}"


def run(main: Callable[[], None]) -> None:
    """Runs a program; what stops it is one line."""
    try:
        main()
    except KeyboardInterrupt:
        stop("interrupted", 130)
    except MemoryError:
        stop("there is not enough memory")
    except ImportError as trouble:
        stop(str(trouble))
