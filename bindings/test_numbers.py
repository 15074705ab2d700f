"""Tests that what stands in several places is the same in each: the numbers of the refusals, the
limits and the version.

Usage, from any directory: python3 bindings/test_numbers.py. It needs no library.
"""
from __future__ import annotations

import os
import re
import sys
import unittest

HERE = os.path.dirname(os.path.abspath(__file__))
ROOT = os.path.dirname(HERE)
sys.path.insert(0, os.path.join(HERE, "python"))

import circle_median  # noqa: E402

RESERVED = 4


def text(*names):
    """A file of the repository."""
    with open(os.path.join(ROOT, *names), encoding="utf-8") as file:
        return file.read()


def found(pattern, where):
    """What a pattern of two groups finds, the second by the first. No first one may come twice."""
    pairs = re.findall(pattern, where, re.M)
    if len(pairs) != len(dict(pairs)):
        raise AssertionError(f"{pattern} finds one thing twice: {pairs}")
    return dict(pairs)


def by_number(names):
    """The names by their numbers."""
    return {int(number): name for name, number in names.items()}


def section(where, heading):
    """What stands below a heading, up to the next one."""
    parts = re.split(r"^(#+ .*)$", where, flags=re.M)
    (at,) = (k for k, part in enumerate(parts) if part.strip() == heading)
    return parts[at + 1]


def tables(where):
    """The Markdown tables of a text, each as its rows of cells, of which the first is the head."""
    for block in re.findall(r"(?:^\|.*\n?)+", where, re.M):
        lines = (line.strip().strip("|").split("|") for line in block.splitlines())
        rows = [[cell.strip() for cell in line] for line in lines]
        yield [rows[0], *rows[2:]]


class Refusals(unittest.TestCase):
    """The refusals of the definitions, beside each other place that lists them."""

    @classmethod
    def setUpClass(cls):
        table = text("crates", "refusal", "specs", "Table.antt")
        cls.names = by_number(found(r"^number_of \(?(\w+)(?: \w+)?\)? = (\d+)$", table))
        places = found(r"^place_of \(?(\w+)(?: \w+)?\)? = (\w+)$", table)
        cls.placed = {number for number, name in cls.names.items() if places[name] != "0"}

    def test_definitions(self):
        self.assertEqual(set(self.names), {*range(1, 15)} - {RESERVED})
        self.assertEqual(self.placed, {9, 10, 11, 12, 13})

    def test_header(self):
        header = text("include", "circle_median.h")
        names = by_number(found(r"^ *CIRCLE_MEDIAN_REFUSED_(\w+) = (\d+),?$", header))
        self.assertEqual(names, {number: name.upper() for number, name in self.names.items()})
        self.assertIn("CIRCLE_MEDIAN_ACCEPTED = 0,", header)

    def test_rust(self):
        rust = text("bindings", "rust", "src", "refusal.rs")
        self.assertEqual(by_number(found(r"^ *Refusal::(\w+)(?:\(_\))? => (\d+),$", rust)), self.names)
        back = found(r"^ *(\d+) => Refusal::(\w+)(?:\(place\))?,$", rust)
        self.assertEqual({int(number): name for number, name in back.items()}, self.names)
        (body,) = re.findall(r"^pub enum Refusal \{\n(.*?)^\}", rust, re.M | re.S)
        stated = found(r"^    /// (\d+): (?:.*\n    ///)*.*\n    (\w+)(?:\(usize\))?,$", body)
        self.assertEqual({int(number): name for number, name in stated.items()}, self.names)
        placed = re.findall(r"^    (\w+)\(usize\),$", body, re.M)
        self.assertEqual(placed, [self.names[number] for number in sorted(self.placed)])

    def test_reasons(self):
        rust = text("bindings", "rust", "src", "refusal.rs")
        reasons = found(r'^ *Refusal::(\w+)(?:\(_\))? => (?:\{\s*)?"(.*)",?$', rust)
        due = {number: reasons[name] for number, name in self.names.items()}
        self.assertEqual(circle_median._REASONS, due)
        self.assertEqual(set(circle_median._PLACED), self.placed)

    def test_python_docstring(self):
        stated = re.findall(r"^ +(\d+)  ", circle_median.Refused.__doc__, re.M)
        self.assertEqual([int(number) for number in stated], sorted({*self.names, RESERVED}))

    def check_table(self, table, where):
        """A table has all numbers in their order, and names and places, if it has these, as due."""
        columns = dict(zip(table[0], zip(*table[1:])))
        numbers = [int(number) for number in columns["number"]]
        self.assertEqual(numbers, sorted({*self.names, RESERVED}), where)
        if "name" in columns:
            due = [self.names.get(number, "-") for number in numbers]
            self.assertEqual([name.strip("`") for name in columns["name"]], due, where)
        if "place" in columns:
            stated = {n for n, place in zip(numbers, columns["place"]) if place not in ("", "-", "0")}
            self.assertEqual(stated, self.placed, where)

    def test_specification(self):
        first, *_ = tables(section(text("docs", "SPECIFICATION.md"), "### Numbers"))
        self.assertEqual(first[0], ["number", "name", "why", "place"])
        self.check_table(first, "docs/SPECIFICATION.md")

    def test_readme(self):
        for names in (("README.md",), ("bindings", "README.md")):
            for table in tables(text(*names)):
                if "number" in table[0] and "why" in table[0]:
                    self.check_table(table, names)


class Limits(unittest.TestCase):
    """The limits of the crates' code, beside those of the definitions, the header and Rust."""

    def test_limits(self):
        pattern = r"^pub const (\w+): \w+ = ([0-9_]+);$"
        code = found(pattern, text("crates", "refusal", "src", "limits.rt"))
        definitions = found(r"^(\w+) = (\d+)$", text("crates", "refusal", "specs", "Limits.antt"))
        self.assertEqual(code, {name.upper(): number for name, number in definitions.items()})
        due = {name: number for name, number in code.items() if name != "MOST_BYTES"}
        header = text("include", "circle_median.h")
        self.assertEqual(found(r"^#define CIRCLE_MEDIAN_(\w+) (\d+)\b", header), due)
        rust = found(pattern, text("bindings", "rust", "src", "limits.rs"))
        self.assertEqual({name: number.replace("_", "") for name, number in rust.items()}, due)


class Version(unittest.TestCase):
    """The version of the Rust crate, which is the installation's, beside that of the header."""

    def test_version(self):
        cargo = text("bindings", "rust", "Cargo.toml")
        (due,) = re.findall(r'^version = "(.*)"$', cargo, re.M)
        header = text("include", "circle_median.h")
        self.assertEqual(re.findall(r'^#define CIRCLE_MEDIAN_VERSION "(.*)"$', header, re.M), [due])


if __name__ == "__main__":
    unittest.main()
