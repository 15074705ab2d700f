"""Tests of `record`: tables that are made into records and back, beside the reference and the sheet
program, and what is refused.

Usage, from the repository's root, once the shared library is there:
    python3 -m unittest discover apps/tests
"""
from __future__ import annotations

import os
import random
import signal
import subprocess
import sys
import tempfile
import unittest

from places import APPS, ENVIRONMENT, EXAMPLES, SHEET

import circle_median
import record
import reference as ref
import table

SILENT = 65535
SPARE = 10**10


def drawn(chance):
    """A table of ticks, None where a wake was silent, with its cycle and mask."""
    c = chance.choice((1, 2, 8, 360, 65535, chance.randint(1, 65535)))
    m, n = chance.choice((
        (1, 1), (1, chance.randint(1, 30)), (chance.randint(1, 30), 1),
        (chance.randint(1, 8), chance.randint(1, 12)),
    ))
    silent = chance.choice((0, 0.1, 0.5, 1))
    rows = [
        [None if chance.random() < silent else chance.randrange(c) for _ in range(n)]
        for _ in range(m)
    ]
    return c, tuple(chance.choice((1, 3, 7, 255)) for _ in range(2)), rows


def plain(rows):
    """The table as `record show` writes it."""
    return "".join(
        ",".join("-" if x is None else str(x) for x in row) + "\n" for row in rows
    ).encode()


def varied(chance, rows):
    """The table as some spreadsheet might write it."""
    separator, end = chance.choice((",", ";", "\t")), chance.choice(("\n", "\r\n"))
    silences = ("-", " - ", '"-"', "", " ", '""') if len(rows[0]) > 1 else ("-", " - ", '"-"')

    def cell(x):
        word = (
            chance.choice(silences)
            if x is None else chance.choice((str(x), f" {x}", f'"{x}"', f"{x:06}"))
        )
        return word if separator != "\t" else word.strip()

    text = end.join(separator.join(map(cell, row)) for row in rows)
    last = end * chance.choice((0, 1) if len(rows[0]) == 1 else (0, 1, 3))
    return (chance.choice(("", "\ufeff")) + text + last).encode()


class RoundTrip(unittest.TestCase):
    """Tables that are made into records."""

    def test_thousands(self):
        chance = random.Random(1)
        for _ in range(4000):
            c, mask, rows = drawn(chance)
            data = record.make(chance.choice((plain(rows), varied(chance, rows))), c, mask)
            due = [SILENT if x is None else x for row in rows for x in row]
            self.assertEqual(ref.read_record(data, SPARE), (c, len(rows), len(rows[0]), *mask, due))
            self.assertEqual(record.show(data), plain(rows))

    @unittest.skipUnless(os.access(SHEET, os.X_OK), "the sheet program is not built")
    def test_beside_the_sheet_program(self):
        """With a mask of 1 by 1 the sheet has the readings themselves."""
        chance = random.Random(2)
        for _ in range(1000):
            c, _, rows = drawn(chance)
            data = record.make(varied(chance, rows), c, (1, 1))
            run = subprocess.run([SHEET], input=data, capture_output=True, check=True)
            sheet = run.stdout.decode().splitlines()
            self.assertEqual(
                sheet[0], f"cycle {c} rows {len(rows)} columns {len(rows[0])} mask 1 1",
            )
            read = [line[line.index(":") + 1:line.index(" drift")].split() for line in sheet[1:]]
            self.assertEqual(
                "".join(",".join(row) + "\n" for row in read).encode(), record.show(data),
            )

    def test_largest(self):
        for labels, wakes in ((1024, 100), (100, 8192)):
            data = plain([[(j * 7 + i) % 65535 for j in range(wakes)] for i in range(labels)])
            self.assertEqual(record.show(record.make(data, 65535, (1, 7))), data)

    def test_usual_mask(self):
        self.assertEqual(record.usual_mask(), ref.DEFAULT_MASK)


class Wrong(unittest.TestCase):
    """Tables that are no records."""

    def refused(self, data, due, c=360, mask=(1, 15)):
        with self.assertRaises((table.BadTable, record.BadOption)) as caught:
            record.make(data, c, mask)
        self.assertEqual(str(caught.exception), due)

    def test_cells(self):
        self.refused(b"1,2\n3,4\n5,360\n", "line 3, column 2: 360 is no tick of a cycle of 360")
        self.refused(b"0,1,2,3,4,5,360", "line 1, column 7: 360 is no tick of a cycle of 360")
        self.refused(b"1;65535\n", "line 1, column 2: 65535 is no tick of a cycle of 360")
        self.refused(b"65536\n", "line 1, column 1: 65536 is no tick of a cycle of 65535", 65535)
        self.refused(
            b"1\t" + b"9" * 5000,
            "line 1, column 2: 99999999999999999999.. is no tick of a cycle of 360",
        )
        for word in (
            "-1", "+1", "1.0", "1e2", "x", "--", "0x10", "1_0", "\u0663", "\u2212", "1 2", "NaN",
        ):
            self.refused(
                f"1,2\n3,{word}\n".encode(),
                f"line 2, column 2: {word!r} is neither a whole number nor a silent wake, -",
            )

    def test_rows(self):
        self.refused(b"1,2\n3\n", "line 2 has 1 cell, and line 1 has 2")
        self.refused(b"1,2\n3,4,\n", "line 2 has 3 cells, and line 1 has 2")
        self.refused(b"1;2\n3,4\n", "line 2 has 1 cell, and line 1 has 2")
        self.refused(b"1,2\n3;4\n", "line 2 has 1 cell, and line 1 has 2")
        self.refused(b"", "line 1: the table is empty")
        self.refused(b"\n\n", "line 1: the table is empty")
        self.refused(b"\n1,2\n", "line 1 is empty; a wake that was silent can be written as a -")
        self.refused(
            b"1,2\n\n3,4\n", "line 2 is empty; a wake that was silent can be written as a -",
        )
        for end in (b"\n", b" \n", b"\t", b'""\n'):
            self.refused(
                b"1\n2\n" + end, "line 3 is empty; a wake that was silent can be written as a -",
            )
        self.assertEqual(record.make(b"1,2\n\n\n", 8, (1, 3)), record.make(b"1,2", 8, (1, 3)))

    def test_texts(self):
        self.refused(
            "1,2\n".encode("utf-16"),
            "line 1: this is no text in UTF-8; let the spreadsheet write CSV in UTF-8",
        )
        self.refused(
            b"1,2\n3,\xe9\n",
            "line 2: this is no text in UTF-8; let the spreadsheet write CSV in UTF-8",
        )
        self.refused(
            b"1,2\r3,\xe9\r",
            "line 2: this is no text in UTF-8; let the spreadsheet write CSV in UTF-8",
        )
        self.refused(
            b"1,2\n3,4\n5,\0\n",
            "line 3: this is no text in UTF-8; let the spreadsheet write CSV in UTF-8",
        )
        self.refused(b'1,2\n3,"4\n5,6\n', "line 2: a quote is not closed")
        self.refused(b'1,2\r3,4\r5,360\r', "line 3, column 2: 360 is no tick of a cycle of 360")
        self.refused(b'1,2\n3,"4"4\n', "line 2: ',' expected after '\"'")

    def test_options(self):
        for cycle in (0, 65536, 2**32 + 8):
            self.refused(
                b"0\n", f"--cycle {cycle}: refused 1: the cycle is 0 or longer than the call takes",
                cycle,
            )
        reason = (
            "refused 3: a mask side is even, 0 or above 255, "
            "or a live window's length even, 0 or above 63"
        )
        for mask in ((1, 4), (0, 1), (257, 1), (1, 2**32 + 1)):
            self.refused(b"0\n", f"--mask {mask[0]}x{mask[1]}: {reason}", 8, mask)
        reason = (
            "refused 2: rows outside 1 to 1024, or columns or a row's readings outside 1 to 8192"
        )
        self.refused(b"0\n" * 1025, f"1,025 labels by 1 wake: {reason}")
        self.refused(b"0" + b",0" * 8192, f"1 label by 8,193 wakes: {reason}")


class Program(unittest.TestCase):
    """`record` as it is called."""

    def run_it(self, *arguments, data=b""):
        run = subprocess.run(
            [sys.executable, os.path.join(APPS, "record.py"), *arguments], input=data,
            capture_output=True, env=ENVIRONMENT,
        )
        return run.returncode, run.stdout, run.stderr.decode()

    def test_made_and_shown(self):
        one_row = os.path.join(EXAMPLES, "one_row.record")
        with open(one_row, "rb") as file:
            due = file.read()
        summary = "record: 1 label by 5 wakes, 0 silent, --cycle 8 --mask 1x3\n"
        self.assertEqual(self.run_it("show", one_row), (0, b"1,4,1,7,7\n", summary))
        self.assertEqual(self.run_it("show", data=due), (0, b"1,4,1,7,7\n", summary))
        self.assertEqual(
            self.run_it("make", "--cycle", "8", "--mask", "1x3", data=b"1,4,1,7,7\n"),
            (0, due, summary),
        )
        self.assertEqual(
            self.run_it("make", "--cycle=8", "--mask=1X3", "-", data=b"1,4,1,7,7\n"),
            (0, due, summary),
        )
        _, _, said = self.run_it("make", "--cycle=8", "--mask=3x1", data=b"1,,\n,,\n")
        self.assertEqual(said, "record: 2 labels by 3 wakes, 5 silent, --cycle 8 --mask 3x1\n")
        status, usual, _ = self.run_it("make", "--cycle", "8", data=b"1,4,1,7,7\n")
        self.assertEqual((status, ref.read_record(usual, 5)[3:5]), (0, ref.DEFAULT_MASK))

    def test_wrong(self):
        other = "it does not begin as a bench record does"
        help_says = "record --help says how it is called"
        make_help_says = "record make --help says how it is called"
        for arguments, data, status, due in (
            (
                ("make", "--cycle", "8"), b"1,8\n", 1,
                "standard input: line 1, column 2: 8 is no tick of a cycle of 8",
            ),
            (
                ("make", "--cycle", "8", "no.csv"), b"", 1,
                "no.csv cannot be read: No such file or directory",
            ),
            (("make", "--cycle", "8", "/"), b"", 1, "/ cannot be read: Is a directory"),
            (("show", "no.record"), b"", 1, "no.record cannot be read: No such file or directory"),
            (
                ("make", "--cycle", "8", "--mask", "1x4", "-"), b"1\n", 1,
                f"--mask 1x4: {circle_median.Refused(3)}",
            ),
            (
                ("show", "-"), b"", 1,
                f"standard input: refused 10 at 0: the record ends within a field; {other}",
            ),
            (
                ("show",), b"1,2,3\n", 1,
                f"standard input: refused 11 at 0: a tag is not the one due; {other}",
            ),
            (
                ("show",), b"\1\0\2\0\x08\2", 1,
                "standard input: refused 10 at 5: the record ends within a field",
            ),
            (
                ("make",), b"1\n", 2,
                f"the following arguments are required: --cycle; {make_help_says}",
            ),
            (
                ("make", "--cycle", "x"), b"1\n", 2,
                f"argument --cycle: 'x' is no whole number; {make_help_says}",
            ),
            (
                ("make", "--cycle", "8", "--mask", "15"), b"1\n", 2,
                f"argument --mask: '15' is not of the form 1x15, rows by wakes; {make_help_says}",
            ),
            ((), b"", 2, f"the following arguments are required: make|show; {help_says}"),
        ):
            self.assertEqual(self.run_it(*arguments, data=data), (status, b"", f"record: {due}\n"))

    def test_what_stops_it(self):
        """No library, closed input or output and too little memory are told in one line, which
        never goes into the product."""
        program, one_row = os.path.join(APPS, "record.py"), os.path.join(EXAMPLES, "one_row.record")
        for command, status, due in (
            (
                f"CIRCLE_MEDIAN_LIB={APPS} {sys.executable} {program} show {one_row}", 1,
                "record: circle_median has no library: .*",
            ),
            (
                f"{sys.executable} {program} show <&-", 1,
                "record: standard input cannot be read: Bad file descriptor",
            ),
            (
                f"{sys.executable} {program} show {one_row} >&-", 1,
                "record: standard output cannot be written: Bad file descriptor",
            ),
            (f"{sys.executable} {program} show no.record 2>&-", 1, ""),
            (
                f"ulimit -v 400000; {sys.executable} {program} show /dev/zero", 1,
                "record: there is not enough memory",
            ),
        ):
            run = subprocess.run(
                ["sh", "-c", command], capture_output=True, text=True, env=ENVIRONMENT,
            )
            self.assertEqual((run.returncode, run.stdout), (status, ""), command)
            self.assertRegex(run.stderr, rf"\A{due}\n?\Z", command)

    def test_interrupt(self):
        """An interrupt while it reads. The tests may run where interrupts are ignored, as behind a
        shell's &."""
        with tempfile.TemporaryDirectory() as folder:
            pipe = os.path.join(folder, "pipe")
            os.mkfifo(pipe)
            run = subprocess.Popen(
                [sys.executable, os.path.join(APPS, "record.py"), "show", pipe],
                stderr=subprocess.PIPE, env=ENVIRONMENT,
                preexec_fn=lambda: signal.signal(signal.SIGINT, signal.SIG_DFL),
            )
            with open(pipe, "wb"):
                run.send_signal(signal.SIGINT)
                self.assertEqual(
                    (run.communicate()[1], run.returncode), (b"record: interrupted\n", 130),
                )

    def test_nothing_is_lost(self):
        """A file that may not grow is told, also where Python's own output has no buffer."""
        data = record.make(b"1,2,3,4,5,6,7\n" * 1000, 8, (1, 3))
        with tempfile.TemporaryDirectory() as folder:
            source = os.path.join(folder, "long.record")
            with open(source, "wb") as file:
                file.write(data)
            program = os.path.join(APPS, "record.py")
            command = f"ulimit -f 1; exec {sys.executable} {program} show {source} >{folder}/table"
            run = subprocess.run(
                ["sh", "-c", command], capture_output=True,
                env={**ENVIRONMENT, "PYTHONUNBUFFERED": "1"},
            )
        self.assertEqual(
            (run.returncode, run.stderr),
            (1, b"record: standard output cannot be written: File too large\n"),
        )

    def test_full_disk(self):
        if not os.path.exists("/dev/full"):
            self.skipTest("there is no /dev/full")
        with open("/dev/full", "wb") as full:
            run = subprocess.run(
                [
                    sys.executable, os.path.join(APPS, "record.py"), "show",
                    os.path.join(EXAMPLES, "one_row.record"),
                ],
                stdout=full, stderr=subprocess.PIPE, env=ENVIRONMENT,
            )
        self.assertEqual(
            (run.returncode, run.stderr),
            (1, b"record: standard output cannot be written: No space left on device\n"),
        )

    def test_help(self):
        for arguments, due in (
            ((), b"make|show"),
            (("make",), b"record make --cycle 360 --mask 1x15 readings.csv > bench.record"),
            (("show",), b"record show bench.record > readings.csv"),
        ):
            status, said, trouble = self.run_it(*arguments, "--help")
            self.assertEqual((status, trouble), (0, ""))
            self.assertIn(due, said)


if __name__ == "__main__":
    unittest.main()
