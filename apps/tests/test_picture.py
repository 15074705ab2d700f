"""Tests of `picture`: each figure on the page is the library's, and every point that is drawn is
one of the record.

Usage, from the repository's root, once the shared library is there:
    python3 -m unittest discover apps/tests
"""
from __future__ import annotations

import math
import os
import random
import re
import subprocess
import sys
import unittest
from array import array

from places import APPS, ENVIRONMENT, EXAMPLES

import circle_median as cm
import reference as ref
import strip
from drawing import marks, nice
from drawn import Page, filled
from figures import Bench, usual_limit
from page import page, refused_page
from picture import title_of

SILENT = cm.SILENT


def drawn_record(chance, labels=None, wakes=None):
    """A record with labels that creep, are thrown and fall silent, on a short or a long cycle."""
    c = chance.choice((1, 2, 7, 8, 9, 97, 360, 512, 4096, 65535))
    m, n = labels or chance.randint(1, 5), wakes or chance.randint(1, 40)
    silent, noise = chance.choice((0, 0.1, 0.6)), chance.choice((0, 0.2, 1))
    image = array("H")
    for _ in range(m):
        start, pace = chance.randrange(c), chance.choice((0, 0, 1, -1)) * c / chance.randint(2, 40)
        quiet = chance.random() < 0.1
        for wake in range(n):
            thrown = chance.random() < noise
            tick = chance.randrange(c) if thrown else round(start + pace * wake) % c
            image.append(SILENT if quiet or chance.random() < silent else tick)
    mask = chance.choice(((1, 1), (1, 3), (3, 3), (1, 15)))
    return cm.write_record(image, c, mask, (m, n))


class Figures(unittest.TestCase):
    """Pages of random records beside the library and the reference."""

    def test_200_records(self):
        chance = random.Random(1)
        for k in range(200):
            data = drawn_record(chance)
            cycle = cm.read_record(data).cycle
            thrown, drift = (chance.choice((None, chance.randint(0, cycle))) for _ in range(2))
            bench = Bench(data, thrown, drift)
            if chance.random() < 0.5:
                bench.listen(chance.randrange(cycle), chance.randrange(cycle))
            self.check(Page(page(bench, f"record {k}")), data, bench.limits)

    def check(self, drawn, data, limits):
        record = cm.read_record(data)
        filtered = cm.filter(*record)
        (m, n), c, shape = record.size, record.cycle, (record.cycle, *record.size, *record.mask)
        self.assertEqual(
            filtered.tolist(), ref.filtered(shape, 0, m, record.readings.tolist(), [0] * m * n),
        )
        rows, strips = drawn.rows(), drawn.strips()
        dial = {hands.words.partition(":")[0]: hands for hands in drawn.dial()}
        self.assertEqual((len(rows), len(strips)), (m, m))
        for i in range(m):
            row = slice(i * n, (i + 1) * n)
            raw, phases = record.readings[row].tolist(), filtered[row].tolist()
            self.check_row(rows[i], i, c, raw, phases, limits)
            self.check_strip(strips[i], c, raw, phases, limits)
            self.check_slots(strips[i], c, limits)
            self.check_dial(dial.get(f"label {i}"), i, c, phases, limits)

    def check_row(self, row, i, c, raw, phases, limits):
        heard = ref.heard(phases)
        drift = cm.drift(c, array("H", phases))
        self.assertEqual(drift, ref.drift(c, phases))
        far = [
            k
            for k, (x, p) in enumerate(zip(raw, phases))
            if x != SILENT and cm.distance(c, x, p) > limits.thrown
        ]
        marks = (
            [] if abs(drift) <= limits.drift else ["\u25b2 ahead" if drift > 0 else "\u25bc back"]
        )
        due = [i, *((heard[0], heard[-1]) if heard else "--"), drift, len(far), raw.count(SILENT)]
        if limits.slot:
            out = [
                k for k, p in enumerate(phases) if p != SILENT and not cm.slot(c, p, *limits.slot)
            ]
            self.assertEqual(
                out,
                [
                    k
                    for k, p in enumerate(phases)
                    if p != SILENT and not ref.in_slot(c, p, *limits.slot)
                ],
            )
            due += [len(out), *((out[0], out[-1]) if out else "--")]
            marks += ["\u25c6 leaves"] if out else []
        self.assertEqual(row, [str(cell) for cell in (*due, ", ".join(marks))])

    def check_strip(self, drawn, c, raw, phases, limits):
        """Every wake is drawn here: the line through all filtered phases, and each reading where it
        was heard."""
        runs = [filled(run) for run in drawn.line]
        line = dict(point for run in runs for point in run)
        self.assertEqual(
            {wake: at % c for wake, at in line.items()},
            {k: p for k, p in enumerate(phases) if p != SILENT},
        )
        heard = sorted(line)
        for a, b in zip(heard, heard[1:]):
            self.assertEqual(line[b] - line[a], cm.step(c, phases[a], phases[b]))
        if heard:
            self.assertEqual(line[heard[0]], phases[heard[0]])
            self.assertEqual(line[heard[-1]] - line[heard[0]], cm.drift(c, array("H", phases)))
        for run in runs:
            self.assertEqual([wake for wake, _ in run], list(range(run[0][0], run[-1][0] + 1)))
        for a, b in zip(runs, runs[1:]):
            self.assertGreater(b[0][0], a[-1][0] + 1)
        dots = dict(drawn.near + drawn.thrown)
        self.assertEqual(len(dots), len(drawn.near) + len(drawn.thrown))
        self.assertEqual(
            {wake: at % c for wake, at in dots.items()},
            {k: x for k, x in enumerate(raw) if x != SILENT},
        )
        for wake, at in dots.items():
            self.assertEqual(at - line[wake], cm.step(c, phases[wake], raw[wake]))
            self.assertEqual(abs(at - line[wake]), cm.distance(c, phases[wake], raw[wake]))
        far = {wake for wake, at in dots.items() if abs(at - line[wake]) > limits.thrown}
        self.assertEqual({wake for wake, _ in drawn.thrown}, far)
        quiet = [wake for wake, x in enumerate(raw) if x == SILENT]
        ends = [wake for wake in quiet if wake + 1 not in quiet]
        self.assertEqual(
            drawn.silent,
            [
                (begin - 0.5, end + 0.5)
                for begin, end in zip((x for x in quiet if x - 1 not in quiet), ends)
            ],
        )

    def check_slots(self, drawn, c, limits):
        """The line is on the slot's shade where the phase is in the slot, and beside it only as
        near as the shade is widened."""
        for _, at in (point for run in drawn.line for point in run):
            is_shaded = any(low <= at <= high for low, high in drawn.slots)
            if limits.slot is None or not is_shaded:
                self.assertFalse(limits.slot and cm.slot(c, at % c, *limits.slot) or is_shaded)
            elif not cm.slot(c, at % c, *limits.slot):
                start, width = limits.slot
                nearest = min(cm.distance(c, at % c, end) for end in (start, (start + width) % c))
                self.assertLess(nearest, c / strip.CYCLE_HEIGHT)

    def check_dial(self, hands, i, c, phases, limits):
        heard = ref.heard(phases)
        if not heard:
            self.assertIsNone(hands)
            return
        drift = cm.drift(c, array("H", phases))
        self.assertEqual(
            hands.words, f"label {i}: first {heard[0]}, last {heard[-1]}, drift {drift}",
        )
        self.assertEqual(
            (round(hands.first * c, 4), round(hands.last * c, 4)), (heard[0], heard[-1]),
        )
        self.assertEqual(
            hands.kind,
            "steady" if abs(drift) <= limits.drift else "ahead" if drift > 0 else "back",
        )
        self.assertEqual(hands.arc is None, drift == 0 or abs(drift) > 3 * c and drift % c == 0)
        if hands.arc:
            self.check_arc(hands, c, drift)

    def check_arc(self, hands, c, drift):
        """The arc goes from the first to the last hand, through the drift, or through what is left
        of the last turn of many."""
        points = [tuple(map(float, point.split())) for point in hands.arc[1:].split("L")]
        turns = [math.atan2(x, -y) / math.tau for x, y in points]
        swept = sum((b - a + 0.5) % 1 - 0.5 for a, b in zip(turns, turns[1:]))
        for turn, hand in ((turns[0], hands.first), (turns[-1], hands.last)):
            self.assertAlmostEqual((turn - hand + 0.5) % 1 - 0.5, 0, places=3)
        self.assertAlmostEqual(
            swept, drift / c if abs(drift) <= 3 * c else math.fmod(drift, c) / c, places=3,
        )


class Thinned(unittest.TestCase):
    """Long records and large racks, of which not every point is drawn."""

    def check(self, data):
        bench = Bench(data)
        bins = strip.bins_of(bench)
        self.assertLess(bins, bench.wakes)
        drawn = Page(page(bench, "long"))
        self.assertIn(
            f"strips draw the wakes in {bins:,} groups; every figure counts every wake",
            drawn.facts(),
        )
        points = 0
        for index, (row, said) in enumerate(zip(drawn.rows(), drawn.strips())):
            label, trace = bench.label(index)
            self.assertEqual(row[4:6], [str(len(trace.thrown)), str(trace.placed.count(None))])
            self.assertEqual(
                (label.thrown, label.silent), (len(trace.thrown), trace.placed.count(None)),
            )
            line = dict(point for run in said.line for point in run)
            self.assertTrue(all(trace.unrolled[wake] == at for wake, at in line.items()))
            self.assertTrue(all(trace.placed[wake] == at for wake, at in said.near + said.thrown))
            self.assertLessEqual({wake for wake, _ in said.thrown}, trace.thrown)
            self.check_silence(bench, trace, said)
            self.check_outline(
                bench, trace, dict(point for run in said.line for point in filled(run)), bins,
            )
            points += len(line) + len(said.near) + len(said.thrown)
        return points

    def check_silence(self, bench, trace, said):
        """Where wakes are too narrow there are bars, each as high as the share of its wakes that is
        silent, but for the lowest."""
        if not said.bars:
            self.assertEqual(
                sum(end - begin for begin, end in said.silent), trace.placed.count(None),
            )
            return
        bars = (strip.WIDTH - strip.LEFT - strip.RIGHT) // strip.BAR_APART
        ends = [bar * bench.wakes // bars for bar in range(bars + 1)]
        shares = (
            (a + b - 1, trace.placed[a:b].count(None) / (b - a)) for a, b in zip(ends, ends[1:])
        )
        due = [(middle / 2, max(1, strip.BAR * share)) for middle, share in shares if share]
        self.assertEqual(len(said.bars), len(due))
        for (x, height), (middle, high) in zip(said.bars, due):
            self.assertAlmostEqual(x, middle, places=1)
            self.assertAlmostEqual(-height, high, places=1)

    def check_outline(self, bench, trace, line, bins):
        """In each bin the line goes as low and as high as the phases do, to half of the strip's
        unit."""
        unit = 0.5 / strip.frame_of(bench, trace).tick + 1e-9
        whole, seen = {}, {}
        for some, into in ((enumerate(trace.unrolled), whole), (line.items(), seen)):
            for wake, at in some:
                if at is not None:
                    low, high = into.get(wake * bins // bench.wakes, (at, at))
                    into[wake * bins // bench.wakes] = min(low, at), max(high, at)
        self.assertEqual(whole.keys(), seen.keys())
        for each, (low, high) in whole.items():
            self.assertLessEqual(seen[each][0] - low, 2 * unit)
            self.assertLessEqual(high - seen[each][1], 2 * unit)

    def test_8192_wakes(self):
        chance = random.Random(2)
        for _ in range(3):
            self.check(drawn_record(chance, 3, 8192))

    def test_1024_labels(self):
        points = self.check(drawn_record(random.Random(4), 1024, 300))
        self.assertLess(points, 1_000_000)

    def test_the_dial_has_those_that_drift_most(self):
        rows = [array("H", [0] * 8 + [k if k % 2 else -k % 360] * 8) for k in range(100)]
        data = cm.write_record(
            array("H", b"".join(row.tobytes() for row in rows)), 360, (1, 1), (100, 16),
        )
        drawn = Page(page(Bench(data), "rack"))
        self.assertEqual(
            {hands.words.partition(":")[0] for hands in drawn.dial()},
            {f"label {k}" for k in range(52, 100)},
        )
        self.assertIn(
            "The dial has the 48 labels that drift most.", drawn.words(drawn.by("p", "facts")[0]),
        )
        self.assertEqual(len(drawn.rows()), 100)


class Text(unittest.TestCase):
    """What the page says besides."""

    def example(self, name):
        with open(os.path.join(EXAMPLES, f"{name}.record"), "rb") as file:
            return file.read()

    def test_thresholds_are_printed(self):
        bench = Bench(self.example("shelf"), 12, 7)
        bench.listen(350, 20)
        self.assertEqual(Page(page(bench, "x")).facts(), [
            "thrown: a reading more than 12 ticks from its filtered phase (--thrown 12)",
            "drifting: by more than 7 ticks ahead or back (--drift 7)",
            "listening slot: from tick 350 to tick 10, 20 ticks wide (--slot 350,20)",
        ])
        self.assertEqual(
            [usual_limit(c) for c in (1, 8, 36, 37, 360, 65535)], [1, 1, 1, 2, 10, 1821],
        )

    def test_one_file(self):
        """Nothing is taken from elsewhere, there is no script, and it is XML also with marks in its
        title."""
        title = "<a> & 'b' \"c\""
        text = page(Bench(self.example("shelf")), title)
        self.assertEqual(
            Page(text).words(next(Page(text).tree.iter("{http://www.w3.org/1999/xhtml}h1"))), title,
        )
        for word in ("<script", "src=", "url(", "@import", "<link", "<iframe"):
            self.assertNotIn(word, text)
        self.assertEqual(
            set(re.findall(r"https?://[^\"' ]*", text)),
            {"http://www.w3.org/1999/xhtml", "http://www.w3.org/2000/svg"},
        )

    def test_axes(self):
        """Marks of both axes are ticks of the cycle and wakes, none on another, with their
        units."""
        for cycle, wakes in (
            (1, 1), (7, 2), (8, 5), (9, 40), (97, 300), (360, 960), (4096, 8192), (65535, 8192),
        ):
            image = array("H", (k * 97 % cycle for k in range(wakes)))
            bench = Bench(cm.write_record(image, cycle, (1, 1)))
            drawn, frame = Page(page(bench, "x")), strip.frame_of(bench, bench.label(0)[1])
            (section,) = drawn.by("section", "label")
            marks = [(part, drawn.words(part)) for part in drawn.by("text", "mark", section)]
            self.assertEqual(
                {words for part, words in marks if "unit" in part.get("class")},
                {"tick", "silent", "wake"},
            )
            height = float(drawn.by("svg", "strip", section)[0].get("viewBox").split()[3])
            ends = {
                "x": (strip.LEFT, strip.WIDTH - strip.RIGHT),
                "y": (strip.TOP + 3, height - strip.BOTTOM + 4),
            }
            for axis, kind, apart in (("y", "right", 11), ("x", "middle", 40)):
                some = [
                    (float(part.get(axis)), int(words.partition(": ")[2] or words))
                    for part, words in marks
                    if part.get("class") == f"mark {kind}"
                ]
                self.assertTrue(some)
                self.assertTrue(all(ends[axis][0] <= place <= ends[axis][1] for place, _ in some))
                self.assertTrue(all(0 <= n < (cycle if axis == "y" else wakes) for _, n in some))
                for part, words in marks:
                    turn, is_turn, tick = words.partition(": ")
                    if is_turn:
                        at = int(turn.replace("turn ", "")) * cycle + int(tick)
                        self.assertAlmostEqual(float(part.get("y")), frame.y(at) + 3.5, places=1)
                    elif part.get("class") == "mark right":
                        at = frame.high - (float(part.get("y")) - 3.5 - strip.TOP) / frame.tick
                        self.assertAlmostEqual(
                            (at - int(words) + cycle / 2) % cycle, cycle / 2,
                            delta=0.01 / frame.tick,
                        )
                    elif part.get("class") == "mark middle":
                        self.assertAlmostEqual(float(part.get("x")), frame.x(int(words)), places=1)
                places = sorted(place for place, _ in some)
                self.assertTrue(
                    all(b - a >= apart for a, b in zip(places, places[1:])), (cycle, wakes, places),
                )

    def test_marks(self):
        """As many as divide the cycle into numbers of up to four digits, else round ones, not on
        the next turn's zero."""
        for cycle, least, due in (
            (360, 66, [0, 90, 180, 270]), (8, 1.4, [0, 2, 4, 6]), (7, 1.3, [0, 2, 4]), (1, 1, [0]),
            (360, 400, [0]), (4096, 750, [0, 1024, 2048, 3072]), (65535, 12015, [0, 20000, 40000]),
            (65521, 12013, [0, 20000, 40000]),
        ):
            self.assertEqual(list(marks(cycle, (4, 5, 3, 6, 2), least)), due)
        self.assertEqual(
            [nice(x) for x in (0.2, 1, 1.1, 2, 3, 7, 10, 11, 21, 99, 101)],
            [1, 1, 2, 2, 5, 10, 10, 20, 50, 100, 200],
        )

    def test_titles(self):
        """What XML or UTF-8 cannot hold is no part of a title."""
        self.assertEqual(title_of("a\x01b\udcffc \u00e9"), "a\ufffdb\ufffdc \u00e9")
        Page(page(Bench(self.example("one_row")), title_of("\0\x1f\udc80")))

    def test_one_scale(self):
        """A quiet label and one that drifts by two turns are drawn to one scale, and each strip has
        marks."""
        rows = [[5] * 200, [k * 7 // 2 % 360 for k in range(200)], [k % 2 * 3 for k in range(200)]]
        image = array("H", (x for row in rows for x in row))
        drawn = Page(page(Bench(cm.write_record(image, 360, (1, 1), (3, 200))), "x"))
        for section in drawn.by("section", "label"):
            svg = drawn.by("svg", "strip", section)[0]
            scales = {
                float(part.get("transform").split()[3])
                for part in svg
                if "matrix" in part.get("transform", "")
            }
            self.assertEqual(scales - {1.0}, {-0.333333})
            self.assertTrue([
                part for part in drawn.by("text", "right", section) if drawn.words(part).isdigit()
            ])

    def test_slot_on_the_dial(self):
        for start, width in ((350, 20), (0, 0), (10, 200), (359, 358)):
            bench = Bench(self.example("shelf"))
            bench.listen(start, width)
            (sector,) = [
                part
                for part in Page(page(bench, "x")).by("path", "slot")
                if part.get("d").startswith("M0 0L")
            ]
            begin, large, end = re.fullmatch(
                r"M0 0L(\S+ \S+)A180 180 0 ([01]) 1 (\S+ \S+)Z", sector.get("d"),
            ).groups()
            for point, tick in ((begin, start - 0.5), (end, start + width + 0.5)):
                x, y = map(float, point.split())
                self.assertAlmostEqual(
                    (math.atan2(x, -y) * 360 / math.tau - tick + 180) % 360 - 180, 0, places=1,
                )
            self.assertEqual(large, str(int(width + 1 > 180)))

    def test_numbers_on_the_dial(self):
        """The numbers of labels at one phase, and those with turns, do not lie on each other; the
        ones that drift come first."""
        rows = (
            [[100] * 20 + [100 + k // 20] * 20 for k in range(30)]
            + [[k * 90 % 360 for k in range(40)]]
        )
        image = array("H", (x for row in rows for x in row))
        drawn = Page(page(Bench(cm.write_record(image, 360, (1, 1), (31, 40)), drift=0), "x"))
        boxes = [
            (float(part.get("x")), float(part.get("y")), drawn.words(part))
            for part in drawn.by("text", "number")
        ]
        self.assertTrue(1 < len(boxes) < 31)
        self.assertIn("30: +9 turns", {words for _, _, words in boxes})
        self.assertIn("20", {words for _, _, words in boxes})
        for k, (x, y, words) in enumerate(boxes):
            for other_x, other_y, other in boxes[k + 1:]:
                self.assertTrue(
                    abs(y - other_y) >= 11 or abs(x - other_x) >= 3 * len(words + other),
                    (words, other),
                )

    def test_how_many_drift(self):
        drawn = Page(page(Bench(self.example("shelf")), "x"))
        self.assertEqual(
            drawn.words(next(drawn.tree.iter("{http://www.w3.org/1999/xhtml}caption"))),
            "phases and drift in ticks; 6 of 8 labels drifting",
        )

    def test_refused_page(self):
        drawn = Page(refused_page(cm.Refused(12, 7), "bad"))
        self.assertEqual(
            drawn.rows(),
            [["number", "12"], ["place", "byte 7"], ["reason", "a length is not the one due"]],
        )
        places = [
            Page(refused_page(cm.Refused(number, 3), "bad")).rows()[1][1] for number in (1, 9, 10)
        ]
        self.assertEqual(places, ["-", "reading 3", "byte 3"])


class Program(unittest.TestCase):
    """`picture` as it is called."""

    def run_it(self, *arguments, data=b""):
        run = subprocess.run(
            [sys.executable, os.path.join(APPS, "picture.py"), *arguments], input=data,
            capture_output=True, env=ENVIRONMENT,
        )
        return run.returncode, run.stdout.decode(), run.stderr.decode()

    def test_examples(self):
        for name in sorted(os.listdir(EXAMPLES)):
            if name.endswith(".record"):
                status, text, trouble = self.run_it(os.path.join(EXAMPLES, name))
                self.assertEqual((status, trouble), (0, ""))
                drawn = Page(text)
                self.assertEqual(
                    drawn.words(next(drawn.tree.iter("{http://www.w3.org/1999/xhtml}h1"))), name,
                )
        self.assertEqual([row[3] for row in drawn.rows()], ["-6"])

    def test_shelf(self):
        _, text, _ = self.run_it(
            "--slot", "80,40", "--title", "the shelf", os.path.join(EXAMPLES, "shelf.record"),
        )
        drawn = Page(text)
        self.assertEqual(
            [row[3] for row in drawn.rows()], ["0", "40", "1", "-40", "38", "-39", "397", "60"],
        )
        ahead, back, leaves = "\u25b2 ahead", "\u25bc back", "\u25c6 leaves"
        marks = ["", ahead, leaves, back, ahead, back, ahead, ahead]
        self.assertEqual([row[-1].split(", ")[0] for row in drawn.rows()], marks)
        self.assertEqual(
            [row[6:9] for row in drawn.rows()[:2]], [["0", "-", "-"], ["950", "0", "949"]],
        )

    def test_refused(self):
        status, text, trouble = self.run_it(data=b"\1\0\2\0\0")
        due = "refused 1: the cycle is 0 or longer than the call takes"
        self.assertEqual((status, trouble), (3, f"picture: standard input: {due}\n"))
        self.assertEqual(
            Page(text).rows(), [["number", "1"], ["place", "-"], ["reason", cm.Refused(1).reason]],
        )

    def test_wrong(self):
        shelf = os.path.join(EXAMPLES, "shelf.record")
        help_says = "picture --help says how it is called"
        for arguments, status, due in (
            (("no.record",), 1, "no.record cannot be read: No such file or directory"),
            (("--slot", "360,0", shelf), 1, "--slot 360,0: 360 is no tick of a cycle of 360"),
            (("--slot", "0,70000", shelf), 1, "--slot 0,70000: 70000 is no tick of a cycle of 360"),
            (
                ("--slot", "80", shelf), 2,
                f"argument --slot: '80' is not of the form 350,20, start and width; {help_says}",
            ),
            (
                ("--thrown", "-1", shelf), 2,
                f"argument --thrown: '-1' is no whole number; {help_says}",
            ),
            (("--drift=x", shelf), 2, f"argument --drift: 'x' is no whole number; {help_says}"),
            ((shelf, shelf), 2, f"unrecognized arguments: {shelf}; {help_says}"),
        ):
            self.assertEqual(self.run_it(*arguments), (status, "", f"picture: {due}\n"))

    def test_help(self):
        status, said, _ = self.run_it("--help")
        self.assertEqual(status, 0)
        self.assertIn("picture --slot 80,40 bench.record > bench.html", said)


if __name__ == "__main__":
    unittest.main()
