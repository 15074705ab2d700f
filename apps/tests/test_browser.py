"""Tests of `picture` in a real browser: what it draws lies where the figures say, in the colours of
the style.

Usage, from the repository's root, once the shared library is there:
    python3 -m unittest discover apps/tests
Without Chromium they are skipped; the figures on the page are compared in test_picture.py all the
same.
"""
from __future__ import annotations

import os
import re
import shutil
import subprocess
import tempfile
import unittest
import zlib

from places import APPS, EXAMPLES

from figures import Bench
from page import page, refused_page
from png import Picture
import circle_median as cm
import strip

BROWSER = next(
    filter(None, map(shutil.which, ("chromium", "chromium-browser", "google-chrome"))), None,
)
FLAGS = [
    "--headless", "--no-sandbox", "--disable-gpu", "--hide-scrollbars",
    "--force-device-scale-factor=1", "--force-color-profile=srgb",
]
DARK = "--blink-settings=preferredColorScheme=0"


def styled(scheme: int) -> dict[str, tuple[int, int, int]]:
    """The colours that the style names: of light backgrounds, dark ones or print."""
    with open(os.path.join(APPS, "page.css"), encoding="utf-8") as file:
        block = file.read().split(":root")[1 + scheme]
    return {
        name: tuple(bytes.fromhex(value))
        for name, value in re.findall(r"--(\w+): #(\w{6});", block)
    }


def inflated(part: bytes) -> bytes:
    """A stream of a PDF, if it is a compressed one."""
    try:
        return zlib.decompress(part)
    except zlib.error:
        return b""


@unittest.skipUnless(BROWSER, "no Chromium is installed")
class Browser(unittest.TestCase):
    """Pages as Chromium draws them."""

    def made(self, text: str, product: str, *flags: str) -> bytes:
        """What the browser makes of a page."""
        with tempfile.TemporaryDirectory() as folder:
            source, made = (
                os.path.join(folder, f"page.{end}")
                for end in ("html", "pdf" if "pdf" in product else "png")
            )
            with open(source, "w", encoding="utf-8") as file:
                file.write(text)
            subprocess.run(
                [
                    BROWSER, *FLAGS, *flags, f"--user-data-dir={folder}/profile",
                    f"--{product}={made}", f"file://{source}",
                ],
                check=True, capture_output=True, timeout=120,
            )
            with open(made, "rb") as file:
                return file.read()

    def drawn(self, text: str, width: int, height: int, *flags: str) -> Picture:
        return Picture(self.made(text, "screenshot", *flags, f"--window-size={width},{height}"))

    def bench(self, name: str, slot=None) -> Bench:
        with open(os.path.join(EXAMPLES, f"{name}.record"), "rb") as file:
            bench = Bench(file.read())
        if slot:
            bench.listen(*slot)
        return bench

    def test_examples_in_both_schemes(self):
        """Each thing of the legend can be seen, and text on a background."""
        light, dark = (0, ()), (1, (DARK,))
        for name, (scheme, flags), seen in (
            ("shelf", light, ("line", "near", "thrown", "zero", "ahead", "back")),
            ("shelf", dark, ("line", "near", "thrown", "ahead", "back")),
            ("silent", light, ("line", "thrown", "silent")),
            ("one_row", dark, ("line", "thrown", "back")), ("pilot", light, ("line", "thrown")),
        ):
            shot = self.drawn(page(self.bench(name, (1, 2)), name), 1200, 900, *flags)
            due = styled(scheme)
            self.assertEqual(shot.pixel(3, 3), due["paper"], (name, scheme))
            missing = {due[each] for each in (*seen, "ink")} - shot.colours()
            self.assertEqual(missing, set(), (name, scheme))

    def test_print(self):
        """Each thrown reading is printed, and the one of the legend."""
        bench = self.bench("shelf")
        pdf = self.made(page(bench, "shelf"), "print-to-pdf")
        streams = b"".join(
            inflated(part) for part in re.findall(rb"stream\r?\n(.*?)endstream", pdf, re.S)
        )
        red, green, blue = (each / 255 for each in styled(2)["thrown"])
        self.assertEqual(blue, 0)
        begun = rb"%s\d* %s\d* 0 RG(.*?)\nS\n" % tuple(
            f"{each:.3f}"[1:4].encode().replace(b".", rb"\.") for each in (red, green)
        )
        dots = [
            dot
            for part in re.findall(begun, streams, re.S)
            for dot in re.findall(rb"(\S+ \S+) m\n(\S+ \S+) l\b", part)
        ]
        self.assertEqual(
            len(dots), 1 + sum(bench.label(index)[0].thrown for index in range(bench.labels)),
        )
        for begin, end in dots:
            self.assertNotEqual(begin, end, "a dot of no length is not printed")

    def test_where_it_is_drawn(self):
        """A strip alone, in its own units: the line and the readings are at their wakes and ticks,
        and silence below them."""
        bench = self.bench("shelf")
        for index in (0, 6):
            _, trace = bench.label(index)
            shot, frame = self.alone(bench, index), strip.frame_of(bench, trace)
            for wake in range(5, bench.wakes, 40):
                self.near(shot, frame.x(wake), frame.y(trace.unrolled[wake]), "line", (index, wake))
            for wake in trace.thrown:
                self.near(shot, frame.x(wake), frame.y(trace.placed[wake]), "thrown", (index, wake))

    def test_silence(self):
        bench = self.bench("silent")
        (_, trace), shot = bench.label(0), self.alone(bench, 0)
        frame, paper = strip.frame_of(bench, trace), styled(0)["paper"]
        for wake, at in enumerate(trace.placed):
            if at is None:
                self.near(shot, frame.x(wake), frame.bottom + strip.LANE - 3, "silent", wake)
            else:
                self.assertEqual(
                    shot.pixel(round(frame.x(wake)), round(frame.bottom + strip.LANE - 3)), paper,
                )
        gap = trace.unrolled.index(None)
        column = {shot.pixel(round(frame.x(gap)), y) for y in range(round(frame.bottom))}
        self.assertNotIn(styled(0)["line"], column)

    def alone(self, bench: Bench, index: int) -> Picture:
        """The picture of a strip, a pixel to each of its units."""
        with open(os.path.join(APPS, "page.css"), encoding="utf-8") as file:
            style = file.read()
        style += " body { margin: 0; padding: 0; max-width: none; }"
        body = f"<style>{style}</style>{strip.strip(bench, *bench.label(index))}"
        return self.drawn(f"<!DOCTYPE html><html><body>{body}</body></html>", strip.WIDTH, 440)

    def near(self, shot: Picture, x: float, y: float, name: str, where: object) -> None:
        """A colour of the style lies within two pixels of a place."""
        spots = (
            (i, j)
            for i in range(round(x) - 2, round(x) + 3)
            for j in range(round(y) - 2, round(y) + 3)
        )
        self.assertIn(
            styled(0)[name],
            {shot.pixel(min(i, shot.width - 1), min(j, shot.height - 1)) for i, j in spots}, where,
        )

    def test_refused(self):
        shot = self.drawn(refused_page(cm.Refused(9, 3), "bad.record"), 600, 300)
        self.assertLessEqual({styled(0)["ink"], styled(0)["paper"]}, shot.colours())


if __name__ == "__main__":
    unittest.main()
