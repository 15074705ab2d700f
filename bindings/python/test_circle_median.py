"""Tests of the Python module: beside the header's declarations and beside tools/reference.py, which
follows the rules of docs/SPECIFICATION.md by direct sums.

Usage, from the repository's root, once the shared library is there:
python3 -m unittest discover bindings/python
"""
from __future__ import annotations

import ast
import contextlib
import copy
import ctypes
import doctest
import io
import os
import pickle
import random
import re
import subprocess
import sys
import threading
import unittest
from array import array

HERE = os.path.dirname(os.path.abspath(__file__))
ROOT = os.path.dirname(os.path.dirname(HERE))
sys.path[:0] = [HERE, os.path.join(ROOT, "tools")]

import circle_median as cm  # noqa: E402
import reference as ref  # noqa: E402

try:
    import numpy
except ImportError:
    numpy = None

SPARE = 10**10


def load_tests(loader, tests, pattern):
    """The examples of the docstrings are tests too."""
    tests.addTests(doctest.DocTestSuite(cm, optionflags=doctest.ELLIPSIS))
    return tests


def told(call, *arguments, **named):
    """What a call returns, or its refusal as the reference has it."""
    try:
        return call(*arguments, **named)
    except cm.Refused as refused:
        return ref.Refusal(refused.number, refused.place)


def text(*names):
    """A file of the repository."""
    with open(os.path.join(ROOT, *names), encoding="utf-8") as file:
        return file.read()


def header():
    """The header without its comments."""
    return re.sub(r"/\*.*?\*/", "", text("include", "circle_median.h"), flags=re.S)


def drawn_row(chance, c, n, silent=0.2):
    return [cm.SILENT if chance.random() < silent else chance.randrange(c) for _ in range(n)]


def drawn_shape(chance):
    """A cycle, a size and a mask that every call takes, small enough for the reference."""
    short, any_cycle = chance.randint(1, 40), chance.randint(1, 65535)
    c = chance.choice((1, 2, 3, 8, 9, 360, 512, 4096, short, any_cycle))
    sides = [chance.choice((1, 1, 3, 5, 7)) for _ in range(2)]
    return c, chance.randint(1, 4), chance.randint(1, 9), *sides


class Declarations(unittest.TestCase):
    """The module declares what the header does."""

    STRUCTS = {
        "circle_median_answer": cm._Answer, "circle_median_value_answer": cm._ValueAnswer,
        "circle_median_record_answer": cm._RecordAnswer,
        "circle_median_window_answer": cm._WindowAnswer, "circle_median_window": cm._Window,
    }
    TYPES = {
        "uint16_t": "c_ushort", "uint32_t": "c_uint", "size_t": "c_ulong", "uint64_t": "c_ulong",
        "int64_t": "c_long",
    }
    POINTERS = {"uint8_t": "c_ubyte", "uint16_t": "c_ushort", "uint32_t": "c_uint"}

    def test_functions(self):
        found = re.findall(r"^(circle_median_\w+) (circle_median_\w+)\(([^)]*)\);", header(), re.M)
        self.assertEqual({name for _, name, _ in found}, set(cm._DECLARATIONS))
        for answer, name, parameters in found:
            restype, argtypes = cm._DECLARATIONS[name]
            self.assertIs(restype, self.STRUCTS[answer], name)
            due = [self.kind(each) for each in parameters.split(",")]
            self.assertEqual([kind.__name__ for kind in argtypes], due, name)

    def kind(self, parameter):
        words = parameter.replace("const ", "").split()
        return f"LP_{self.POINTERS[words[0]]}" if "*" in parameter else self.TYPES[words[0]]

    def test_structs(self):
        (room,) = re.findall(r"^#define CIRCLE_MEDIAN_LIVE_LENGTH (\d+)", header(), re.M)
        found = re.findall(r"^typedef struct (circle_median_\w+) \{([^}]*)\}", header(), re.M)
        self.assertEqual({name for name, _ in found}, set(self.STRUCTS))
        for name, members in found:
            due = [each.split() for each in members.split(";") if each.strip()]
            fields = self.STRUCTS[name]._fields_
            names = [member.partition("[")[0] for _, member in due]
            self.assertEqual([field for field, _ in fields], names, name)
            for (_, kind), (word, member) in zip(fields, due):
                element = getattr(kind, "_type_", kind) if "[" in member else kind
                self.assertEqual(element.__name__, self.TYPES[word], (name, member))
                size = ctypes.sizeof(element) * (int(room) if "[" in member else 1)
                self.assertEqual(ctypes.sizeof(kind), size, (name, member))

    def test_refused_in_words(self):
        for refused, due in (
            (cm.Refused(1), "refused 1: the cycle is 0 or longer than the call takes"),
            (cm.Refused(13, 35), "refused 13 at 35: bytes follow the end field"),
        ):
            self.assertEqual(str(refused), due)

    def test_refused_is_pickled(self):
        refused = pickle.loads(pickle.dumps(cm.Refused(9, 3)))
        self.assertEqual((refused.number, refused.place, refused.reason), (9, 3, cm._REASONS[9]))

    def test_all_is_documented(self):
        for name in set(cm.__all__) - {"SILENT"}:
            self.assertTrue(getattr(cm, name).__doc__, name)
        for name in ("push", "reset", "cycle", "length", "filled"):
            self.assertTrue(getattr(cm.LiveWindow, name).__doc__, name)


class Cycle(unittest.TestCase):
    """Distance, step, slot and drift."""

    NUMBERS = (
        0, 1, 2, 7, 8, 9, 359, 360, 4096, 65534, 65535, 65536, 65544, 2**32, 2**32 + 8, 2**64 + 3,
        -1, -8, -(2**40),
    )

    def test_pairs_and_slots(self):
        chance = random.Random(1)
        for _ in range(4000):
            c = chance.choice((*self.NUMBERS, chance.randint(1, 65535)))
            p, s, w = (
                chance.choice((chance.choice(self.NUMBERS), chance.randrange(max(1, c))))
                for _ in range(3)
            )
            for call, due, some in (
                (cm.distance, ref.distance_call, (p, s)), (cm.step, ref.step_call, (p, s)),
                (cm.slot, ref.slot_call, (p, s, w)),
            ):
                # The reference's numbers have no sign; what is below 0 is no cycle and no tick.
                natural = [2**70 if x < 0 else x for x in (c, *some)]
                self.assertEqual(told(call, c, *some), due(*natural), (call, c, some))

    def test_drift(self):
        chance = random.Random(2)
        for _ in range(2000):
            any_cycle = chance.randint(1, 65535)
            c = chance.choice((0, 1, 2, 8, 360, 65535, 65536, 2**32 + 8, -8, any_cycle))
            most = chance.choice((c + 1, c, c, 360)) % 65535 or 1
            row = drawn_row(chance, most, chance.randint(0, 30))
            due = ref.drift_call(2**70 if c < 0 else c, row)
            self.assertEqual(told(cm.drift, c, array("H", row)), due, (c, row))
        self.assertEqual(told(cm.drift, 8, array("H", [0]) * 8192), 0)
        self.assertEqual(told(cm.drift, 8, array("H", [0]) * 8193), ref.Refusal(2, 0))

    def test_answers_are_python_numbers(self):
        self.assertIs(cm.slot(8, 1, 1, 0), True)
        self.assertIs(type(cm.distance(8, 1, 2)), int)

    def test_what_is_no_number(self):
        for cycle, tick in ((8.0, 1), (8, 1.5), ("8", 1), (8, None)):
            with self.assertRaises(TypeError):
                cm.distance(cycle, tick, 0)


class Filter(unittest.TestCase):
    """Both engines and the choice between them."""

    LIMITS = {
        cm.Engine.LEVEL: (4096, ref.level_need), cm.Engine.READING: (65535, ref.reading_need),
    }

    def test_against_the_reference(self):
        chance = random.Random(3)
        for _ in range(1500):
            c, m, n, r, t = shape = drawn_shape(chance)
            image = drawn_row(chance, c, m * n, chance.choice((0, 0.2, 0.8)))
            first = chance.randint(0, m)
            end = chance.randint(first, m)
            due = ref.filtered(shape, first, end, image, [9] * (m * n + 1))
            rows, lent = range(first, end), array("H", image)
            level = ("level", cm.Engine.LEVEL) if c <= 4096 else ()
            for engine in (None, cm.Engine.READING, "reading", *level):
                output = array("H", [9]) * (m * n + 1)
                told_back = cm.filter(
                    lent, c, (r, t), (m, n), rows=rows, engine=engine, output=output,
                )
                self.assertIs(told_back, output)
                self.assertEqual(output.tolist(), due, (shape, engine))
            new = cm.filter(lent, c, (r, t), (m, n), rows=rows)
            due = ref.filtered(shape, first, end, image, [cm.SILENT] * (m * n))
            self.assertEqual(new.tolist(), due, shape)

    def test_refusals(self):
        chance = random.Random(4)
        seen = set()
        for _ in range(6000):
            c, m, n, r, t = drawn_shape(chance)
            c, m, n, r, t = shape = [
                chance.choice((x,) * 7 + (self.odd(chance),)) for x in (c, m, n, r, t)
            ]
            if m * n > 100 and chance.random() < 0.9:
                m = n = shape[1] = shape[2] = 3
            size = m * n if 0 <= m * n <= 10000 else 10
            length = chance.choice((size, size, size, size + 1))
            image = array("H", drawn_row(chance, max(1, min(c, 65535)), length))
            if image and chance.random() < 0.2:
                image[chance.randrange(len(image))] = chance.choice((65534, max(0, min(c, 65535))))
            ranges = ((0, m), (0, m), (1, 0), (0, m + 1), (-1, 1), (0, 2**32 + 1))
            first, end = chance.choice(ranges)
            short = max(0, m * n - 1) if 0 <= m * n <= 10000 else 3
            room = chance.choice((len(image), len(image), short))
            engine = chance.choice(tuple(cm.Engine))
            output = array("H", [9]) * room
            natural = [2**70 if x < 0 else x for x in (*shape, first, end)]
            limit, need = self.LIMITS[engine]
            lengths = image.tolist(), room, SPARE
            due = ref.filter_refusal(limit, need, natural[:5], *natural[5:], *lengths)
            given = told(
                cm.filter, image, c, (r, t), (m, n), rows=range(first, end), engine=engine,
                output=output,
            )
            if due is None:
                written = ref.filtered(shape, first, end, image, [9] * (m * n))
                self.assertEqual(output[:m * n].tolist(), written, shape)
            else:
                self.assertEqual(given, due, (shape, first, end, len(image), room, engine))
                self.assertEqual(output, array("H", [9]) * room)
                seen.add(due.number)
        self.assertEqual(seen, {1, 2, 3, 5, 6, 7, 9})

    @staticmethod
    def odd(chance):
        """A number outside a range."""
        return chance.choice(
            (0, 2, 4, 257, 1025, 4097, 8193, 65536, 2**32 + 1, 2**32 + 8, 2**64, -1, -3)
        )

    def test_no_engine_named(self):
        """Cycles too long for the level engine are filtered, with masks for which it is faster."""
        for c in (4096, 4097, 4462):
            row = array("H", [x * 37 % c for x in range(40)])
            due = cm.filter(row, c, (5, 255), engine="reading")
            self.assertEqual(cm.filter(row, c, (5, 255)), due)
        self.assertEqual(told(cm.filter, array("H", [1]), 65536, (1, 255)), ref.Refusal(1, 0))
        with self.assertRaises(ValueError):
            cm.filter(array("H", [1]), 8, (1, 3), engine="other")

    def test_rows(self):
        image = array("H", [5, 0, 0, 4, 1, 7])
        for rows in (range(0, 2, 2), (0, 1), 1):
            with self.assertRaises(TypeError):
                cm.filter(image, 8, (1, 3), (2, 3), rows=rows)
        refused = told(cm.filter, image, 8, (1, 3), (2, 3), rows=range(2, 1))
        self.assertEqual(refused, ref.Refusal(5, 0))
        none = cm.filter(image, 8, (1, 3), (2, 3), rows=range(1, 1))
        self.assertEqual(none.tolist(), [cm.SILENT] * 6)

    def test_threads(self):
        chance = random.Random(5)
        rows, columns = 64, 200
        image = array("H", drawn_row(chance, 360, rows * columns))
        parts = [
            (array("H", [0]) * len(image), range(first, first + 16)) for first in range(0, rows, 16)
        ]
        call = image, 360, (3, 7), (rows, columns)
        threads = [
            threading.Thread(target=cm.filter, args=call, kwargs={"rows": part, "output": output})
            for output, part in parts
        ]
        for thread in threads:
            thread.start()
        for thread in threads:
            thread.join()
        together = array("H")
        for output, part in parts:
            together += output[part.start * columns:part.stop * columns]
        self.assertEqual(together, cm.filter(*call))


class Records(unittest.TestCase):
    """Writer and reader."""

    ROW = bytes.fromhex(
        "010002 0008 020004 00010005 030004 00010003 04000A 00010004000100070007 FF0000"
    )

    def read(self, data, room):
        """The reader with room for that many readings; what lies behind is kept."""
        output = array("H", [9]) * room
        said = told(cm.read_record, data, output)
        if isinstance(said, ref.Refusal):
            self.assertEqual(output, array("H", [9]) * room)
            return said
        rest = output[len(said.readings):]
        self.assertEqual(rest, array("H", [9]) * (room - len(said.readings)))
        return ref.Record(said.cycle, *said.size, *said.mask, said.readings.tolist())

    def both(self, data, room):
        """The reader with room, and with room that it makes, beside the reference."""
        self.assertEqual(self.read(data, room), ref.read_record(data, room), (data, room))
        said, due = told(cm.read_record, data), ref.read_record(data, SPARE)
        if not isinstance(due, ref.Refusal):
            self.assertIsInstance(said.readings, array)
            mask, size = (due.mask_rows, due.mask_columns), (due.rows, due.columns)
            due = cm.Record(array("H", due.readings), due.cycle, mask, size)
        self.assertEqual(said, due, data)

    def test_every_cut_and_byte(self):
        for room in (0, 4, 5, 9):
            for cut in range(len(self.ROW) + 1):
                self.both(self.ROW[:cut], room)
        for at in range(len(self.ROW)):
            for value in (0, 1, 2, 3, 4, 8, 10, 255, *random.Random(at).sample(range(256), 12)):
                self.both(self.ROW[:at] + bytes([value]) + self.ROW[at + 1:], 5)
        self.both(self.ROW + b"\0", 5)
        self.both(self.ROW[:12] + bytes.fromhex("030000") + self.ROW[19:], 5)

    def test_round_trip(self):
        chance = random.Random(6)
        for _ in range(1500):
            c, m, n, r, t = drawn_shape(chance)
            image = array("H", drawn_row(chance, c, m * n))
            data = cm.write_record(image, c, (r, t), (m, n))
            self.assertEqual(data, ref.write_record(c, m, n, r, t, image.tolist(), SPARE))
            record = cm.read_record(data)
            self.assertEqual(record, (image, c, (r, t), (m, n)))
            self.assertEqual(cm.write_record(*record), data)
            self.both(data, m * n)

    def test_write_refused(self):
        chance = random.Random(7)
        seen = set()
        for _ in range(4000):
            c, m, n, r, t = shape = [
                chance.choice((x,) * 9 + (Filter.odd(chance),)) for x in drawn_shape(chance)
            ]
            length = (m * n if 0 <= m * n <= 10000 else 10) + chance.choice((0, 0, 0, 1))
            most = max(1, min(c, 65534)) + chance.choice((0, 0, 1))
            image = array("H", drawn_row(chance, most, length))
            natural = [2**70 if x < 0 else x for x in shape]
            due = ref.write_record(*natural, image.tolist(), SPARE)
            self.assertEqual(told(cm.write_record, image, c, (r, t), (m, n)), due, shape)
            seen.add(due.number if isinstance(due, ref.Refusal) else 0)
        self.assertEqual(seen, {0, 1, 2, 3, 6, 9})

    def test_largest(self):
        image = array("H", range(8192)) * 1024
        data = cm.write_record(image, 65535, (1, 7), (1024, 8192))
        self.assertEqual(len(data), 22 + 1024 * (3 + 2 * 8192))
        self.assertEqual(cm.read_record(data).readings, image)


class Live(unittest.TestCase):
    """The live window."""

    def test_against_the_reference(self):
        chance = random.Random(8)
        for _ in range(300):
            c = chance.choice((1, 2, 8, 360, 512, chance.randint(1, 512)))
            t = 2 * chance.randint(0, 31) + 1
            window, due = cm.LiveWindow(c, t), ref.LiveWindow(c, t, [])
            for reading in drawn_row(chance, c, chance.randint(0, 90)):
                if chance.random() < 0.05:
                    reading = chance.choice((c, 65534, 65536, 2**32, 2**32 + 1, -1))
                if chance.random() < 0.02:
                    window.reset()
                    due.reset()
                answer = due.push(reading if reading >= 0 else 2**70)
                answer = None if answer == ref.FILLING else answer
                self.assertEqual(told(window.push, reading), answer, (c, t))
                self.assertEqual(window.filled, due.members()[0])

    def test_refused(self):
        for c, t in (
            (0, 3), (513, 3), (8, 0), (8, 2), (8, 65), (0, 2), (2**32 + 8, 3), (8, 2**32 + 3),
            (-1, 3), (8, -1),
        ):
            due = ref.live_refusal(2**70 if c < 0 else c, 2**70 if t < 0 else t)
            self.assertEqual(told(cm.LiveWindow, c, t), due, (c, t))
        with self.assertRaises(TypeError):
            cm.LiveWindow(8, 3).push(1.0)

    def test_a_copy_is_a_window_by_itself(self):
        def pickled(window):
            return pickle.loads(pickle.dumps(window))

        for made in (copy.copy, copy.deepcopy, pickled):
            window = cm.LiveWindow(8, 3)
            window.push(1)
            other = made(window)
            self.assertEqual([other.push(x) for x in (4, 1, 7)], [None, 1, 1])
            self.assertEqual((window.filled, window.push(7), window.push(7)), (1, None, 7))
            self.assertEqual(repr(other), "LiveWindow(8, 3)")

    def test_members_are_told(self):
        window = cm.LiveWindow(360, 15)
        self.assertEqual((window.cycle, window.length, window.filled), (360, 15, 0))
        with self.assertRaises(AttributeError):
            window.cycle = 8


class Buffers(unittest.TestCase):
    """What is taken for a buffer."""

    ROW = array("H", [1, 4, 1, 7, 7])
    DUE = array("H", [1, 1, 1, 7, 7])

    def test_taken(self):
        copied = bytes(self.ROW.tobytes())
        odd = bytearray(b"\0" + copied)
        for readings in (
            self.ROW, memoryview(self.ROW), memoryview(copied).cast("H"),
            memoryview(bytearray(copied)).cast("H"), (ctypes.c_uint16 * 5)(*self.ROW),
            memoryview(odd)[1:].cast("H"),
        ):
            self.assertEqual(cm.filter(readings, 8, (1, 3)), self.DUE)
            self.assertEqual(cm.drift(8, readings), -2)
            self.assertEqual(cm.write_record(readings, 8, (1, 3)), Records.ROW)
        for data in (
            Records.ROW, bytearray(Records.ROW), memoryview(Records.ROW), array("B", Records.ROW),
            (ctypes.c_uint8 * 35)(*Records.ROW), (ctypes.c_char * 35)(*Records.ROW),
        ):
            self.assertEqual(cm.read_record(data).readings, self.ROW)

    def test_dimensions(self):
        image = memoryview(self.ROW.tobytes() * 2).cast("H", (2, 5))
        self.assertEqual(cm.filter(image, 8, (1, 3)), self.DUE * 2)
        self.assertEqual(cm.filter(image, 8, (1, 3), (2, 5)), self.DUE * 2)
        for size in ((1, 10), (5, 2)):
            with self.assertRaises(ValueError):
                cm.filter(image, 8, (1, 3), size)
        for wrong in (
            {"mask": 15}, {"mask": (1, 3, 5)}, {"mask": (1, 3), "size": 10}, {"mask": (1, 3.0)},
        ):
            with self.assertRaises(TypeError):
                cm.filter(self.ROW, 8, **wrong)
        wide = memoryview(bytearray(24)).cast("H", (2, 6))
        with self.assertRaises(TypeError):
            cm.filter(image, 8, (1, 3), output=wide)
        with self.assertRaises(TypeError):
            cm.drift(8, image)
        output = array("H", [9]) * 11
        cm.filter(image, 8, (1, 3), output=memoryview(output))
        self.assertEqual(output, self.DUE * 2 + array("H", [9]))
        deep = memoryview(bytes(24)).cast("H", (2, 2, 3))
        self.assertEqual(cm.filter(deep, 8, (1, 3), (2, 6)), array("H", [0]) * 12)
        with self.assertRaises(TypeError):
            cm.filter(deep, 8, (1, 3))
        room = memoryview(bytearray(12)).cast("H", (2, 3))
        self.assertEqual(cm.read_record(Records.ROW, room).readings.tolist(), self.ROW.tolist())

    def test_no_buffer_of_readings(self):
        copied = self.ROW.tobytes()
        for readings in (
            self.ROW.tolist(), tuple(self.ROW), "14177", 5, None, copied, bytearray(copied),
            array("h", self.ROW), array("I", self.ROW), array("d", self.ROW),
            memoryview(self.ROW)[::2], memoryview(self.ROW)[::-1], ctypes.c_uint16(4),
            (ctypes.c_uint16.__ctype_be__ * 5)(),
        ):
            for call in (
                lambda x: cm.filter(x, 8, (1, 3)), lambda x: cm.drift(8, x),
                lambda x: cm.write_record(x, 8, (1, 3)),
            ):
                with self.assertRaises(TypeError) as caught:
                    call(readings)
                self.assertNotIn("\n", str(caught.exception))

    def test_no_buffer_of_bytes(self):
        for data in (
            "0100", 7, None, [1, 0, 2], self.ROW, array("b", b"12"), memoryview(Records.ROW)[::2],
        ):
            with self.assertRaises(TypeError):
                cm.read_record(data)

    def test_no_output(self):
        for output in (
            bytes(10), memoryview(self.ROW).toreadonly(), memoryview(bytes(10)).cast("H"),
            bytearray(10), array("h", self.ROW), array("I", self.ROW), [0] * 5,
            memoryview(array("H", [0]) * 10)[::2], memoryview(bytearray(11))[1:].cast("H"),
        ):
            with self.assertRaises(TypeError):
                cm.filter(self.ROW, 8, (1, 3), output=output)
            with self.assertRaises(TypeError):
                cm.read_record(Records.ROW, output)

    def test_overlaps(self):
        memory = array("H", [1, 4, 1, 7, 7, 0, 0, 0, 0, 0])
        parts = memoryview(memory)
        for output in (parts[:5], parts[4:9], memory):
            with self.assertRaises(ValueError):
                cm.filter(parts[:5], 8, (1, 3), output=output)
        cm.filter(parts[:5], 8, (1, 3), output=parts[5:])
        self.assertEqual(memory, self.ROW + self.DUE)
        data = bytearray(Records.ROW + b"\0")
        with self.assertRaises(ValueError):
            cm.read_record(memoryview(data)[:35], memoryview(data)[24:34].cast("H"))
        self.assertEqual(data, Records.ROW + b"\0")

    def test_buffers_are_given_back(self):
        """What was lent can grow again, after a result, and after a refusal that is looked at."""
        readings, output = array("H", [0, 8]), array("H", [9]) * 2
        data = bytearray(Records.ROW[:34])
        refusals = 0
        for call in (
            lambda: cm.filter(readings, 8, (1, 3), output=output), lambda: cm.drift(8, readings),
            lambda: cm.write_record(readings, 8, (1, 3)), lambda: cm.read_record(data),
            lambda: cm.read_record(data, output),
        ):
            try:
                call()
            except cm.Refused:
                refusals += 1
                for each in (readings, output, data):
                    each.append(each.pop())
        self.assertEqual(refusals, 5)
        readings[1] = 1
        cm.filter(readings, 8, (1, 3), output=output)
        for each in (readings, output):
            each.append(1)

    def test_empty(self):
        for readings in (array("H"), memoryview(b"").cast("H")):
            self.assertEqual(told(cm.filter, readings, 8, (1, 3)), ref.Refusal(2, 0))
            self.assertEqual(told(cm.filter, readings, 8, (1, 3), (1, 1)), ref.Refusal(6, 0))
            self.assertEqual(told(cm.drift, 8, readings), ref.Refusal(2, 0))
            self.assertEqual(told(cm.write_record, readings, 8, (1, 3)), ref.Refusal(2, 0))
        refused = told(cm.filter, self.ROW, 8, (1, 3), output=array("H"))
        self.assertEqual(refused, ref.Refusal(7, 0))
        self.assertEqual(told(cm.read_record, b"", array("H")), ref.Refusal(10, 0))


@unittest.skipUnless(numpy, "NumPy is not installed")
class NumPy(unittest.TestCase):
    """NumPy's arrays as buffers."""

    def test_images(self):
        image = numpy.array([[1, 4, 1, 7, 7], [0, 0, 3, 0, 0]], dtype=numpy.uint16)
        output = numpy.empty_like(image)
        self.assertIs(cm.filter(image, 8, (1, 3), output=output), output)
        self.assertEqual(output.tolist(), [[1, 1, 1, 7, 7], [0, 0, 0, 0, 0]])
        due = output.ravel().tolist()
        self.assertEqual(cm.filter(image, numpy.int64(8), (numpy.uint8(1), 3)).tolist(), due)
        record = cm.read_record(cm.write_record(image, 8, (1, 3)))
        back = numpy.frombuffer(record.readings, numpy.uint16).reshape(record.size)
        self.assertTrue((back == image).all())
        image.flags.writeable = False
        self.assertEqual(cm.filter(image, 8, (1, 3)).tolist(), due)
        self.assertEqual(cm.drift(8, output[0]), -2)

    def test_no_images(self):
        image = numpy.array([[1, 4, 1], [7, 7, 0]], dtype=numpy.uint16)
        kept = numpy.full_like(image, 9)
        kept.flags.writeable = False
        for wrong in (
            image.astype(numpy.int16), image.astype(int), image.astype(float),
            image.astype(numpy.uint8), image.astype(">u2"), image.T, image[:, ::2], image[0, 0],
        ):
            with self.assertRaises(TypeError):
                cm.filter(wrong, 8, (1, 3))
        masked = numpy.ma.array([1, 4, 1], mask=[0, 1, 0], dtype=numpy.uint16)
        for call in (lambda: cm.filter(masked, 8, (1, 3)), lambda: cm.drift(8, masked)):
            with self.assertRaises(TypeError):
                call()
        self.assertEqual(cm.drift(8, masked.filled(cm.SILENT)), 0)
        tall = numpy.zeros((3, 2), numpy.uint16)
        for output in (kept, kept.astype(numpy.int16), tall.T, tall):
            with self.assertRaises(TypeError):
                cm.filter(image, 8, (1, 3), output=output)


class Readme(unittest.TestCase):
    """The Python examples of README.md and bindings/README.md do what their comments say."""

    def test_examples(self):
        here = os.getcwd()
        self.addCleanup(os.chdir, here)
        os.chdir(ROOT)
        for names in (("README.md",), ("bindings", "README.md")):
            blocks = re.findall(r"```python\n(.*?)```", text(*names), re.S)
            variables, told_here = {}, 0
            for block in blocks:
                told_here += self.run_block(block, variables)
            self.assertGreater(told_here, 0, names)

    def run_block(self, block, variables):
        """Runs a block; how many of its lines have a comment that begins as a result does."""
        lines, told_here = block.split("\n"), 0
        for node in ast.parse(block).body:
            due = lines[node.end_lineno - 1].partition("  #")[2].strip().rstrip(". ")
            value = self.value(node, variables)
            if due.startswith(("array(", "[", "raises")) or re.match(r"-?[0-9]+$", due):
                self.assertEqual(value[:len(due)], due)
                told_here += 1
        return told_here

    @staticmethod
    def value(node, variables):
        """The value of an expression, or of what a statement assigns, or a refusal, as text."""
        try:
            with contextlib.redirect_stdout(io.StringIO()):
                if isinstance(node, ast.Expr):
                    code = compile(ast.Expression(node.value), "README", "eval")
                    return repr(eval(code, variables))
                exec(compile(ast.Module([node], []), "README", "exec"), variables)
        except cm.Refused as refused:
            return f"raises Refused: {refused}"
        if isinstance(node, ast.Assign) and isinstance(node.targets[0], ast.Name):
            return repr(variables.get(node.targets[0].id))
        return ""


class Library(unittest.TestCase):
    """How the library is found."""

    def called(self, folder):
        """The status and the last line of a call with a folder's library, where the system has one
        too."""
        system = os.path.dirname(cm._library()._name)
        environment = {**os.environ, "CIRCLE_MEDIAN_LIB": folder, "LD_LIBRARY_PATH": system}
        program = "import circle_median; circle_median.distance(8, 1, 2)"
        command = [sys.executable, "-c", program]
        run = subprocess.run(command, cwd=HERE, env=environment, capture_output=True, text=True)
        return run.returncode, run.stderr.strip().split("\n")[-1]

    def test_missing(self):
        status, said = self.called(os.path.join(HERE, "no such folder"))
        self.assertEqual(status, 1)
        self.assertRegex(said, r"^ImportError: circle_median has no library: .*make shared")

    def test_named(self):
        folder = os.path.dirname(cm._library()._name)
        if not folder:
            self.skipTest("the library is the system's")
        self.assertEqual(self.called(folder), (0, ""))


if __name__ == "__main__":
    unittest.main()
