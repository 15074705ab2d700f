"""The rules of docs/SPECIFICATION.md in Python, by direct sums: no running sums, and nothing shared
with the crates.

The stored outputs of the test programs are made with it. A call returns its result, or a Refusal. A
reading, in an image, a row or a record, is a tick of the cycle or silent; an argument of distance,
step or slot is a tick.
"""
from collections import namedtuple

Refusal = namedtuple("Refusal", "number place")

# The reading of a wake that was not heard. No cycle has it as a tick.
SILENT = 65535


def heard(readings):
    """The readings that were heard, in their order."""
    return [x for x in readings if x != SILENT]


def distance(c, a, b):
    e = abs(a - b)
    return min(e, c - e)


def step(c, a, b):
    """The shortest way from a to b; half a cycle is a step back."""
    e = (b - a) % c
    return e if 2 * e < c else e - c


def drift(c, row):
    """The steps from each heard reading to the next one heard, whatever is silent between them; 0
    with none or one heard."""
    ticks = heard(row)
    return sum(step(c, a, b) for a, b in zip(ticks, ticks[1:]))


def in_slot(c, p, s, w):
    return (p - s) % c <= w


def arguments(c, *ticks):
    """The tests of distance, step and slot: 1, then 9 with the argument's place. A silent reading
    is no tick."""
    if not 1 <= c <= 65535:
        return Refusal(1, 0)
    for k, x in enumerate(ticks):
        if x >= c:
            return Refusal(9, k)
    return None


def distance_call(c, a, b):
    return arguments(c, a, b) or distance(c, a, b)


def step_call(c, a, b):
    return arguments(c, a, b) or step(c, a, b)


def slot_call(c, p, s, w):
    refusal = arguments(c, p, s, w)
    return refusal if refusal else in_slot(c, p, s, w)


def drift_call(c, row):
    if not 1 <= c <= 65535:
        return Refusal(1, 0)
    if not 1 <= len(row) <= 8192:
        return Refusal(2, 0)
    bad = reading_fault(c, row)
    return drift(c, row) if bad is None else Refusal(9, bad)


def reading_fault(c, readings):
    """The index of the first that is neither a tick nor silent, or None."""
    return next((k for k, x in enumerate(readings) if x >= c and x != SILENT), None)


def size_fault(m, n):
    return not 1 <= m <= 1024 or not 1 <= n <= 8192


def mask_fault(r, t):
    return any(side % 2 == 0 or not 1 <= side <= 255 for side in (r, t))


def shape_refusal(limit, shape):
    """Tests 1 to 3 on a cycle, an image's size and a mask's size."""
    c, m, n, r, t = shape
    if not 1 <= c <= limit:
        return Refusal(1, 0)
    if size_fault(m, n):
        return Refusal(2, 0)
    if mask_fault(r, t):
        return Refusal(3, 0)
    return None


Record = namedtuple("Record", "cycle rows columns mask_rows mask_columns readings")

DEFAULT_MASK = (1, 7)


def write_record(c, m, n, r, t, readings, room):
    """The record's bytes, or a Refusal: 1, 2, 3, 6, 7, 9 in this order."""
    refusal = shape_refusal(65535, (c, m, n, r, t))
    if refusal:
        return refusal
    if len(readings) != m * n:
        return Refusal(6, 0)

    def field(tag, *numbers):
        body = b"".join(x.to_bytes(2, "big") for x in numbers)
        return bytes([tag]) + len(body).to_bytes(2, "big") + body

    if room < 22 + m * (3 + 2 * n):
        return Refusal(7, 0)
    bad = reading_fault(c, readings)
    if bad is not None:
        return Refusal(9, bad)
    rows = [readings[i * n:(i + 1) * n] for i in range(m)]
    return (
        field(1, c) + field(2, m, n) + field(3, r, t) + b"".join(field(4, *row) for row in rows)
        + field(255)
    )


class Stop(Exception):
    """The reader stops at a refusal."""


def read_record(record, room):
    """What the reader makes of any bytes, with room for that many readings: a Record or a
    Refusal."""
    at = 0

    def stop(number, place=0):
        raise Stop(Refusal(number, place))

    def field(tag, *lengths):
        """The numbers of the field at hand, of which one of the lengths is due."""
        nonlocal at
        head = record[at:at + 3]
        if len(head) < 3:
            stop(10, at)
        if head[0] != tag:
            stop(11, at)
        length = int.from_bytes(head[1:], "big")
        if length not in lengths:
            stop(12, at)
        body = record[at + 3:at + 3 + length]
        if len(body) < length:
            stop(10, at)
        at += 3 + length
        return [int.from_bytes(body[k:k + 2], "big") for k in range(0, length, 2)]

    try:
        c, = field(1, 2)
        if c == 0:
            stop(1)
        m, n = field(2, 4)
        if size_fault(m, n):
            stop(2)
        r, t = field(3, 0, 4) or DEFAULT_MASK
        if mask_fault(r, t):
            stop(3)
        if room < m * n:
            stop(7)
        readings = []
        for _ in range(m):
            row = field(4, 2 * n)
            bad = reading_fault(c, row)
            if bad is not None:
                stop(9, len(readings) + bad)
            readings += row
        field(255, 0)
        if at < len(record):
            stop(13, at)
    except Stop as refusal:
        return refusal.args[0]
    return Record(c, m, n, r, t, readings)


def mirrored(size, x):
    """The place, in a line of that many, that any index stands for: SPECIFICATION, "Mirror"."""
    k = x % (2 * size)
    return k if k < size else 2 * size - 1 - k


def window(shape, image, i, j):
    """The readings of a window, row by row, repeats counted."""
    _, m, n, r, t = shape
    rows = [mirrored(m, i + k) for k in range(-(r // 2), r // 2 + 1)]
    columns = [mirrored(n, j + k) for k in range(-(t // 2), t // 2 + 1)]
    return [image[a * n + b] for a in rows for b in columns]


def summed(c, x, ticks):
    return sum(distance(c, x, y) for y in ticks)


def chosen(c, centre, ticks, among):
    """Among some ticks those of least sum, and of these the one nearest to the centre; of two, the
    one ahead of it."""
    sums = {x: summed(c, x, ticks) for x in set(among)}
    least = min(sums.values())
    equals = [x for x in sums if sums[x] == least]
    nearest = min(distance(c, x, centre) for x in equals)
    ahead, behind = (centre + nearest) % c, (centre - nearest) % c
    return ahead if ahead in equals else behind


def centre_of(centre, readings):
    """What takes the centre's part among equals: itself, or the window's first heard reading if it
    is silent."""
    return centre if centre != SILENT else next(iter(heard(readings)), SILENT)


def phase(c, centre, readings):
    """What is written for a window: the chosen one of its heard readings, or silence if there is
    none."""
    ticks = heard(readings)
    return chosen(c, centre_of(centre, readings), ticks, ticks) if ticks else SILENT


def filter_refusal(limit, need, shape, first, end, image, output, work):
    """The tests of a filter call, 1 to 3 and 5 to 9; need is the engine's length of work memory."""
    refusal = shape_refusal(limit, shape)
    if refusal:
        return refusal
    c, m, n = shape[:3]
    if not first <= end <= m:
        return Refusal(5, 0)
    for number, passed in (6, len(image) == m * n), (7, output >= m * n), (8, work >= need(shape)):
        if not passed:
            return Refusal(number, 0)
    bad = reading_fault(c, image)
    return None if bad is None else Refusal(9, bad)


def level_need(shape):
    return shape[0] * (shape[2] + 1)


def reading_need(shape):
    return shape[3] * shape[4] * (shape[2] + 1)


def filtered(shape, first, end, image, output):
    """The output of an accepted call: the rows of the range written, the rest kept."""
    n = shape[2]
    for i in range(first, end):
        for j in range(n):
            output[i * n + j] = phase(shape[0], image[i * n + j], window(shape, image, i, j))
    return output


# The live window.

FILLING, ANSWERED = "filling", "answered"


def live_refusal(c, t):
    """The tests of a new window: 1, then 3."""
    if not 1 <= c <= 512:
        return Refusal(1, 0)
    return None if t % 2 == 1 and 1 <= t <= 63 else Refusal(3, 0)


class LiveWindow:
    """A window of C and T, as all the readings that it has accepted since it was fresh; these are
    None where no call made it."""

    def __init__(self, c, t, history):
        self.c, self.t, self.history = c, t, history

    def reset(self):
        """A Refusal, or None."""
        refusal = live_refusal(self.c, self.t)
        if not refusal:
            self.history = []
        return refusal

    def push(self, reading):
        """Filling, the median of the last T, or a Refusal: 1 and 3, then 9. Where no call made the
        window there is some answer."""
        refusal = live_refusal(self.c, self.t)
        if refusal:
            return refusal
        if reading_fault(self.c, [reading]) is not None:
            return Refusal(9, 0)
        if self.history is None:
            return ANSWERED
        self.history.append(reading)
        last = self.last()
        return FILLING if len(self.history) < self.t else phase(self.c, last[self.t // 2], last)

    def last(self):
        """The last T readings, oldest first; silent ones stand for those before the first."""
        return ([SILENT] * self.t + self.history)[len(self.history):]

    def members(self):
        """How many of the last T were pushed, the last T, and the sum at each, 0 at a silent one;
        behind them 63 - T silent ones."""
        last, rest = self.last(), 63 - self.t
        sums = [0 if x == SILENT else summed(self.c, x, heard(last)) for x in last]
        return min(len(self.history), self.t), last + [SILENT] * rest, sums + [0] * rest


def outcome_of(outcome):
    """An outcome as the test programs print it."""
    if isinstance(outcome, Refusal):
        return f"refused {outcome.number} at {outcome.place}"
    return str(outcome)
