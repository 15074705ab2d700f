"""The circle median of wake phases: the calls of the proved library for Python.

A shelf label wakes once in a cycle. A reading is the tick at which it did, from 0 to cycle - 1, or
SILENT where the wake was not heard. The filter gives each reading of an image, labels by wakes, the
chosen phase of its window: the heard reading of the window with the least sum of distances, round
the cycle, to all that are heard there; of several the one nearest to the window's centre, and of
two as near the one ahead of it. filter() does so for an image that is stored, and a LiveWindow for
one label, wake by wake. The rules are those of docs/SPECIFICATION.md, which docstrings cite by
headings: SPECIFICATION, "Heading".

    >>> from array import array
    >>> import circle_median
    >>> row = array("H", [1, 4, 1, 7, 7])
    >>> filtered = circle_median.filter(row, cycle=8, mask=(1, 3))
    >>> filtered
    array('H', [1, 1, 1, 7, 7])
    >>> circle_median.drift(8, filtered)
    -2

Answers. Each call returns its result or raises Refused, which has a number and a place. A refused
call has changed no memory. A docstring lists the tests of its call in their order, by number.

Silence. SILENT is a reading of every cycle and a tick of none. It has no distance and adds to no
sum. Where the centre of a window is silent, the window's first heard reading, row by row, stands in
for it; where all of the window is silent, so is the phase; a drift passes over it:

    >>> SILENT = circle_median.SILENT
    >>> row = array("H", [1, SILENT, 7, SILENT, SILENT, SILENT, 3])
    >>> filtered = circle_median.filter(row, cycle=8, mask=(1, 3))
    >>> ["-" if phase == SILENT else phase for phase in filtered]
    [1, 1, 7, 7, '-', 3, 3]

Buffers. Images, rows and outputs are buffers of unsigned numbers of 16 bits in the machine's order,
row by row without gaps: array("H"), memoryviews of it, NumPy arrays of dtype uint16. Records are
buffers of bytes. A buffer of other elements, one with a mask of its own, and an output that cannot
be written, is a TypeError before the call. An image of two dimensions needs no size, as with NumPy:

    image = numpy.array([[1, 4, 1, 7, 7]], dtype=numpy.uint16)
    filtered = numpy.empty_like(image)
    circle_median.filter(image, cycle=8, mask=(1, 3), output=filtered)

Numbers are integers of any size. One that the library's parameter has no room for is refused like
any other that is out of range; what is no integer is a TypeError.

Threads. The calls let other threads run, so rows may be filtered in several threads, each with an
output of its own. A thread that filters needs 512 KiB of stack. While a call runs, no other thread
may change what it reads or writes. Two buffers of a call may not be one memory that is mapped
twice, and a LiveWindow is for one thread at a time. A call is not interrupted: an image that takes
long is better filtered some rows at a time.

The library is libcircle_median.so: of the folder that the environment variable CIRCLE_MEDIAN_LIB
names, else of the repository or the installation that this file is part of, else of the system. The
first call loads it; an ImportError says that it is not there.
"""
from __future__ import annotations

import ctypes
import enum
import functools
import operator
import os
import sys
from array import array
from ctypes import POINTER, c_int64, c_size_t, c_uint8, c_uint16, c_uint32, c_uint64
from typing import TYPE_CHECKING, Any, NamedTuple, Optional, Tuple, Union

if TYPE_CHECKING:
    from typing_extensions import Buffer
else:
    Buffer = Any

__all__ = [
    "SILENT", "Engine", "LiveWindow", "Record", "Refused",
    "distance", "drift", "filter", "read_record", "slot", "step", "write_record",
]

SILENT = 65_535
"""The reading of a wake that was not heard: a tick of no cycle. SPECIFICATION, "Silence"."""

_REASONS = {
    1: "the cycle is 0 or longer than the call takes",
    2: "rows outside 1 to 1024, or columns or a row's readings outside 1 to 8192",
    3: "a mask side is even, 0 or above 255, or a live window's length even, 0 or above 63",
    5: "the first row is above the end row, or the end row above the rows",
    6: "the input is not rows * columns readings long",
    7: "the output, readings or byte buffer is too short",
    8: "the work memory is too short",
    9: "a reading is neither below the cycle nor silent, or an argument is not below the cycle",
    10: "the record ends within a field",
    11: "a tag is not the one due",
    12: "a length is not the one due",
    13: "bytes follow the end field",
    14: "the record is longer than a bench sheet takes",
}

# The refusals that have a place, and three that this module acts upon.
_PLACED = range(9, 14)
_CYCLE, _SHORT_BUFFER, _SHORT_WORK = 1, 7, 8


class Refused(ValueError):
    """Why a call was not answered: the number of the first test that failed, and its place.

    number  reason                                                          place
         1  the cycle is 0 or longer than the call takes: 65,535; 4,096
            for the level engine; 512 for a live window
         2  rows outside 1 to 1,024, or columns, or the readings of a row
            by itself, outside 1 to 8,192
         3  a side of the mask is even, 0 or above 255, or the length of
            a live window even, 0 or above 63
         4  reserved: no call gives it
         5  the first row is above the end row, or the end row above the
            rows
         6  the input is not rows * columns readings long
         7  the output, or the room for readings, is too short
         8  the work memory is too short: never here, where this module
            makes it
         9  a reading is neither a tick nor silent, or an argument is no   the index of the
            tick                                                           first, from 0
        10  the record ends within a field or before it                    the field's offset
        11  the tag of a field is not the one due                          the tag's offset
        12  the length of a field is not the one due                       the tag's offset
        13  bytes follow the end field                                     the first one's offset
        14  the record is longer than a bench sheet takes: never here, as
            no call has this limit

    The place is 0 where none is given. SPECIFICATION, "Numbers".

    >>> try:
    ...     drift(8, array("H", [1, 4, 8, 7]))
    ... except Refused as refused:
    ...     print(refused.number, refused.place)
    ...     print(refused)
    9 2
    refused 9 at 2: a reading is neither below the cycle nor silent, or an argument ...
    """

    def __init__(self, number: int, place: int = 0) -> None:
        """A refusal of a number, and of a place if the number has one."""
        super().__init__(number, place)
        self.number = number
        self.place = place

    @property
    def reason(self) -> str:
        """The reason in words, without number and place."""
        return _REASONS.get(self.number, "no call of this library refuses so")

    def __str__(self) -> str:
        """The number, the place where there is one, and the reason."""
        place = f" at {self.place}" if self.number in _PLACED else ""
        return f"refused {self.number}{place}: {self.reason}"


class Engine(enum.Enum):
    """The engine that filters. SPECIFICATION, "Engines".

    Both write the same numbers. They differ in time, in the cycles that they take and in work
    memory, which this module makes. The time of LEVEL grows with the cycle, that of READING with
    the mask.

    LEVEL    weighs every tick of the cycle: cycles up to 4,096, and cycle * (columns + 1) numbers
             of 32 bits of work memory
    READING  weighs the readings of the window: every cycle, and
             mask rows * mask columns * (columns + 1) numbers of 32 bits
    """

    LEVEL = "level"
    READING = "reading"


# The library: its structs and its functions, as the header declares them.


class _Answer(ctypes.Structure):
    _fields_ = [("number", c_uint32), ("place", c_uint64)]


class _ValueAnswer(ctypes.Structure):
    _fields_ = [("number", c_uint32), ("place", c_uint64), ("value", c_int64)]


class _RecordAnswer(ctypes.Structure):
    _fields_ = [
        ("number", c_uint32), ("place", c_uint64), ("cycle", c_uint32), ("rows", c_uint32),
        ("columns", c_uint32), ("mask_rows", c_uint32), ("mask_columns", c_uint32),
    ]


class _WindowAnswer(ctypes.Structure):
    _fields_ = [("number", c_uint32), ("place", c_uint64), ("value", c_int64), ("filled", c_uint32)]


# A live window has room for so many readings, and for a sum at each.
_ROOM = c_uint16 * 63


class _Window(ctypes.Structure):
    _fields_ = [
        ("cycle", c_uint32), ("length", c_uint32), ("filled", c_uint32), ("readings", _ROOM),
        ("sums", _ROOM),
    ]


_BYTES = [POINTER(c_uint8), c_size_t]
_READINGS = [POINTER(c_uint16), c_size_t]
_NUMBERS = [POINTER(c_uint32), c_size_t]
_WINDOW = [POINTER(c_uint16), POINTER(c_uint16)]
_FILTER = [c_uint32] * 7 + _READINGS + _READINGS + _NUMBERS

_DECLARATIONS = {
    "circle_median_level": (_Answer, _FILTER),
    "circle_median_reading": (_Answer, _FILTER),
    "circle_median_distance": (_ValueAnswer, [c_uint32, c_uint16, c_uint16]),
    "circle_median_step": (_ValueAnswer, [c_uint32, c_uint16, c_uint16]),
    "circle_median_slot": (_ValueAnswer, [c_uint32, c_uint16, c_uint16, c_uint16]),
    "circle_median_drift": (_ValueAnswer, [c_uint32, *_READINGS]),
    "circle_median_write": (_ValueAnswer, [c_uint32] * 5 + _READINGS + _BYTES),
    "circle_median_read": (_RecordAnswer, _BYTES + _READINGS),
    "circle_median_window_fresh": (_Answer, [c_uint32, c_uint32, *_WINDOW]),
    "circle_median_window_enter": (_WindowAnswer, [c_uint32] * 3 + [c_uint16, *_WINDOW]),
}


def _places() -> list[str]:
    """Where the library is looked for, the system's places last."""
    named = os.environ.get("CIRCLE_MEDIAN_LIB")
    if named:
        return [os.path.join(os.path.abspath(named), "libcircle_median.so")]
    root = os.path.dirname(os.path.dirname(os.path.dirname(os.path.abspath(__file__))))
    own = (os.path.join(root, *folder) for folder in (("target", "lib"), ("lib",)))
    files = (os.path.join(folder, "libcircle_median.so") for folder in own)
    return [*(file for file in files if os.path.exists(file)), "libcircle_median.so.0"]


@functools.lru_cache(maxsize=None)
def _library() -> ctypes.CDLL:
    """The library with its functions declared, or an ImportError that says how to get it."""
    place = _places()[0]
    try:
        library = ctypes.CDLL(place)
        for name, (answer, arguments) in _DECLARATIONS.items():
            function = getattr(library, name)
            function.restype, function.argtypes = answer, arguments
    except (OSError, AttributeError) as trouble:
        raise ImportError(
            f"circle_median has no library: {trouble}; `make shared` in the repository makes it,"
            " and the environment variable CIRCLE_MEDIAN_LIB names another folder that has it"
        ) from None
    return library


# What a call is lent.

_FORMATS = {
    c_uint8: {"B", "c", "<B", "<c"},
    c_uint16: {"H", "@H", "=H", "<H" if sys.byteorder == "little" else ">H"},
}
_WORDS = {
    c_uint8: "bytes",
    c_uint16: "unsigned numbers of 16 bits in the machine's order, as array('H', ..) or a NumPy"
    " array of dtype uint16 has them",
}


def _held(x: int, most: int) -> int:
    """A number for a parameter up to `most`, which stands for what the parameter has no room for
    and is refused as that would be."""
    x = operator.index(x)
    return x if 0 <= x <= most else most


def _number(x: int) -> int:
    return _held(x, 0xFFFF_FFFF)


def _tick(x: int) -> int:
    """An argument that has to be a tick; 65,535 is a tick of no cycle."""
    return _held(x, 0xFFFF)


def _view(name: str, buffer: Buffer, element: Any) -> memoryview:
    """A buffer that may be lent to the library."""
    try:
        view = memoryview(buffer)
    except TypeError:
        kind = type(buffer).__name__
        raise TypeError(f"{name}: a {kind} has no buffer; due are {_WORDS[element]}") from None
    if view.format not in _FORMATS[element]:
        told = f"the elements have the format {view.format!r}"
        raise TypeError(f"{name}: {told}; due are {_WORDS[element]}")
    if view.ndim == 0 or not view.c_contiguous:
        raise TypeError(f"{name}: the elements do not lie row by row without gaps")
    if hasattr(buffer, "mask"):
        kind = type(buffer).__name__
        raise TypeError(
            f"{name}: the mask of a {kind} would be lost; its method filled(SILENT) tells it"
        )
    return view


def _kind(view: memoryview, element: Any) -> Any:
    """As many elements as a buffer has."""
    return element * (view.nbytes // ctypes.sizeof(element))


def _is_lendable(view: memoryview, element: Any) -> bool:
    """Whether the library may be lent a buffer that can be written: whether it has an element and
    is aligned."""
    if view.nbytes == 0:
        return False
    return ctypes.addressof(element.from_buffer(view)) % ctypes.alignment(element) == 0


def _read_only(name: str, buffer: Buffer, element: Any) -> Any:
    """What the library reads. It is copied where it cannot be lent."""
    view = _view(name, buffer, element)
    kind = _kind(view, element)
    if view.readonly or not _is_lendable(view, element):
        return kind.from_buffer_copy(view)
    return kind.from_buffer(view)


def _writable(name: str, buffer: Buffer, element: Any) -> Any:
    """What the library writes."""
    view = _view(name, buffer, element)
    kind = _kind(view, element)
    if view.readonly:
        raise TypeError(f"{name}: a {type(buffer).__name__} cannot be written")
    if view.nbytes == 0:
        return kind()
    if not _is_lendable(view, element):
        raise TypeError(f"{name}: the elements begin at an odd address")
    return kind.from_buffer(view)


def _apart(written: Any, read: Any) -> None:
    """What is written may not overlap what is read."""
    begins = [ctypes.addressof(lent) for lent in (written, read)]
    ends = [begin + ctypes.sizeof(lent) for begin, lent in zip(begins, (written, read))]
    if max(begins) < min(ends):
        raise ValueError("output: it overlaps what is read")


def _answered(answer: Any) -> Any:
    """The answer of an accepted call."""
    if answer.number:
        raise Refused(answer.number, answer.place)
    return answer


# The calls on a cycle.


def distance(cycle: int, a: int, b: int) -> int:
    """How far apart ticks a and b are, in ticks, the shorter way round the cycle: 0 to cycle // 2.

    SPECIFICATION, "Distance". Refusals: 1; 9 at 0 if a is no tick, 9 at 1 if b is none.

    >>> distance(360, 359, 1)
    2
    >>> distance(360, 0, 360)
    Traceback (most recent call last):
    circle_median.Refused: refused 9 at 1: a reading is neither below the cycle nor silent, ...
    """
    answer = _library().circle_median_distance(_number(cycle), _tick(a), _tick(b))
    return int(_answered(answer).value)


def step(cycle: int, a: int, b: int) -> int:
    """The way from tick a to tick b, in ticks, the shorter one: above 0 ahead, below 0 back.

    A way of half a cycle is back. SPECIFICATION, "Step". Refusals: as of distance.

    >>> step(360, 359, 1), step(360, 1, 359), step(8, 1, 5)
    (2, -2, -4)
    """
    answer = _library().circle_median_step(_number(cycle), _tick(a), _tick(b))
    return int(_answered(answer).value)


def slot(cycle: int, p: int, s: int, w: int) -> bool:
    """Whether tick p is in the slot that starts at tick s and ends w ticks later.

    Both ends are in it. SPECIFICATION, "Slot". Refusals: 1; 9 at 0, 1 or 2 if p, s or w is no tick.

    >>> slot(360, 2, 350, 12), slot(360, 3, 350, 12)
    (True, False)
    """
    answer = _library().circle_median_slot(_number(cycle), _tick(p), _tick(s), _tick(w))
    return bool(_answered(answer).value)


def drift(cycle: int, row: Buffer) -> int:
    """How far a label has moved over a row of its readings, in ticks.

    It is the sum of the steps from each heard reading to the next one heard, whatever is silent
    between; 0 with fewer than two heard. A row has 1 to 8,192 readings. SPECIFICATION, "Drift".
    Refusals: 1; 2 for the length of the row; 9.

    >>> drift(8, array("H", [1, 1, 7, 7, SILENT, 3, 3]))
    -6
    """
    return int(_answered(_drift(_number(cycle), _view("row", row, c_uint16))).value)


def _drift(cycle: int, view: memoryview) -> Any:
    """The answer of the drift's call."""
    if view.ndim > 1:
        told = f"it has {view.ndim} dimensions"
        raise TypeError(f"row: {told}; an image has a drift for each of its rows")
    lent = _read_only("row", view, c_uint16)
    return _library().circle_median_drift(cycle, lent, len(lent))


# The filter.


def _pair(name: str, pair: Tuple[int, int]) -> Tuple[int, int]:
    """Rows and columns."""
    try:
        rows, columns = pair
    except (TypeError, ValueError):
        raise TypeError(f"{name}: (rows, columns) is due, and not {pair!r}") from None
    return _number(rows), _number(columns)


def _size(view: memoryview, size: Optional[Tuple[int, int]]) -> Tuple[int, int]:
    """The rows and columns of an image: of its two dimensions, or as told, or of one row."""
    own = view.shape or ()
    if len(own) == 2:
        rows, columns = own
        if size is not None and _pair("size", size) != (rows, columns):
            told = f"{size[0]} by {size[1]}"
            raise ValueError(f"size: the readings are {rows} by {columns}, and not {told}")
        return _number(rows), _number(columns)
    if size is not None:
        return _pair("size", size)
    if len(own) > 2:
        told = f"they have {len(own)} dimensions"
        raise TypeError(f"readings: {told}; tell the size, (rows, columns)")
    return 1, _number(own[0])


def _shape(
    view: memoryview, cycle: int, mask: Tuple[int, int], size: Optional[Tuple[int, int]],
) -> Tuple[int, ...]:
    """The cycle, the rows and columns of the image and those of the mask."""
    return (_number(cycle), *_size(view, size), *_pair("mask", mask))


def _ends(rows: Optional[range], all_rows: int) -> Tuple[int, int]:
    """The first row and the end of those to filter."""
    if rows is None:
        return 0, all_rows
    if not isinstance(rows, range) or rows.step != 1:
        raise TypeError(f"rows: range(first, end) is due, and not {rows!r}")
    return _number(rows.start), _number(rows.stop)


def _work(engine: Engine, shape: Tuple[int, ...]) -> Any:
    """The work memory that an engine needs for a shape that it takes."""
    cycle, _, columns, mask_rows, mask_columns = shape
    each = cycle if engine is Engine.LEVEL else mask_rows * mask_columns
    return (c_uint32 * (each * (columns + 1)))()


def _filtered(
    engine: Engine, shape: Tuple[int, ...], ends: Tuple[int, int], image: Any, output: Any,
) -> _Answer:
    """The answer of an engine. Work memory is made once all tests before that of it have passed."""
    call = getattr(_library(), f"circle_median_{engine.value}")
    lent = (*shape, *ends, image, len(image), output, len(output))
    answer: _Answer = call(*lent, (c_uint32 * 1)(), 0)
    if answer.number == _SHORT_WORK:
        work = _work(engine, shape)
        answer = call(*lent, work, len(work))
    return answer


def _is_level_faster(shape: Tuple[int, ...]) -> bool:
    """Whether the level engine is the faster one: as measured, the reading engine takes as long for
    an element of the mask as the level engine for 3.5 ticks of the cycle."""
    cycle, _, _, mask_rows, mask_columns = shape
    return 2 * cycle < 7 * mask_rows * mask_columns


def filter(
    readings: Buffer,
    cycle: int,
    mask: Tuple[int, int],
    size: Optional[Tuple[int, int]] = None,
    *,
    rows: Optional[range] = None,
    engine: Union[Engine, str, None] = None,
    output: Optional[Buffer] = None,
) -> Any:
    """Filters rows of an image: each reading is replaced by the chosen phase of its window.

    readings  the image, row by row, each a tick of the cycle or SILENT
    cycle     ticks of the cycle, 1 to 65,535; 4,096 for the level engine
    mask      rows and columns of the window around each reading: both odd, 1 to 255, and maybe more
              than the image has
    size      rows and columns of the image, 1 to 1,024 and 1 to 8,192; else those of the image's
              two dimensions; else it is one row
    rows      the rows to filter, as range(first, end); else all
    engine    Engine.LEVEL or Engine.READING, or "level" or "reading"; else the one that is faster
              here. Both write the same
    output    where to write, at least rows * columns numbers, and apart from the readings; else a
              new array("H")

    Returns the output. Each row of the range stands there at its own place in the whole image, and
    the rest is as before; of a new output it is SILENT. At its edges the image is mirrored, the
    edge repeated, as often as the mask needs. SPECIFICATION, "Filters" and "Window".

    The work memory is this module's: up to 134 MB for the level engine and 2.1 GB for the reading
    engine, of the longest rows with the longest cycle or the largest mask, also where a reading is
    refused then.

    Refusals: 1, 2, 3, 5, 6, 7, 9, in this order. All of the image is tested, whatever the rows.

    >>> image = array("H", [5, 0, 0, 4, 1, 7])
    >>> filter(image, 8, (1, 3), (2, 3))
    array('H', [5, 0, 0, 4, 1, 7])
    >>> filter(image, 8, (3, 3), (2, 3), rows=range(1, 2), engine=Engine.LEVEL).tolist()[3:]
    [4, 7, 0]
    >>> output = array("H", [9] * 6)
    >>> filter(image, 8, (3, 3), (2, 3), rows=range(1, 2), output=output)
    array('H', [9, 9, 9, 4, 7, 0])

    A record that was read is filtered by its parts:

    >>> filter(*read_record(write_record(image, 8, (3, 3), (2, 3))))
    array('H', [5, 0, 0, 4, 7, 0])
    """
    if output is None:
        output = array("H", [SILENT]) * (_view("readings", readings, c_uint16).nbytes // 2)
    # The view has no name here: a refusal that is looked at would keep the buffer lent.
    _answered(_filter(
        _view("readings", readings, c_uint16), cycle, mask, size, rows, engine, output,
    ))
    return output


def _filter(
    view: memoryview, cycle: int, mask: Tuple[int, int], size: Optional[Tuple[int, int]],
    rows: Optional[range], engine: Union[Engine, str, None], output: Buffer,
) -> _Answer:
    """The answer of the engine that is named, or of the one that is faster and takes the cycle."""
    shape = _shape(view, cycle, mask, size)
    ends = _ends(rows, shape[1])
    image = _read_only("readings", view, c_uint16)
    written = _output(output, shape[2])
    _apart(written, image)
    if engine is not None:
        return _filtered(Engine(engine), shape, ends, image, written)
    if _is_level_faster(shape):
        answer = _filtered(Engine.LEVEL, shape, ends, image, written)
        if answer.number != _CYCLE:
            return answer
    return _filtered(Engine.READING, shape, ends, image, written)


def _output(output: Buffer, columns: int) -> Any:
    """What an engine writes: any numbers, or an image's as wide as the readings'."""
    own = _view("output", output, c_uint16).shape or ()
    if len(own) == 2 and own[1] != columns:
        raise TypeError(f"output: it has {own[1]} columns, and the readings {columns}")
    return _writable("output", output, c_uint16)


# Records.

# The readings of the largest image.
_MOST_READINGS = 1024 * 8192


class Record(NamedTuple):
    """A bench record: its parts in the order in which filter and write_record take them.

    readings  the image, row by row: an array("H"), or a memoryview of the output that was lent
    cycle     ticks of the cycle
    mask      rows and columns of the mask
    size      rows and columns of the image
    """

    readings: Any
    cycle: int
    mask: Tuple[int, int]
    size: Tuple[int, int]


def read_record(data: Buffer, output: Optional[Buffer] = None) -> Record:
    """Reads a bench record, which fills all of the bytes. SPECIFICATION, "Reader".

    data    the bytes
    output  room for the readings; else they come in a new array("H")

    In an output the readings are at the front, and what is behind them is as before; the record has
    a memoryview of them. An empty mask field is a mask of 1 by 7.

    Refusals: as the bytes come, field by field. In each field 10 (fewer than three bytes are left),
    11, 12, 10 (the body is not all there), then by what the body holds 1; 2; 3 and then 7; 9 for
    each row in turn. Behind the end field: 13.

    >>> head = bytes.fromhex("010002 0008 020004 00010005 030004 00010003")
    >>> read_record(head + bytes.fromhex("04000A 0001 0004 0001 0007 0007 FF0000"))
    Record(readings=array('H', [1, 4, 1, 7, 7]), cycle=8, mask=(1, 3), size=(1, 5))
    >>> read_record(b"")
    Traceback (most recent call last):
    circle_median.Refused: refused 10 at 0: the record ends within a field
    """
    if output is not None:
        return _read_into(data, output)
    try:
        # A record that is accepted has two bytes for each of its readings.
        return _read_new(data, min(_view("data", data, c_uint8).nbytes // 2, _MOST_READINGS))
    except Refused as refused:
        if refused.number != _SHORT_BUFFER:
            raise
    return _read_new(data, _MOST_READINGS)


def _read_new(data: Buffer, room: int) -> Record:
    """The record, read to new memory."""
    record = _read_into(data, array("H", bytes(2 * room)))
    return record._replace(readings=array("H", record.readings.tobytes()))


def _read_into(data: Buffer, output: Buffer) -> Record:
    """The record, read to the front of an output."""
    answer = _answered(_read(data, output))
    size, mask = (answer.rows, answer.columns), (answer.mask_rows, answer.mask_columns)
    readings = memoryview(output).cast("B").cast("H")[:size[0] * size[1]]
    return Record(readings, answer.cycle, mask, size)


def _read(data: Buffer, output: Buffer) -> Any:
    """The answer of the reader."""
    lent, written = _read_only("data", data, c_uint8), _writable("output", output, c_uint16)
    _apart(written, lent)
    return _library().circle_median_read(lent, len(lent), written, len(written))


def write_record(
    readings: Buffer, cycle: int, mask: Tuple[int, int], size: Optional[Tuple[int, int]] = None,
) -> bytes:
    """Writes a bench record; the arguments are as of filter. SPECIFICATION, "Writer".

    Returns its bytes, 22 + rows * (3 + 2 * columns). SILENT is written as FF FF, and the mask
    always with its two sides. Refusals: 1, 2, 3, 6, 9, in this order.

    >>> write_record(array("H", [1, 4, 1, 7, 7]), 8, (1, 3)).hex()
    '0100020008020004000100050300040001000304000a00010004000100070007ff0000'
    >>> write_record(array("H", [1, 4, 8, 7, 7]), 8, (1, 3))
    Traceback (most recent call last):
    circle_median.Refused: refused 9 at 2: a reading is neither below the cycle nor silent, ...
    """
    answer, room = _write(_view("readings", readings, c_uint16), cycle, mask, size)
    return bytes(memoryview(room)[:_answered(answer).value])


def _write(
    view: memoryview, cycle: int, mask: Tuple[int, int], size: Optional[Tuple[int, int]],
) -> Tuple[_ValueAnswer, Any]:
    """The answer of the writer, and the bytes, which are made once all tests before that of their
    room have passed."""
    shape = _shape(view, cycle, mask, size)
    image, room = _read_only("readings", view, c_uint16), (c_uint8 * 1)()
    answer = _library().circle_median_write(*shape, image, len(image), room, 0)
    if answer.number == _SHORT_BUFFER:
        _, rows, columns, _, _ = shape
        room = (c_uint8 * (22 + rows * (3 + 2 * columns)))()
        answer = _library().circle_median_write(*shape, image, len(image), room, len(room))
    return answer, room


# The live window.


class LiveWindow:
    """The filter for one label, wake by wake, where no image is stored.

    A reading that is pushed is answered by the chosen phase of the last `length` readings, of which
    the middle one is the centre, and by None while fewer have come. Silent readings are counted
    like others, refused ones are not. The phase is what filter writes in the same row, under a mask
    of 1 by `length`, for the wake that came length // 2 wakes before. A copy is a window by itself.
    SPECIFICATION, "Live window".

    >>> window = LiveWindow(8, 3)
    >>> [window.push(reading) for reading in (1, 4, 1, 7, 7)]
    [None, None, 1, 1, 7]
    """

    __slots__ = ("_window",)

    def __init__(self, cycle: int, length: int) -> None:
        """A window without readings.

        Its cycle has 1 to 512 ticks, and its length is odd, 1 to 63 wakes. Refusals: 1; 3 for the
        length.
        """
        cycle, length, window = _number(cycle), _number(length), _Window()
        answer = _library().circle_median_window_fresh(
            cycle, length, window.readings, window.sums,
        )
        _answered(answer)
        window.cycle, window.length = cycle, length
        self._window = window

    def push(self, reading: int) -> Optional[int]:
        """Pushes a reading, and takes off the oldest one where the window is full.

        Returns the chosen phase, a tick; SILENT if no reading of the window was heard; None while
        fewer have come than the window is long. Refusal: 9 at 0 if the reading is neither a tick
        nor SILENT. The window is then as before.

        >>> window = LiveWindow(8, 1)
        >>> window.push(7), window.push(SILENT) == SILENT
        (7, True)
        >>> window.push(8)
        Traceback (most recent call last):
        circle_median.Refused: refused 9 at 0: a reading is neither below the cycle nor silent, ...
        """
        window, reading = self._window, operator.index(reading)
        # 65,534 is no reading of a cycle up to 512, and stands for what 16 bits cannot hold.
        lent = reading if 0 <= reading <= SILENT else 0xFFFE
        answer = _library().circle_median_window_enter(
            window.cycle, window.length, window.filled, lent, window.readings, window.sums,
        )
        value = _answered(answer).value
        window.filled = answer.filled
        return None if value < 0 else value

    def reset(self) -> None:
        """Takes all readings off the window, whose cycle and length stay. It is never refused.

        >>> window = LiveWindow(8, 1)
        >>> window.push(7), window.filled
        (7, 1)
        >>> window.reset()
        >>> window.filled
        0
        """
        self._window = LiveWindow(self.cycle, self.length)._window

    @property
    def cycle(self) -> int:
        """The ticks of the cycle."""
        return int(self._window.cycle)

    @property
    def length(self) -> int:
        """How many of the last readings count."""
        return int(self._window.length)

    @property
    def filled(self) -> int:
        """How many of the last `length` readings have come."""
        return int(self._window.filled)

    def __copy__(self) -> LiveWindow:
        """A window by itself, with the same readings."""
        copied = type(self).__new__(type(self))
        copied._window = _Window.from_buffer_copy(self._window)
        return copied

    def __deepcopy__(self, _: Any) -> LiveWindow:
        return self.__copy__()

    def __repr__(self) -> str:
        return f"LiveWindow({self.cycle}, {self.length})"
