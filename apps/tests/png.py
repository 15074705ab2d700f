"""Reads the pixels of a PNG file of 8 bits a colour, as a browser's screenshot is, with the
standard library."""
from __future__ import annotations

import struct
import zlib


def _paeth(a: int, b: int, c: int) -> int:
    p = a + b - c
    return min((abs(p - a), 0, a), (abs(p - b), 1, b), (abs(p - c), 2, c))[2]


def _row(kind: int, coded: bytes, above: bytes, size: int) -> bytes:
    """A row of pixels; each byte was coded as what it differs by from its neighbours."""
    row = bytearray(size) + bytearray(coded)
    above = bytes(size) + above
    for i in range(size, len(row)):
        a, b, c = row[i - size], above[i], above[i - size]
        row[i] = (row[i] + (0, a, b, (a + b) // 2, _paeth(a, b, c) if kind == 4 else 0)[kind]) % 256
    return bytes(row[size:])


class Picture:
    """A picture: its width, its height and its pixels."""

    def __init__(self, data: bytes) -> None:
        at, packed = 8, b""
        while at < len(data):
            length, kind = struct.unpack(">I4s", data[at:at + 8])
            body = data[at + 8:at + 8 + length]
            if kind == b"IHDR":
                self.width, self.height, depth, colour = struct.unpack(">IIBB", body[:10])
                assert depth == 8 and colour in (2, 6), (depth, colour)
            if kind == b"IDAT":
                packed += body
            at += length + 12
        self.size = 3 if colour == 2 else 4
        self._decode(zlib.decompress(packed), self.width * self.size)

    def _decode(self, coded: bytes, length: int) -> None:
        self.rows = [bytes(length)]
        for at in range(0, len(coded), length + 1):
            self.rows.append(
                _row(coded[at], coded[at + 1:at + 1 + length], self.rows[-1], self.size)
            )
        del self.rows[0]

    def pixel(self, x: int, y: int) -> tuple[int, int, int]:
        """The colour at a place."""
        red, green, blue = self.rows[y][x * self.size:x * self.size + 3]
        return red, green, blue

    def colours(self) -> set[tuple[int, int, int]]:
        """All colours that the picture has."""
        return {self.pixel(x, y) for y in range(self.height) for x in range(self.width)}
