"""The points of a PNG file, as far as a browser's screenshots need it: eight bits a colour, not interlaced."""

import struct
import zlib


def points(data):
    """The rows of a picture, each a list of (red, green, blue)."""
    width, height, kind = struct.unpack_from(">II1xB", data, 16)
    size = {2: 3, 6: 4}[kind]
    raw = zlib.decompress(b"".join(_chunks(data)))
    before, rows = bytearray(width * size), []
    for at in range(0, height * (width * size + 1), width * size + 1):
        line = _unfiltered(raw[at], bytearray(raw[at + 1 : at + 1 + width * size]), before, size)
        rows.append([tuple(line[i : i + 3]) for i in range(0, len(line), size)])
        before = line
    return rows


def _chunks(data):
    """The content of the chunks that hold the picture."""
    at = 8
    while at < len(data):
        length, name = struct.unpack_from(">I4s", data, at)
        if name == b"IDAT":
            yield data[at + 8 : at + 8 + length]
        at += length + 12


def _unfiltered(filter_kind, line, before, size):
    """A line as it was before the filter that its first byte names."""
    for i in range(len(line)):
        left = line[i - size] if i >= size else 0
        up, corner = before[i], before[i - size] if i >= size else 0
        guess = (0, left, up, (left + up) // 2, _paeth(left, up, corner))[filter_kind]
        line[i] = (line[i] + guess) % 256
    return line


def _paeth(left, up, corner):
    guess = left + up - corner
    return min((left, up, corner), key=lambda near: abs(guess - near))
