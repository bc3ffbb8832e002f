"""The file that a command is given: a sheet file or a sheet's text, told apart by what is in it."""

import pathlib
import sys
from typing import NamedTuple

from training import file, text
from training.library import jorumrain
from training.outcome import Refusal, Trouble
from training.ranges import of_word
from training.sheets import Sheet

# A sheet file has at most 457 bytes, and a text of as many rows some thousands; a larger one is a slip of the hand.
MOST_BYTES = 10**6

TEXT_CONTROLS = "\t\r\n"


class Worked(NamedTuple):
    """A sheet with the range of each of its rows."""

    title: str
    sheet: Sheet
    ranges: tuple


def content(path):
    """The bytes of a file, or of standard input for a single dash, and what to call it."""
    title = "standard input" if path == "-" else path
    if path == "-" and sys.stdin is None:
        raise Trouble(f"{title} is closed")
    try:
        stream = sys.stdin.buffer if path == "-" else pathlib.Path(path).open("rb")
        with stream:
            data = stream.read(MOST_BYTES + 1)
    except (OSError, ValueError) as error:
        raise Trouble(f"{title} cannot be read: {getattr(error, 'strerror', None) or error}") from None
    if len(data) > MOST_BYTES:
        raise Refusal(f"{title} has more than {MOST_BYTES} bytes, which no sheet has")
    return title, data


def as_text(data, title):
    """The text that the bytes are, refused in words where they are none."""
    try:
        return data.decode("utf-8-sig")
    except UnicodeDecodeError as error:
        line = data.count(b"\n", 0, error.start) + 1
        place = error.start - data.rfind(b"\n", 0, error.start)
        raise Refusal(f"{title}, line {line}, place {place}: this is no text (UTF-8)") from None


def is_text(data):
    """Whether bytes look like a sheet's text: a sheet file begins with its mark or holds bytes that no text has."""
    if file.MARK.startswith(data[:3]):
        return False
    try:
        characters = data.decode("utf-8-sig")
    except UnicodeDecodeError:
        return False
    return all(c >= " " or c in TEXT_CONTROLS for c in characters)


def made(data, title):
    """The sheet of a text, its bytes and its rows' words; what the library refuses names its line."""
    sheet, lines = text.read(as_text(data, title), title)
    packed = file.written(sheet)
    try:
        return sheet, packed, file.worked(packed)
    except jorumrain.Refused as refused:
        words = file.in_words(packed, refused, sheet)
        raise Refusal(f"{title}, line {lines[refused.place]}: {words}") from None


def worked(path):
    """The sheet of a file in either form with all its ranges, or a refusal in words."""
    title, data = content(path)
    if is_text(data):
        sheet, _, words = made(data, title)
    else:
        words = _words(data, title)
        sheet = file.read(data)
    ranges = tuple(of_word(sheet.format, word) for word in words)
    return Worked(title, sheet, ranges)


def _words(data, title):
    """The words of a sheet file's rows."""
    try:
        return file.worked(data)
    except jorumrain.Refused as refused:
        raise Refusal(f"{title}: {file.in_words(data, refused)}") from None
