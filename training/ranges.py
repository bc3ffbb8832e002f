"""Ranges: a word read as two ends, its members, and its text in brackets."""

from typing import NamedTuple, Optional

from training.numbers import written
from training.posits import Format

EMPTY = "empty"


class Range(NamedTuple):
    """A range without infinity. Its ends are indexes of posits; None is an end without a bound."""

    format: Format
    start: Optional[int]
    start_open: bool
    end: Optional[int]
    end_open: bool

    @property
    def low(self):
        """The number at the start, or None."""
        return None if self.start is None else self.format.value(self.start)

    @property
    def high(self):
        """The number at the end, or None."""
        return None if self.end is None else self.format.value(self.end)

    @property
    def is_empty(self):
        return self.start is not None and self.start == self.end and self.start_open

    @property
    def is_point(self):
        return self.start is not None and self.start == self.end and not self.start_open

    def side(self, x):
        """Where x lies: -1 below the range, 0 in it, 1 above it; on an open end it is outside."""
        low, high = self.low, self.high
        if low is not None and (x < low or x == low and self.start_open):
            return -1
        if high is not None and (x > high or x == high and self.end_open):
            return 1
        return 0

    def holds(self, x):
        return self.side(x) == 0

    @property
    def word(self):
        start = _tile(self.format, self.start, self.start_open)
        end = _tile(self.format, self.end, self.end_open)
        return start << (self.format.n + 1) | end

    def __str__(self):
        return text_of_word(self.format, self.word)


def _tile(form, index, is_open):
    pattern = form.nar if index is None else form.pattern(index)
    return 2 * pattern + is_open


def of_word(form, word):
    """The range of a word that the library takes as one."""
    start, end = divmod(word, 2 ** (form.n + 1))
    return Range(form, _index(form, start), bool(start % 2), _index(form, end), bool(end % 2))


def _index(form, tile):
    return None if tile // 2 == form.nar else form.index(tile // 2)


def is_word(form, word):
    """Whether the bits that must be zero are."""
    return word < 2 ** (2 * form.n + 2)


def text_of_word(form, word):
    """The text of any word below 2^(2n+2), of those that hold infinity too; the empty word of answers has its own."""
    start, end = divmod(word, 2 ** (form.n + 1))
    if (start, end) == (1, 1):
        return EMPTY
    left = _text_of_tile(form, start, "-inf")
    right = _text_of_tile(form, end, "inf")
    return f"{'[('[start % 2]}{left}, {right}{'])'[end % 2]}"


def _text_of_tile(form, tile, unbounded):
    index = _index(form, tile)
    if index is not None:
        return written(form.value(index))
    return unbounded if tile % 2 else "NaR"
