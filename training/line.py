"""The number line around a range: which posits it shows, and where a number stands on it.

The line is drawn with the posits evenly spaced, so that every range of a format has room on it; between two
posits that are shown it is straight.
"""

from bisect import bisect_right
from fractions import Fraction
from typing import NamedTuple

from training.numbers import written
from training.ranges import Range

# Posits shown beyond each end of a range, and at least this part of the range's own length.
BESIDE = 2
BESIDE_PART = 8

# The most posits that are shown; of more, every second, fourth and so on.
MOST_TICKS = 48

# Columns of a line in text, and those beyond each of its edges.
COLUMNS = 49
EDGE = 3


class Line(NamedTuple):
    """The indexes of the posits shown, in order, with those of the range's ends among them."""

    range: Range
    ticks: tuple

    def at(self, x):
        """Where x stands: the index of a posit shown, or between two; for all beyond half a step past the last."""
        value = self.range.format.value
        after = bisect_right(self.ticks, x, key=value)
        if after == 0:
            return Fraction(2 * self.ticks[0] - 1, 2)
        left = self.ticks[after - 1]
        if value(left) == x:
            return Fraction(left)
        if after == len(self.ticks):
            return Fraction(2 * left + 1, 2)
        right = self.ticks[after]
        return left + (right - left) * (x - value(left)) / (value(right) - value(left))


def around(span):
    """The line around a range that is not empty."""
    most = span.format.largest
    start = -most if span.start is None else span.start
    end = most if span.end is None else span.end
    beside = max(BESIDE, (end - start) // BESIDE_PART)
    low, high = max(-most, start - beside), min(most, end + beside)
    step = 1
    while (high - low) // step > MOST_TICKS:
        step *= 2
    shown = range(-(-low // step) * step, high + 1, step)
    return Line(span, tuple(sorted({*shown, low, start, end, high})))


def drawn(span, mark=None):
    """The line as text, with the number at its left edge before it and that at its right edge after it.

    The mark is a number in the range.
    """
    line = around(span)
    low, high = line.ticks[0], line.ticks[-1]

    def column(at):
        return EDGE + round((at - low) * Fraction(COLUMNS - 1, high - low))

    start, end = (column(index) for index in _ends(line))
    signs = ["-"] * (COLUMNS + 2 * EDGE)
    signs[start : end + 1] = ["="] * (end + 1 - start)
    if 2 * (high - low) < COLUMNS:
        for index in line.ticks:
            signs[column(index)] = "+"
    _bracket(signs, span, start, end)
    if mark is not None:
        signs[_inside(span, column(line.at(mark)), start, end, mark)] = "*"
    value = span.format.value
    left = "-inf" if span.start is None else written(value(low))
    return left, "".join(signs), "inf" if span.end is None else written(value(high))


def _ends(line):
    """The indexes that a range is drawn between; without a bound it is drawn on beyond the last posit."""
    span = line.range
    start = line.ticks[0] if span.start is None else span.start
    return start, line.ticks[-1] if span.end is None else span.end


def _bracket(signs, span, start, end):
    """The ends of the range on the line: brackets, one bar for a single number, arrows where there is no bound."""
    if span.is_point:
        signs[start] = "|"
        return
    if span.start is not None:
        signs[start] = "[("[span.start_open]
    else:
        signs[:EDGE] = ["<", *"=" * (EDGE - 1)]
    if span.end is not None:
        signs[end] = "])"[span.end_open]
    else:
        signs[-EDGE:] = [*"=" * (EDGE - 1), ">"]


def _inside(span, column, start, end, mark):
    """The mark's column: beyond the last posit where it lies there, and off a bracket unless it is that end itself."""
    form = span.format
    if abs(mark) > form.maxpos:
        return EDGE + COLUMNS if mark > 0 else EDGE - 1
    if column == start and span.low != mark and start + 1 < end:
        return column + 1
    if column == end and span.high != mark and start + 1 < end:
        return column - 1
    return column
