"""sheet back --many: many choices worked back, and how close the values came to the ends of each row."""

import sys
from math import ceil, floor

from training import exact
from training.columns import aligned
from training.exact import Missing
from training.verdict import hold

# From here on a power of two says enough.
LONG = 10**4


class Seen:
    """What was seen of one row: its least and its greatest value, and why it had none."""

    def __init__(self):
        self.count = 0
        self.least = None
        self.greatest = None
        self.missing = {}

    def take(self, value):
        if isinstance(value, Missing):
            self.missing[value.words] = self.missing.get(value.words, 0) + 1
            return
        self.count += 1
        self.least = value if self.least is None else min(self.least, value)
        self.greatest = value if self.greatest is None else max(self.greatest, value)


def run(found, choices, seed):
    """Works the choices back and prints a line for each row."""
    seen = [Seen() for _ in found.ranges]
    times = 0
    for times, chosen in enumerate(choices, 1):
        values = exact.work(found.sheet, chosen)
        hold(found, chosen, values)
        for of_row, value in zip(seen, values):
            of_row.take(value)
    sys.stdout.write(f"{times} choices from seed {seed}\n{_table(found, seen)}")
    total = sum(of_row.count for of_row in seen)
    sys.stdout.write(f"{total} values, every one of them in its row's range\n")
    return 0


def _table(found, seen):
    lines = [("row", "made", "range", "worked", "its start", "its end")]
    notes = []
    for row, (span, of_row) in enumerate(zip(found.ranges, seen)):
        formula = found.sheet.formula(row)
        lines.append((str(row), formula, str(span), str(of_row.count), *closeness(span, of_row)))
        notes += [f"row {row}, {formula}: {words}: {n} times\n" for words, n in of_row.missing.items()]
    return aligned(lines) + "".join(notes)


def closeness(span, seen):
    """How close the values came to the start and to the end."""
    if seen.count == 0:
        return "-", "-"
    low, high = span.low, span.high
    width = None if low is None or high is None else high - low
    start = _out(ceil(seen.least)) if low is None else _near(seen.least - low, width)
    end = _out(floor(seen.greatest)) if high is None else _near(high - seen.greatest, width)
    return start, end


def _out(whole):
    """How far out the values went where there is no bound."""
    return f"out to {'-' if whole < 0 else ''}{_rough(abs(whole))} at least"


def _near(gap, width):
    """How far the nearest value is from an end, as a part of the width, or of 1 where there is no width."""
    if gap == 0:
        return "reached"
    if width is not None:
        return f"within 1/{_rough(floor(width / gap))} of the width"
    if gap <= 1:
        return f"within 1/{_rough(floor(1 / gap))}"
    return f"within {_rough(ceil(gap), up=1)}"


def _rough(whole, up=0):
    """A whole number, or where it is long the power of two below it, or the one above."""
    return str(whole) if whole < LONG else f"2^{whole.bit_length() - 1 + up}"
