"""sheet back: picks a member of each input, works the sheet in exact fractions and holds each value to its row."""

import random
import sys

from training import choice, exact, many, source
from training.columns import aligned
from training.exact import Missing
from training.line import drawn
from training.numbers import shortened, written
from training.rows import NO_ROWS
from training.verdict import hold

SEEDS = 10**6


def run(options):
    found = source.worked(options.file)
    inputs = found.ranges[: len(found.sheet.inputs)]
    fixed = choice.given(found.sheet, inputs, options.choices)
    if not found.ranges:
        sys.stdout.write(NO_ROWS)
        return 0
    seed = random.randrange(SEEDS) if options.seed is None else options.seed
    picks = random.Random(seed)
    if options.many is not None:
        choices = (choice.choose(picks, inputs, fixed, options.ends) for _ in range(options.many))
        return many.run(found, choices, seed)
    chosen = choice.choose(picks, inputs, fixed, options.ends)
    free = any(row not in fixed and not span.is_point for row, span in enumerate(inputs))
    if free:
        sys.stdout.write(f"this choice again: --seed {seed}{' --ends' if options.ends else ''}\n")
    return _once(found, chosen, options)


def _once(found, chosen, options):
    """Prints one working."""
    values = exact.work(found.sheet, chosen)
    show = written if options.full else shortened
    lines = [("row", "made", "range", "value", "")]
    for row, (span, value) in enumerate(zip(found.ranges, values)):
        lines.append((str(row), found.sheet.formula(row), str(span), *_result(span, value, show)))
    sys.stdout.write(aligned(lines))
    if options.lines:
        sys.stdout.write("\n" + aligned(list(_pictures(found, values))) + "\n")
    hold(found, chosen, values)
    sys.stdout.write(_summary(values))
    return 0


def _result(span, value, show):
    """A row's value, and whether it is in its range."""
    if isinstance(value, Missing):
        return "-", value.words
    return show(value), "in" if span.holds(value) else "NOT IN"


def _pictures(found, values):
    """The number line of each row with its value as a star."""
    for row, (span, value) in enumerate(zip(found.ranges, values)):
        mark = None if isinstance(value, Missing) or not span.holds(value) else value
        yield found.sheet.name(row), *(("", "empty", "") if span.is_empty else drawn(span, mark))


def _summary(values):
    """What was seen, in one line."""
    missing = sum(isinstance(value, Missing) for value in values)
    if missing == len(values):
        return "no row has a value under this choice\n"
    if not missing:
        return "every value lies in its row's range\n"
    rows = "1 row has" if missing == 1 else f"{missing} rows have"
    return f"every value lies in its row's range; {rows} no value under this choice\n"
