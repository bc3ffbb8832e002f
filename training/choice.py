"""A choice of inputs: a member of each input range, given by the caller, or picked inside it or close to its ends."""

from fractions import Fraction

from training import numbers
from training.numbers import shortened
from training.outcome import Refusal

# Picks divide a stretch of the line into so many parts at most, so that their fractions stay short.
MOST_PARTS = 12

# Close to an end is within 2^-4 to 2^-40 of what there is; far out is up to 2^40 beyond.
NEAREST, FARTHEST = 4, 40

# Zero is where crews slip, so one pick in eight is 0 where 0 is a member.
ZERO_IN = 8


def given(sheet, ranges, texts):
    """The members named by words such as a=3/4, by row; an input is named by its name or its row number."""
    found = {}
    for text in texts:
        name, equals, number = text.partition("=")
        row = _input(sheet, name.strip())
        if not equals:
            raise Refusal(f"'{text}' is no choice; write {name}=3/4")
        if row in found:
            raise Refusal(f"{sheet.name(row)} is chosen twice")
        found[row] = _member(sheet.name(row), ranges[row], number.strip())
    return found


def _input(sheet, name):
    inputs = sheet.names[: len(sheet.inputs)]
    if name in sheet.names:
        row = sheet.names.index(name)
    elif name.isascii() and name.isdigit() and len(name) <= 3 and int(name) < sheet.count:
        row = int(name)
    else:
        raise Refusal(f"there is no input named '{name}'; {_listed(inputs)}")
    if row >= len(inputs):
        raise Refusal(f"{sheet.name(row)} is worked from other rows and cannot be chosen; {_listed(inputs)}")
    return row


def _listed(inputs):
    return f"the inputs are {', '.join(inputs)}" if inputs else "the sheet has no inputs"


def _member(name, span, text):
    """The number that a text means, held to its range."""
    if span.is_empty:
        raise Refusal(f"{name} is empty: there is nothing to pick")
    try:
        x = numbers.read(text)
    except numbers.NoNumber as error:
        raise Refusal(f"{name}: {error}") from None
    side = span.side(x)
    if side == 0:
        return x
    end, where = (span.low, "below its start") if side < 0 else (span.high, "above its end")
    where = "on its open end" if x == end else where
    raise Refusal(f"{name} = {shortened(x)} is not in {span}: it lies {where}")


def choose(random, ranges, fixed, near_ends):
    """A member of each input range, those that are fixed first; None where a range is empty."""
    pick = near_end if near_ends else inside
    return [
        fixed[row] if row in fixed else None if span.is_empty else pick(random, span)
        for row, span in enumerate(ranges)
    ]


def inside(random, span):
    """Any member: now and then 0, else a simple part of the whole range, or a part of the way between two posits."""
    if span.holds(0) and random.randrange(ZERO_IN) == 0:
        return Fraction(0)
    if span.is_point:
        return span.low
    if random.randrange(2):
        return _between_posits(random, span)
    if span.start is None or span.end is None:
        return _some_way_in(random, span.low, span.high)
    return _part(random, span.low, span.high, span.start_open, span.end_open)


def _some_way_in(random, low, high):
    """A short fraction away from the only bound, or from 0 where there is none."""
    way = Fraction(random.randrange(1, MOST_PARTS**2), random.randrange(1, MOST_PARTS + 1))
    if low is not None:
        return low + way
    return high - way if high is not None else random.choice((-1, 1)) * way


def _part(random, low, high, low_open, high_open):
    parts = random.randrange(2, MOST_PARTS + 1)
    part = random.randrange(1 if low_open else 0, parts if high_open else parts + 1)
    return low + (high - low) * Fraction(part, parts)


def _between_posits(random, span):
    """A member in one of the gaps between posits that the range covers, their closed ends included."""
    form = span.format
    lowest = -form.largest - 1 if span.start is None else span.start
    highest = form.largest + 1 if span.end is None else span.end
    gap = random.randrange(lowest, highest)
    if gap == form.largest:
        return _beyond(random, form.maxpos)
    if gap < -form.largest:
        return -_beyond(random, form.maxpos)
    low_open = gap == span.start and span.start_open
    high_open = gap + 1 == span.end and span.end_open
    return _part(random, form.value(gap), form.value(gap + 1), low_open, high_open)


def _beyond(random, maxpos):
    return maxpos + Fraction(random.randrange(1, MOST_PARTS), 2) * 2 ** random.randrange(FARTHEST)


def near_end(random, span):
    """A member at or close to one of the ends; far out where that end has no bound."""
    at_start = random.randrange(2) == 0
    end, is_open = (span.low, span.start_open) if at_start else (span.high, span.end_open)
    inward = 1 if at_start else -1
    if end is None:
        return _far(random, span, -inward)
    if not is_open and random.randrange(2):
        return end
    width = _width(span)
    return end + inward * width * Fraction(1, 2 ** random.randrange(NEAREST, FARTHEST + 1))


def _width(span):
    return Fraction(1) if span.low is None or span.high is None else span.high - span.low


def _far(random, span, outward):
    """A member far out on the side that has no bound."""
    other = span.low if outward > 0 else span.high
    return (other or Fraction(0)) + outward * 2 ** random.randrange(FARTHEST)
