"""An input as text, read: [1/2, 3/4), (-inf, 5], 3 for [3, 3], empty, all, and ~ before what may be widened."""

import re

from training import numbers
from training.numbers import shortened, written
from training.ranges import EMPTY, Range
from training.widen import widened

ALL = "all"
LOWEST = ("-inf",)
HIGHEST = ("inf", "+inf")
NAMED = {"maxpos": 1, "+maxpos": 1, "-maxpos": -1}
SMALLEST = {"minpos": 1, "+minpos": 1, "-minpos": -1}

BRACKETS = re.compile(r"([\[(])([^,\[\]()]*),([^,\[\]()]*)([\])])")


class Misread(Exception):
    """Words about a text, and the place in it that they speak of, counted from 0."""

    def __init__(self, place, words):
        super().__init__(words)
        self.place = place
        self.words = words


def read(form, text):
    """The range that an input's text means, in the format."""
    widen = text.startswith("~")
    body = text[1:].lstrip() if widen else text
    offset = len(text) - len(body)
    try:
        return _read_body(form, body, widen)
    except Misread as error:
        raise Misread(offset + error.place, error.words) from None


def _read_body(form, body, widen):
    if body == EMPTY:
        return Range(form, 0, True, 0, True)
    if body == ALL:
        return Range(form, None, True, None, True)
    if body[:1] not in "[(":
        low = high = _number(form, body, 0)
        opens, places = (False, False), (0, 0)
    else:
        (low, high), opens, places = _read_brackets(form, body)
    _in_order(low, high, opens, places)
    if widen and low is not None and low == high and opens[0]:
        return Range(form, 0, True, 0, True)
    if widen:
        return widened(form, low, opens[0], high, opens[1])
    start, end = (_posit(form, x, place) for x, place in zip((low, high), places))
    return Range(form, start, opens[0], end, opens[1])


def _read_brackets(form, body):
    """Both ends of a range in brackets, None for no bound, whether they are open, and where they stand."""
    found = BRACKETS.fullmatch(body)
    if not found:
        raise Misread(0, "a range is two ends in brackets, as [1/2, 3/4) or (-inf, 5]")
    left, start, end, right = found.groups()
    opens = (left == "(", right == ")")
    places = tuple(found.start(i) + len(found[i]) - len(found[i].lstrip()) for i in (2, 3))
    low = _end(form, start.strip(), places[0], (LOWEST, HIGHEST), opens[0], "start", "(-inf")
    high = _end(form, end.strip(), places[1], (HIGHEST, LOWEST), opens[1], "end", "inf)")
    return (low, high), opens, places


def _end(form, text, place, bounds, is_open, which, form_of_it):
    own, other = bounds
    if text in other:
        raise Misread(place, f"a range cannot {which} at {text}")
    if text not in own:
        return _number(form, text, place)
    if not is_open:
        raise Misread(place, f"infinity is no number, so that end is open: write {form_of_it}")
    return None


def _number(form, text, place):
    name = text.lower()
    if name in NAMED:
        return NAMED[name] * form.maxpos
    if name in SMALLEST:
        return SMALLEST[name] * form.minpos
    try:
        return numbers.read(text)
    except numbers.NoNumber as error:
        raise Misread(place, str(error)) from None


def _in_order(low, high, opens, places):
    """Refuses ends that are turned round, and one number with an open and a closed end."""
    if low is None or high is None or low < high:
        return
    if low > high:
        words = f"the range starts above its end: {shortened(low)} is above {shortened(high)}"
        raise Misread(places[0], words)
    if opens[0] != opens[1]:
        x = shortened(low)
        words = f"{x} is both in and not in it: write [{x}, {x}] for the number alone, or {EMPTY}"
        raise Misread(places[0], words)


def _posit(form, x, place):
    """The index of an end, which must be a posit unless the writer lets the range be widened."""
    if x is None:
        return None
    index = form.at(x)
    if index is None:
        words = f"{shortened(x)} is no posit of {form}: {_beside(form, x)}"
        raise Misread(place, f"{words}; put ~ before the range to widen it to posits")
    return index


def _beside(form, x):
    """The posits beside a number that is none."""
    below = form.below(x)
    if below < -form.largest:
        return f"it lies below the lowest, {_named(form, -form.largest)}"
    if below == form.largest:
        return f"it lies above the largest, {_named(form, form.largest)}"
    return f"the posits beside it are {_named(form, below)} and {_named(form, below + 1)}"


def _named(form, index):
    return f"{written(form.value(index))} (posit {form.digits(index)})"
