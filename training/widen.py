"""Rounding outward by the library: a range between any two fractions becomes the smallest that holds it."""

from training.library import jorumrain
from training.ranges import of_word


def widened(form, low, low_open, high, high_open):
    """The smallest range that holds all from low to high; None is no bound, and an open end on a posit stays open."""
    word = jorumrain.range_take_in(
        form.n, form.es, _reading(form, low, float("-inf")), _reading(form, high, float("inf"))
    )
    found = of_word(form, word)
    return found._replace(
        start_open=found.start_open or low_open, end_open=found.end_open or high_open
    )


def _reading(form, x, unbounded):
    """A float that rounds as x does: x itself where it is a posit, otherwise the middle of the gap that x lies in."""
    if x is None:
        return unbounded
    below = form.below(x)
    if below < -form.largest:
        return -2 * float(form.maxpos)
    if form.value(below) == x:
        return float(x)
    if below == form.largest:
        return 2 * float(form.maxpos)
    return float((form.value(below) + form.value(below + 1)) / 2)
