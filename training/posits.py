"""The posits of a format in their order: each has an index, from that of -maxPos up to that of maxPos, with 0 at 0."""

from bisect import bisect_right
from fractions import Fraction
from functools import lru_cache
from typing import NamedTuple

from training.library import jorumrain


class Format(NamedTuple):
    """A width n and an exponent size es. The index of a posit is its pattern read as a signed number."""

    n: int
    es: int

    @property
    def largest(self):
        """The index of maxPos."""
        return 2 ** (self.n - 1) - 1

    @property
    def nar(self):
        """The pattern of NaR, which has no index."""
        return 2 ** (self.n - 1)

    @property
    def maxpos(self):
        return self.value(self.largest)

    @property
    def minpos(self):
        return self.value(1)

    def value(self, index):
        """The posit's exact value, by the library's decoding."""
        return _value(self.n, self.es, self.pattern(index))

    def pattern(self, index):
        return index % 2**self.n

    def index(self, pattern):
        return pattern - 2**self.n if pattern > self.nar else pattern

    def below(self, x):
        """The index of the greatest posit that is not above x; one less than that of -maxPos where there is none."""
        indexes = range(-self.largest, self.largest + 1)
        return bisect_right(indexes, x, key=self.value) - self.largest - 1

    def at(self, x):
        """The index of the posit whose value is x, or None."""
        index = self.below(x)
        return index if index >= -self.largest and self.value(index) == x else None

    def digits(self, index):
        """The posit's pattern in hexadecimal; None is NaR."""
        pattern = self.nar if index is None else self.pattern(index)
        return f"{pattern:0{(self.n + 3) // 4}x}"

    def __str__(self):
        return f"({self.n},{self.es})"


@lru_cache(maxsize=2**18)
def _value(n, es, pattern):
    decoded = jorumrain.posit_decode(n, es, pattern)
    size = decoded.fraction * Fraction(2) ** decoded.scale
    return -size if decoded.negative else size
