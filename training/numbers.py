"""Exact fractions as people write them: 3, -3/4, 2^24, 3*2^-30. There are no decimals."""

import re
from fractions import Fraction

# Longer numbers are of no use here, and reading them would take a computer too long.
MOST_DIGITS = 1000
MOST_SCALE = 1000

# Above this a number of few digits times a power of two is easier to read in that form.
PLAIN = 10**8

NUMBER = re.compile(
    r"(?P<sign>[+-]?)\s*(?:2\s*\^\s*(?P<power>[+-]?\d+)"
    r"|(?P<top>\d+)(?:\s*/\s*(?P<bottom>\d+))?(?:\s*\*\s*2\s*\^\s*(?P<scale>[+-]?\d+))?)",
    re.ASCII,
)
DECIMAL = re.compile(r"[+-]?(\d+\.\d*|\.\d+)", re.ASCII)


class NoNumber(ValueError):
    """A text that is no number, with the reason in words."""


def read(text):
    """The fraction that a text means."""
    found = NUMBER.fullmatch(text)
    if not found:
        raise NoNumber(_why_not(text))
    if max(len(group or "") for group in found.groups()) > MOST_DIGITS:
        raise NoNumber(f"a number has at most {MOST_DIGITS} digits")
    scale = int(found["power"] or found["scale"] or 0)
    if abs(scale) > MOST_SCALE:
        raise NoNumber(f"a power of 2 goes from -{MOST_SCALE} to {MOST_SCALE}")
    top, bottom = int(found["top"] or 1), int(found["bottom"] or 1)
    if bottom == 0:
        raise NoNumber(f"{text}: the number below the bar is 0")
    size = Fraction(top, bottom) * Fraction(2) ** scale
    return -size if found["sign"] == "-" else size


def _why_not(text):
    if DECIMAL.fullmatch(text) and len(text) <= MOST_DIGITS:
        return f"{text} is a decimal; write the fraction {written(Fraction(text))}"
    shown = text if len(text) <= 30 else text[:27] + "..."
    return f"'{shown}' is no number; write a fraction such as 3/4, -2 or 2^24"


def written(x):
    """The text of a fraction, which `read` takes back to it."""
    if max(abs(x.numerator), x.denominator) < PLAIN:
        return str(x)
    odd, scale = _odd_part(abs(x.numerator))
    if x.denominator & (x.denominator - 1) == 0 and odd < PLAIN:
        sign = "-" if x < 0 else ""
        power = f"2^{scale - (x.denominator.bit_length() - 1)}"
        return sign + (power if odd == 1 else f"{odd}*{power}")
    return str(x)


def _odd_part(whole):
    """A whole number above 0 as an odd one and the power of two beside it."""
    scale = (whole & -whole).bit_length() - 1
    return whole >> scale, scale


def shortened(x, most=40):
    """The text of a fraction where it is short, and otherwise its first and last digits and how many there are."""
    text = written(x)
    if len(text) <= most:
        return text
    parts = [_cut(part) for part in str(x).split("/")]
    return "/".join(parts)


def _cut(digits):
    count = len(digits.lstrip("-"))
    return digits if count <= 12 else f"{digits[:6]}..{digits[-3:]} ({count} digits)"
