"""Working back: choices given and refused, rows without a value, and the exit status that must never come."""

import re
import unittest
from fractions import Fraction
from unittest import mock

from room import EXAMPLES, Room, sheet
from training import exact, file
from training.exact import Missing
from training.library import jorumrain
from training.posits import Format
from training.sheets import Sheet, Step

FIRST = EXAMPLES / "first.rsh"
DAMPING = EXAMPLES / "damping-keeps-its-zero.rsh"


def built(inputs, *steps):
    """A sheet at (8,2) for exact working, whose inputs' ranges do not matter."""
    names = tuple("abcdefgh"[: inputs + len(steps)])
    return Sheet(Format(8, 2), (0,) * inputs, tuple(Step(*step) for step in steps), names)


class Choices(Room):
    def test_given(self):
        ended = sheet("back", FIRST, "a=3/2", "1=3")
        self.assertEqual(ended.status, 0)
        self.assertRegex(ended.text, r"(?m)^3 +r3 = a / b +\(5/16, 11/16\) +1/2 +in$")
        self.assertNotIn("seed", ended.text)

    def test_refused(self):
        for words, said in {
            ("a=3",): "a = 3 is not in [1, 2]: it lies above its end",
            ("a=-1",): "it lies below its start",
            ("x=1",): "no input named 'x'; the inputs are a, b",
            ("r2=3",): "r2 is worked from other rows",
            ("2=3",): "r2 is worked from other rows",
            ("99=3",): "no input named '99'",
            ("a",): "'a' is no choice; write a=3/4",
            ("a=",): "'' is no number",
            ("a=0.5",): "write the fraction 1/2",
            ("a=1", "a=2"): "a is chosen twice",
        }.items():
            self.refused(sheet("back", FIRST, *words), said)
        self.refused(sheet("back", DAMPING, "a=1"), "a = 1 is not in [0, 1): it lies on its open end")

    def test_empty(self):
        path = self.put("format 8 2\na = empty\nb = 3\nr = a + b\ns = b + b\n")
        ended = sheet("back", path)
        self.assertEqual(ended.status, 0)
        self.assertRegex(ended.text, r"(?m)^0 .* nothing to pick: the range is empty$")
        self.assertRegex(ended.text, r"(?m)^2 .* skipped: a has no value$")
        self.assertRegex(ended.text, r"(?m)^3 .* 6 +in$")
        self.assertIn("2 rows have no value", ended.text)
        self.refused(sheet("back", path, "a=1"), "a is empty: there is nothing to pick")

    def test_a_seed_makes_the_choice_again(self):
        first, again = (sheet("back", FIRST, "--seed", 7).text for _ in range(2))
        self.assertEqual(first, again)
        seed = re.search(r"--seed (\d+)", sheet("back", FIRST).text)[1]
        self.assertIn(f"--seed {seed}\n", sheet("back", FIRST, "--seed", seed).text)

    def test_many(self):
        ended = sheet("back", FIRST, "--many", 200, "--ends", "--seed", 1)
        self.assertRegex(ended.text, r"(?m)^0 +a +\[1, 2\] +200 +reached +reached$")
        # The values of row 3 go from 1/3 to 2/3, and 1/48 is an eighteenth of the width of (5/16, 11/16).
        self.assertRegex(ended.text, r"(?m)^3 .* 200 +within 1/18 of the width +within 1/18 of the width$")

    def test_words_that_are_no_options(self):
        for words in (["--many", "0"], ["--many", "x"], ["--seed", "x"], ["--sead", "1"]):
            self.assertEqual(sheet("back", FIRST, *words).status, 2)


class Exact(unittest.TestCase):
    def test_a_zero_divisor_is_said_and_the_rest_is_worked(self):
        made = built(2, (3, 0, 1), (0, 2, 0), (2, 0, 1), (3, 4, 0))
        values = exact.work(made, [Fraction(3), Fraction(0)])
        self.assertEqual(values[2], Missing("divides by zero: b is 0"))
        self.assertEqual(values[3], Missing("skipped: c has no value"))
        self.assertEqual(values[4:], [0, 0])

    def test_long_fractions_are_left(self):
        squares = [(2, row, row) for row in range(6)]
        made = built(1, *squares)
        start = Fraction(2**2000 + 1, 3)
        values = exact.work(made, [start])
        self.assertEqual(values[1], start**2)
        self.assertEqual(values[3], Missing("too long a fraction to work exactly"))
        self.assertEqual(values[4], Missing("skipped: d has no value"))


class ZeroDivisors(Room):
    TEXT = "format 8 2\none = 1\nd = [0, 2]\nq = one / d\ns = q + one\nt = one + d\n"

    def test_in_words(self):
        """A library that refuses such a divisor says so; one that answers leaves the rows to their words."""
        ended = sheet("back", self.put(self.TEXT), "d=0")
        if ended.status == 1:
            self.assertRegex(ended.words, r"line 4: refused \d+ at row 2 \(q: one / d\): ")
            return
        self.assertEqual(ended.status, 0)
        self.assertRegex(ended.text, r"(?m)^2 .* divides by zero: d is 0$")
        self.assertRegex(ended.text, r"(?m)^3 .* skipped: q has no value$")
        self.assertRegex(ended.text, r"(?m)^4 .* 1 +in$")
        self.assertRegex(sheet("back", self.put(self.TEXT), "d=2").text, r"(?m)^2 .* 1/2 +in$")


class Faults(Room):
    def wrong(self, data, lent):
        """Rows of which the last is the point 3, whatever is right."""
        count = self.right(data, lent)
        lent[count - 1] = 0x13098
        return count

    def test_a_value_outside_its_row_ends_with_3(self):
        self.right = jorumrain.file_work
        with mock.patch.object(file.jorumrain, "file_work", self.wrong):
            once = sheet("back", FIRST, "a=3/2")
            many = sheet("back", FIRST, "--many", 10)
            page = sheet("page", FIRST)
        self.assertRegex(once.text, r"(?m)^3 .* 1/2 +NOT IN$")
        for ended in (once, many, page):
            self.assertEqual(ended.status, 3)
            self.assertIn("A VALUE IS NOT IN ITS ROW", ended.words)
            self.assertIn("Row 3, r3 = a / b, is [3, 3]", ended.words)
            self.assertRegex(ended.words, r"The choice was: a=\S+ b=3\n")


if __name__ == "__main__":
    unittest.main()
