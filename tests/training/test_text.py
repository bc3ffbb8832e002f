"""The text of a sheet: what it means, what is refused with which words, and rounding outward."""

import random
import unittest
from fractions import Fraction

from room import Room, sheet
from training import notation, numbers
from training.posits import Format
from training.ranges import of_word

HEAD = "format 8 2\n"


def read(text, form=Format(8, 2)):
    return str(notation.read(form, text))


class Inputs(unittest.TestCase):
    def test_what_they_mean(self):
        for text, meaning in {
            "[1/2, 3/4)": "[1/2, 3/4)",
            "(-inf,5]": "(-inf, 5]",
            "( -1 , +inf )": "(-1, inf)",
            "all": "(-inf, inf)",
            "empty": "empty",
            "(0, 0)": "empty",
            "(1/2, 1/2)": "(1/2, 1/2)",
            "3": "[3, 3]",
            "-3/4": "[-3/4, -3/4]",
            "[minpos, maxpos)": "[1/16777216, 16777216)",
            "[-maxpos, 2^-24]": "[-16777216, 1/16777216]",
            "[3 * 2^-2, 6/4]": "[3/4, 3/2]",
        }.items():
            self.assertEqual(read(text), meaning, text)

    def test_words_of_inputs(self):
        # Document 01's example: [1,2] and [3,3].
        form = Format(8, 2)
        self.assertEqual(notation.read(form, "[1, 2]").word, 0x10090)
        self.assertEqual(notation.read(form, "[3, 3]").word, 0x13098)

    def test_widened(self):
        for text, meaning in {
            "~[1/3, 2/3]": "(5/16, 11/16)",
            "~1/3": "(5/16, 11/32)",
            "~[1, 4/3]": "[1, 11/8)",
            "~(1, 4/3)": "(1, 11/8)",
            "~[2^30, 2^40]": "(16777216, inf)",
            "~(-inf, -2^30)": "(-inf, -16777216)",
            "~[0, 2^-30]": "[0, 1/16777216)",
            "~(1/3, 1/3)": "empty",
            "~[1, 2)": "[1, 2)",
        }.items():
            self.assertEqual(read(text), meaning, text)

    def test_widened_is_the_smallest_range(self):
        pick = random.Random(5)
        for _ in range(3000):
            form = Format(pick.randrange(3, 17), pick.randrange(3))
            low, high = sorted(self.number(pick, form) for _ in range(2))
            span = notation.read(form, f"~[{low}, {high}]")
            self.assertTrue(span.holds(low) and span.holds(high))
            self.smallest(form, low, span.start, span.start_open, 1)
            self.smallest(form, high, span.end, span.end_open, -1)

    def number(self, pick, form):
        posit = form.value(pick.randrange(-form.largest, form.largest + 1))
        nearby = Fraction(pick.randrange(-9, 10), pick.choice((1, 3, 7, 2**70)))
        return posit * pick.choice((1, 1, 2, 3)) + pick.choice((0, 1)) * nearby

    def smallest(self, form, x, index, is_open, inward):
        """An end on x itself and closed, or open on the last posit before x, so that the next one is beyond it."""
        if index is None:
            self.assertGreater(-inward * x, form.maxpos)
        elif not is_open:
            self.assertEqual(form.value(index), x)
        else:
            self.assertGreater(inward * (x - form.value(index)), 0)
            if abs(index + inward) <= form.largest:
                self.assertGreater(inward * (form.value(index + inward) - x), 0)


class Members(unittest.TestCase):
    def test_where_a_number_lies(self):
        tiny = Fraction(1, 2**90)
        half, whole = Fraction(1, 2), Fraction(1)
        for text, start, end in (("[1/2, 1]", 0, 0), ("(1/2, 1]", -1, 0), ("[1/2, 1)", 0, 1), ("(1/2, 1)", -1, 1)):
            span = notation.read(Format(8, 2), text)
            self.assertEqual([span.side(half), span.side(whole)], [start, end], text)
            self.assertEqual([span.side(half - tiny), span.side(half + tiny)], [-1, 0], text)
            self.assertEqual([span.side(whole - tiny), span.side(whole + tiny)], [0, 1], text)

    def test_unbounded_and_empty(self):
        far = Fraction(2**900)
        everything, up = (notation.read(Format(8, 2), text) for text in ("all", "(0, inf)"))
        self.assertTrue(everything.holds(far) and everything.holds(-far) and everything.holds(0))
        self.assertEqual([up.holds(far), up.holds(0), up.holds(-far)], [True, False, False])
        for x in (Fraction(0), Fraction(1, 2), Fraction(1)):
            self.assertFalse(notation.read(Format(8, 2), "(1/2, 1/2)").holds(x))


class Refusals(Room):
    def text_refused(self, body, *parts):
        self.refused(sheet("make", self.put(body)), *parts)

    def test_an_end_that_is_no_posit(self):
        beside = "the posits beside it are 5/16 (posit 32) and 11/32 (posit 33)"
        self.text_refused(HEAD + "a = [1/3, 2]\n", "line 2, place 6", "1/3 is no posit of (8,2)", beside, "put ~")
        self.text_refused(HEAD + "a = [1, 2^30]\n", "it lies above the largest, 16777216 (posit 7f)")
        self.text_refused(HEAD + "a = [-2^30, 0]\n", "it lies below the lowest, -16777216 (posit 81)")
        self.text_refused(HEAD + "a = [0, 2^-30]\n", "0 (posit 00) and 1/16777216 (posit 01)")

    def test_inputs(self):
        for body, words in {
            "a = [2, 1]": "starts above its end",
            "a = [1, 1)": "write [1, 1] for the number alone, or empty",
            "a = [-inf, 1]": "write (-inf",
            "a = [1, inf]": "write inf)",
            "a = (inf, 1)": "cannot start at inf",
            "a = [0.5, 1]": "write the fraction 1/2",
            "a = [1/0, 1]": "below the bar is 0",
            "a = [1 2]": "two ends in brackets",
            "a = [x, 1]": "'x' is no number",
            "a = " + "9" * 2000: "at most 1000 digits",
            "a = 2^9999": "a power of 2 goes from",
            "a =": "two ends in brackets",
        }.items():
            self.text_refused(HEAD + body + "\n", "line 2, place", words)

    def test_rows(self):
        for body, words in {
            "a = 1\nr = a + b": "no row named b above",
            "a = 1\nr = a": "one operation on two earlier rows",
            "a = 1\nr = a + a + a": "one operation on two earlier rows",
            "a = 1\nr = a + 1": "a number is written as an input",
            "a = 1\na = 2": "there is a row named a above",
            "a = 1\ninf = 2": "inf means something else",
            "a = 1\nhello": "a line is a name, =, and a range or a step",
            "a = 1\nr = r + a": "no row named r above",
        }.items():
            self.text_refused(HEAD + body + "\n", "line 3, place", words)
        self.text_refused(HEAD + "a = 1\nr = a + a\nb = 2", "line 4", "inputs come before the steps")

    def test_formats(self):
        self.text_refused("", "no format line")
        self.text_refused("# nothing\n", "no format line")
        self.text_refused("a = 1\n", "line 1, place 1", "the first line is the format")
        for wrong in ("format 2 2", "format 17 2", "format 8 3", "format 999999999 0"):
            self.text_refused(wrong, "line 1, place 1", "n goes from 3 to 16 and es from 0 to 2")

    def test_limits(self):
        inputs = "".join(f"a{i} = 1\n" for i in range(33))
        self.text_refused(HEAD + inputs, "line 34", "at most 32 inputs")
        steps = "a = 1\n" + "".join(f"r{i} = a + a\n" for i in range(65))
        self.text_refused(HEAD + steps, "line 67", "at most 64 steps")

    def test_no_text(self):
        self.text_refused(b"format 8 2\na = \xff\n", "line 2, place 5", "no text")

    def test_what_is_taken(self):
        body = "\ufeff# a sheet\r\n\r\nformat 8, 2 # archive\r\n  first=[1,2]\r\n\tr = first+first # twice\r\n"
        self.assertEqual(sheet("show", self.put(body)).text, "format 8 2\nfirst = [1, 2]\nr = first + first\n")
        ended = sheet("make", "-", given=body.encode())
        self.assertEqual((ended.status, ended.data[:9]), (0, b"RSH\x01\x00\x08\x02\x01\x01"))


class Numbers(unittest.TestCase):
    def test_written_and_read(self):
        for n, es in ((8, 2), (16, 2), (5, 1), (3, 0)):
            form = Format(n, es)
            for index in range(-form.largest, form.largest + 1):
                x = form.value(index)
                self.assertEqual(numbers.read(numbers.written(x)), x)

    def test_every_real_word_of_a_small_format(self):
        form = Format(4, 1)
        for start in range(16):
            for end in range(16):
                for marks in range(4):
                    word = (2 * start + marks // 2) << 5 | 2 * end + marks % 2
                    span = of_word(form, word)
                    self.assertEqual(span.word, word)


if __name__ == "__main__":
    unittest.main()
