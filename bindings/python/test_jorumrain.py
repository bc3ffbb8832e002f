"""Every call once with an answer and once refused, and lent memory that a refused call keeps."""

import ctypes
import doctest
import math
import pathlib
import pickle
import tempfile
import unittest
from array import array
from unittest import mock

import jorumrain as j
from jorumrain import Decoded, Kind, Number, Operation, Order, Outgoing, Refused

N, ES = 8, 2

# Patterns and words of the format N, ES.
ONE, TWO, THREE, MINUS_THREE, NAR = 0x40, 0x48, 0x4C, 0xB4, 0x80
NO_POSIT = 1 << N


def word(start, end):
    return start << (N + 1) | end


ONE_TO_TWO = word(0x80, 0x90)
THREE_ONLY = word(0x98, 0x98)
ZERO_TO_ONE = word(0x00, 0x80)
EMPTY = word(0x01, 0x01)
WITH_INFINITY = word(0x100, 0x00)
NO_WORD = word(0x200, 0x00)

# What lent memory holds before a call.
OLD = 0xDEADBEEFDEADBEEF


class Calls(unittest.TestCase):
    def refused(self, number, place, call, *arguments):
        with self.assertRaises(Refused) as refusal:
            call(*arguments)
        self.assertEqual((refusal.exception.number, refusal.exception.place), (number, place))


class Posits(Calls):
    def test_decode(self):
        minus_three = Decoded(Kind.FINITE, True, 0, 3)
        self.assertEqual(j.posit_decode(N, ES, MINUS_THREE), minus_three)
        self.assertEqual(j.posit_decode(N, ES, 0), Decoded(Kind.ZERO))
        self.assertEqual(j.posit_decode(N, ES, NAR), Decoded(Kind.NAR))
        self.refused(Number.TOO_LARGE, 0, j.posit_decode, N, ES, NO_POSIT)

    def test_encode(self):
        self.assertEqual(j.posit_encode(N, ES, Decoded(Kind.FINITE, True, -1, 6)), MINUS_THREE)
        self.assertEqual(j.posit_encode(N, ES, Decoded(Kind.NAR)), NAR)
        self.refused(Number.OUTSIDE_LIMITS, 0, j.posit_encode, 17, ES, Decoded(Kind.ZERO))

    def test_compare(self):
        self.assertIs(j.posit_compare(N, ES, ONE, TWO), Order.LESS)
        self.assertIs(j.posit_compare(N, ES, NAR, NAR), Order.EQUAL)
        self.assertIs(j.posit_compare(N, ES, ONE, NAR), Order.GREATER)
        self.refused(Number.TOO_LARGE, 1, j.posit_compare, N, ES, ONE, NO_POSIT)

    def test_negate(self):
        self.assertEqual(j.posit_negate(N, ES, THREE), MINUS_THREE)
        self.refused(Number.OUTSIDE_LIMITS, 0, j.posit_negate, N, 3, THREE)

    def test_operate(self):
        answers = [j.posit_operate(N, ES, operation, ONE, THREE) for operation in Operation]
        self.assertEqual(answers, [0x50, 0xB8, 0x4C, 0x33])
        self.refused(Number.NO_OPERATION, 0, j.posit_operate, N, ES, 4, ONE, NO_POSIT)

    def test_floats(self):
        self.assertEqual(j.posit_from_float(N, ES, -3.0), MINUS_THREE)
        self.assertEqual(j.posit_from_float(N, ES, math.nan), NAR)
        self.refused(Number.OUTSIDE_LIMITS, 0, j.posit_from_float, 2, ES, 1.0)
        self.assertEqual(j.posit_to_float(N, ES, MINUS_THREE), -3.0)
        self.assertIsNone(j.posit_to_float(N, ES, NAR))
        self.refused(Number.TOO_LARGE, 0, j.posit_to_float, N, ES, 2**32 - 1)

    def test_ints_are_never_cut(self):
        for n, posit in [(N + 2**32, ONE), (-1, ONE), (N, ONE + 2**32)]:
            with self.assertRaises(ctypes.ArgumentError):
                j.posit_negate(n, ES, posit)
        with self.assertRaises(ctypes.ArgumentError):
            j.range_operate(N, ES, 256, ONE_TO_TWO, ONE_TO_TWO)


class Ranges(Calls):
    def test_negate(self):
        self.assertEqual(j.range_negate(N, ES, THREE_ONLY), word(0x168, 0x168))
        self.refused(Number.HOLDS_INFINITY, 0, j.range_negate, N, ES, WITH_INFINITY)

    def test_operate(self):
        # [0,1) × (1,2) is [0,2): zero stays in.
        product = j.range_operate(N, ES, Operation.MULTIPLY, word(0x00, 0x81), word(0x81, 0x91))
        self.assertEqual(product, word(0x00, 0x91))
        divide = (N, ES, Operation.DIVIDE, ONE_TO_TWO, ZERO_TO_ONE)
        self.refused(Number.ZERO_DIVISOR, 1, j.range_operate, *divide)

    def test_take_in(self):
        self.assertEqual(j.range_take_in(N, ES, 1.0, 2.0), ONE_TO_TWO)
        self.refused(Number.BAD_READING, 0, j.range_take_in, N, ES, 2.0, 1.0)

    def test_give_out(self):
        above_one = Outgoing(1.0, math.inf, False, True, False)
        self.assertEqual(j.range_give_out(N, ES, word(0x80, 0x101)), above_one)
        self.assertEqual(j.range_give_out(N, ES, EMPTY), Outgoing(0.0, 0.0, True, True, True))
        self.refused(Number.TOO_LARGE, 0, j.range_give_out, N, ES, NO_WORD)

    def test_comparisons(self):
        self.assertIs(j.range_inside(N, ES, EMPTY, ONE_TO_TWO), True)
        self.assertIs(j.range_inside(N, ES, THREE_ONLY, ONE_TO_TWO), False)
        self.refused(Number.TOO_LARGE, 1, j.range_inside, N, ES, EMPTY, NO_WORD)
        self.assertIs(j.range_meets(N, ES, ZERO_TO_ONE, ONE_TO_TWO), True)
        self.refused(Number.HOLDS_INFINITY, 0, j.range_meets, N, ES, WITH_INFINITY, EMPTY)
        self.assertIs(j.range_below(N, ES, ONE_TO_TWO, THREE_ONLY), True)
        self.refused(Number.HOLDS_INFINITY, 1, j.range_below, N, ES, EMPTY, WITH_INFINITY)


class Columns(Calls):
    left = [ONE_TO_TWO, ONE_TO_TWO]
    right = [THREE_ONLY, ZERO_TO_ONE]
    sums = [word(0xA0, 0xA4), word(0x80, 0x98)]

    def test_lists_and_arrays(self):
        for made in (list, lambda words: array("Q", words)):
            left, right, lent = made(self.left), made(self.right), made([OLD] * 4)
            count = j.columns_combine(N, ES, Operation.ADD, left, right, 1, lent)
            self.assertEqual((count, list(lent)), (2, [OLD, *self.sums, OLD]))
            self.assertEqual((list(left), list(right)), (self.left, self.right))

    def test_refused(self):
        for lent in ([OLD] * 4, array("Q", [OLD] * 4)):
            for number, place, operation, right, row in [
                (Number.NO_OPERATION, 0, 4, self.right, 0),
                (Number.WRONG_LENGTH, 0, Operation.ADD, self.right[1:], 0),
                (Number.NO_ROOM, 0, Operation.ADD, self.right, 3),
                (Number.NO_ROOM, 0, Operation.ADD, self.right, 2**64 - 1),
                (Number.ZERO_DIVISOR, 1, Operation.DIVIDE, self.right, 0),
            ]:
                arguments = (N, ES, operation, self.left, right, row, lent)
                self.refused(number, place, j.columns_combine, *arguments)
                self.assertEqual(list(lent), [OLD] * 4)

    def test_empty(self):
        self.assertEqual(j.columns_combine(N, ES, Operation.ADD, [], [], 0, []), 0)
        empty = array("Q")
        self.assertEqual(j.columns_combine(N, ES, Operation.ADD, empty, empty, 0, empty), 0)

    def test_the_lent_column_as_input(self):
        lent = array("Q", [THREE_ONLY, THREE_ONLY, THREE_ONLY])
        count = j.columns_combine(N, ES, Operation.ADD, lent[:2], array("Q", self.left), 1, lent)
        self.assertEqual((count, list(lent)), (2, [THREE_ONLY, self.sums[0], self.sums[0]]))
        lent = array("Q", self.left)
        count = j.columns_combine(N, ES, Operation.SUBTRACT, lent, lent, 0, lent)
        self.assertEqual((count, list(lent)), (2, [word(0x180, 0x80)] * 2))

    def test_a_refusal_lets_the_arrays_go(self):
        lent = array("Q", [OLD])
        try:
            j.columns_combine(N, ES, Operation.ADD, array("Q", self.left), self.right, 0, lent)
        except Refused:
            lent.append(OLD)
        self.assertEqual(len(lent), 2)

    def test_any_memory_of_64_bit_words(self):
        def in_bytes(words):
            return memoryview(bytearray(array("Q", words).tobytes())).cast("Q")

        def in_ctypes(words):
            return (ctypes.c_uint64 * len(words))(*words)

        # The last has the form of NumPy's uint64.
        for made in (in_bytes, in_ctypes, lambda words: array("L", words)):
            left, right, lent = made(self.left), made(self.right), made([OLD] * 4)
            self.assertIs(j._column(left, lent), left)
            count = j.columns_combine(N, ES, Operation.ADD, left, right, 1, lent)
            self.assertEqual((count, list(lent)), (2, [OLD, *self.sums, OLD]))
            with self.assertRaises(Refused):
                j.columns_combine(N, ES, Operation.ADD, left, right, 3, lent)
            self.assertEqual(list(lent), [OLD, *self.sums, OLD])

    def test_inputs_that_are_copied(self):
        wide = array("Q", [word for word in self.right for _ in range(2)])
        for made in (
            tuple,
            iter,
            lambda words: array("q", words),
            lambda words: memoryview(array("Q", words).tobytes()).cast("Q"),
            lambda words: memoryview(wide)[::2],
        ):
            lent = array("Q", [OLD] * 2)
            count = j.columns_combine(N, ES, Operation.ADD, self.left, made(self.right), 0, lent)
            self.assertEqual((count, list(lent)), (2, self.sums))

    def test_memory_that_is_shared(self):
        lent = array("Q", [*self.left, *self.right, OLD])
        view = memoryview(lent)
        # Were it not copied, the first answer would be the second pair's right word.
        count = j.columns_combine(N, ES, Operation.ADD, view[:2], view[2:4], 3, lent)
        self.assertEqual((count, list(lent)), (2, [*self.left, THREE_ONLY, *self.sums]))
        view = memoryview(array("Q", [*self.left, *self.right]))
        self.assertIs(j._column(half := view[2:], view[:2]), half)

    def test_no_column(self):
        spread, kept = memoryview(array("Q", [0] * 4))[::2], memoryview(bytes(8)).cast("Q")
        for lent in (array("I"), array("q"), (), spread, kept):
            with self.assertRaises(TypeError):
                j.columns_combine(N, ES, Operation.ADD, [], [], 0, lent)
        for wrong in (2**64, -1):
            with self.assertRaises(OverflowError):
                j.columns_combine(N, ES, Operation.ADD, [wrong], [0], 0, [0])
        with self.assertRaises(TypeError):
            j.columns_combine(N, ES, Operation.ADD, [0.5], [0], 0, [0])

    def test_wrong_lengths_are_said(self):
        for left, right, lengths in [(2, 3, "2 and 3 rows"), (100000, 100000, "100000 rows, at most 4096")]:
            with self.assertRaises(Refused) as refusal:
                j.columns_combine(N, ES, Operation.ADD, [0] * left, [0] * right, 0, [])
            self.assertEqual(refusal.exception.lengths, lengths)
            text = f"refused 7 at place 0: {Number.WRONG_LENGTH.words} (here {lengths})"
            self.assertEqual(str(refusal.exception), text)


class Sheets(Calls):
    inputs = [ONE_TO_TWO, THREE_ONLY]
    steps = bytes([Operation.ADD, 0, 0, Operation.DIVIDE, 0, 1])

    def test_example(self):
        rows = [*self.inputs, word(0x90, 0xA0), word(0x65, 0x77)]
        for made in (list, lambda words: array("Q", words)):
            lent = made([OLD] * 5)
            count = j.sheet_work(N, ES, made(self.inputs), self.steps, lent)
            self.assertEqual((count, list(lent)), (4, [*rows, OLD]))

    def test_refused(self):
        later = bytes([Operation.ADD, 0, 2])
        for lent in ([OLD] * 3, array("Q", [OLD] * 3)):
            for number, place, inputs, steps in [
                (Number.WRONG_LENGTH, 0, self.inputs, self.steps[:5]),
                (Number.NO_ROOM, 0, self.inputs, self.steps),
                (Number.TOO_LARGE, 1, [ONE_TO_TWO, NO_WORD], b""),
                (Number.NOT_EARLIER, 2, self.inputs, later),
            ]:
                self.refused(number, place, j.sheet_work, N, ES, inputs, steps, lent)
                self.assertEqual(list(lent), [OLD] * 3)

    def test_steps_in_other_forms(self):
        rows = [OLD] * 5
        j.sheet_work(N, ES, self.inputs, self.steps, rows)
        for steps in (
            list(self.steps),
            bytearray(self.steps),
            [(Operation.ADD, 0, 0), (Operation.DIVIDE, 0, 1)],
            ([operation, 0, right] for operation, right in [(0, 0), (3, 1)]),
        ):
            lent = [OLD] * 5
            self.assertEqual(j.sheet_work(N, ES, self.inputs, steps, lent), 4)
            self.assertEqual(lent, rows)
        for wrong, error in [
            (3, TypeError),
            (["add"], TypeError),
            ([(0, 0)], ValueError),
            ([(0, 0, 0, 0)], ValueError),
            ([(0, 0, 256)], ValueError),
        ]:
            with self.assertRaises(error):
                j.sheet_work(N, ES, self.inputs, wrong, lent)

    def test_wrong_lengths_are_said(self):
        for inputs, steps, lengths in [
            (33, 0, "33 inputs, at most 32"),
            (0, 65 * 3, "65 steps, at most 64"),
            (0, 5, "5 bytes of steps, 3 to a step"),
            (40, 301, "40 inputs, at most 32; 100 steps, at most 64; 301 bytes of steps, 3 to a step"),
        ]:
            with self.assertRaises(Refused) as refusal:
                j.sheet_work(N, ES, [0] * inputs, bytes(steps), [])
            self.assertEqual(refusal.exception.lengths, lengths)


class Files(Calls):
    # Document 01's example.
    file = bytes.fromhex(
        "52 53 48 01 00 08 02 02 02"
        "90 00 01 00 00 00 00 00 98 30 01 00 00 00 00 00"
        "00 00 00 03 00 01"
    )

    def test_example(self):
        rows = [ONE_TO_TWO, THREE_ONLY, word(0x90, 0xA0), word(0x65, 0x77)]
        for lent in ([OLD] * 5, array("Q", [OLD] * 5)):
            self.assertEqual((j.file_work(self.file, lent), list(lent)), (4, [*rows, OLD]))

    def test_by_its_path(self):
        with tempfile.TemporaryDirectory() as folder:
            path = pathlib.Path(folder) / "a.rsh"
            path.write_bytes(self.file)
            for named in (path, str(path)):
                lent = [OLD] * 5
                self.assertEqual(j.file_work(named, lent), 4)
            path.write_bytes(self.file + bytes(1000))
            self.refused(Number.BAD_FILE, 0, j.file_work, path, lent)
            with self.assertRaises(FileNotFoundError):
                j.file_work(path.with_suffix(".rows"), lent)

    def test_wrong_lengths_are_said(self):
        with self.assertRaises(Refused) as refusal:
            j.file_work(self.file[:7] + bytes([200, 100]), [])
        self.assertEqual(refusal.exception.lengths, "200 inputs, at most 32; 100 steps, at most 64")

    def test_refused(self):
        for lent in ([OLD] * 3, array("Q", [OLD] * 3)):
            self.refused(Number.BAD_FILE, 0, j.file_work, b"", lent)
            self.refused(Number.BAD_FILE, 0, j.file_work, self.file[:-1], lent)
            self.refused(Number.NO_ROOM, 0, j.file_work, self.file, lent)
            self.assertEqual(list(lent), [OLD] * 3)


class Library(unittest.TestCase):
    def test_its_version_is_the_modules(self):
        first, second, third = map(int, j.__version__.split("."))
        self.assertEqual(j.version(), 10000 * first + 100 * second + third)

    def test_another_version_is_not_taken(self):
        first, second, third = map(int, j.__version__.split("."))
        for other in (f"{first + 1}.0.0", f"{first}.{second}.{third + 1}", f"{first}.{second + 1}.0"):
            with mock.patch.object(j, "__version__", other):
                with self.assertRaisesRegex(OSError, f"this module {other}: run ./library"):
                    j._load(j._place())

    def test_another_library_is_not_taken(self):
        with self.assertRaisesRegex(OSError, "does not tell its version: run ./library"):
            j._load("libm.so.6")
        with self.assertRaisesRegex(OSError, "No such file.*: run ./library"):
            j._load("/nowhere/libjorumrain.so")


class Words(unittest.TestCase):
    def test_a_refusal_says_its_number_in_words(self):
        text = "refused 4 at place 1: the range holds infinity"
        self.assertEqual(str(Refused(Number.HOLDS_INFINITY, 1)), text)
        self.assertEqual(str(Refused(99, 0)), "refused 99 at place 0: " + j.words(99))

    def test_a_refusal_can_be_sent_to_another_process(self):
        refusal = Refused(Number.WRONG_LENGTH, 0)
        refusal.lengths = "2 and 3 rows"
        self.assertEqual(str(pickle.loads(pickle.dumps(refusal))), str(refusal))

    def test_the_examples_of_the_module(self):
        self.assertEqual(doctest.testmod(j).failed, 0)


if __name__ == "__main__":
    unittest.main()
