"""What a column of 4,096 products costs from Python, in arrays or lists: nanoseconds a pair, the best of many calls."""

import pathlib
import sys
import time
from array import array

sys.dont_write_bytecode = True
sys.path.insert(0, str(pathlib.Path(__file__).resolve().parents[2] / "bindings" / "python"))
import jorumrain  # noqa: E402

N, ES, LENGTH, ROUNDS = 16, 2, jorumrain.LONGEST_COLUMN, 400


def word(start, width):
    """The same columns in all three languages: positive ranges with closed ends."""
    return (2 * start) << (N + 1) | 2 * (start + width)


def best(left, right, lent):
    taken = []
    for _ in range(ROUNDS):
        start = time.perf_counter_ns()
        count = jorumrain.columns_combine(N, ES, jorumrain.Operation.MULTIPLY, left, right, 0, lent)
        taken.append(time.perf_counter_ns() - start)
        assert count == LENGTH
    return min(taken) / LENGTH


def main():
    left = [word(1 + 7919 * i % 30000, i % 97) for i in range(LENGTH)]
    right = [word(1 + 6007 * i % 30000, i % 89) for i in range(LENGTH)]
    made = list if sys.argv[1:] == ["lists"] else lambda words: array("Q", words)
    print(f"{best(made(left), made(right), made([0] * LENGTH)):.2f}")


main()
