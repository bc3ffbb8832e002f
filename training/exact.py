"""The exact working of a sheet for one choice of inputs: each row a fraction, or the reason why it has none."""

import operator
from typing import NamedTuple

from training.library import jorumrain
from training.outcome import Trouble

# Fractions of more bits than this are not worked on: a row that squares the row before it doubles its digits.
MOST_BITS = 12_000

NOTHING = "nothing to pick: the range is empty"
ZERO_DIVISOR = "divides by zero"
TOO_LONG = "too long a fraction to work exactly"

WORK = {
    jorumrain.Operation.ADD: operator.add,
    jorumrain.Operation.SUBTRACT: operator.sub,
    jorumrain.Operation.MULTIPLY: operator.mul,
    jorumrain.Operation.DIVIDE: operator.truediv,
}


class Missing(NamedTuple):
    """Why a row has no exact value under the choice."""

    words: str


def work(sheet, choice):
    """The value of each row; the choice holds a fraction for each input, None for an empty one."""
    values = [Missing(NOTHING) if x is None else x for x in choice]
    for step in sheet.steps:
        values.append(_work_step(sheet, step, values))
    return values


def _work_step(sheet, step, values):
    if step.operation not in WORK:
        raise Trouble(f"this command does not know operation {step.operation}")
    left, right = values[step.left], values[step.right]
    for row, operand in ((step.left, left), (step.right, right)):
        if isinstance(operand, Missing):
            return Missing(f"skipped: {sheet.name(row)} has no value")
    if step.operation == jorumrain.Operation.DIVIDE and right == 0:
        return Missing(f"{ZERO_DIVISOR}: {sheet.name(step.right)} is 0")
    if _bits(left) + _bits(right) > MOST_BITS:
        return Missing(TOO_LONG)
    return WORK[step.operation](left, right)


def _bits(x):
    return x.numerator.bit_length() + x.denominator.bit_length()
