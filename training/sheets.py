"""A sheet: its format, input words and steps, and a name for each row."""

from typing import NamedTuple

from training.library import jorumrain
from training.posits import Format

# The sign of each operation, by its number.
SIGNS = {
    jorumrain.Operation.ADD: "+",
    jorumrain.Operation.SUBTRACT: "-",
    jorumrain.Operation.MULTIPLY: "*",
    jorumrain.Operation.DIVIDE: "/",
}
OPERATIONS = {sign: operation for operation, sign in SIGNS.items()}

LETTERS = "abcdefghijklmnopqrstuvwxyz"


class Step(NamedTuple):
    """An operation number and the two rows that it takes."""

    operation: int
    left: int
    right: int


class Sheet(NamedTuple):
    """The rows are the inputs and after them one for each step."""

    format: Format
    inputs: tuple
    steps: tuple
    names: tuple

    @property
    def count(self):
        return len(self.inputs) + len(self.steps)

    def made(self, row):
        """How a row is made, in words or as its formula."""
        if row < len(self.inputs):
            return "input"
        step = self.steps[row - len(self.inputs)]
        left, right = self.name(step.left), self.name(step.right)
        return f"{left} {SIGNS.get(step.operation, f'?{step.operation}')} {right}"

    def formula(self, row):
        """The name of a row, and of a computed one how it is made."""
        return self.name(row) if row < len(self.inputs) else f"{self.name(row)} = {self.made(row)}"

    def name(self, row):
        """The name of a row, also of one that a damaged step speaks of and the sheet has not."""
        return self.names[row] if row < self.count else f"?{row}"


def plain_names(inputs, steps):
    """The names of rows that were given none: letters for inputs, r and the row's number for steps."""
    first = [LETTERS[row] if row < len(LETTERS) else f"i{row}" for row in range(inputs)]
    return tuple(first + [f"r{row}" for row in range(inputs, inputs + steps)])
