"""How a command ends when it does not simply end well: each way has its words and its exit status."""


class Ending(Exception):
    """Words for the person at the keyboard, and the exit status that goes with them."""

    status = 2


class Refusal(Ending):
    """A text, a file, a sheet or a choice that is refused."""

    status = 1


class Trouble(Ending):
    """Something outside the sheet: a file that cannot be read, a library that is not built."""

    status = 2


class Fault(Ending):
    """A value outside its row's range, which the proofs exclude: a fault of ours."""

    status = 3
