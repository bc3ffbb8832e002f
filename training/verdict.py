"""Values held to their rows: the one thing that must never fail here."""

from training.exact import Missing
from training.numbers import written
from training.outcome import Fault


def hold(found, chosen, values):
    """Ends loudly where a value is not in its row's range."""
    for row, (span, value) in enumerate(zip(found.ranges, values)):
        if not isinstance(value, Missing) and not span.holds(value):
            raise Fault(_words(found, chosen, row, value))


def _words(found, chosen, row, value):
    names = zip(found.sheet.names, chosen)
    choices = " ".join(f"{name}={written(x)}" for name, x in names if x is not None)
    return (
        "A VALUE IS NOT IN ITS ROW.\n"
        f"Row {row}, {found.sheet.formula(row)}, is {found.ranges[row]}, and {written(value)} is not in it.\n"
        f"The choice was: {choices}\n"
        "The proofs exclude this, so the fault is ours and not the sheet's: please report the file and the choice."
    )
