"""sheet rows: each row of a sheet, how it was made, its range, its ends said plainly, and its number line."""

import sys

from training import source
from training.line import drawn
from training.numbers import written

NO_ROWS = "the sheet has no rows\n"
LEGEND = "on the lines: [ ] the end is in, ( ) it is not, | one number alone, + a posit, < and > no bound\n"


def run(options):
    found = source.worked(options.file)
    sheet = found.sheet
    lines = [f"format {sheet.format}: width {sheet.format.n}, exponent size {sheet.format.es}\n"]
    for row, span in enumerate(found.ranges):
        lines.append(f"\nrow {row}: {sheet.formula(row)}{', an input' if row < len(sheet.inputs) else ''}\n")
        lines += [f"    {line}\n" for line in described(span)]
    lines.append("\n" + LEGEND if found.ranges else NO_ROWS)
    sys.stdout.write("".join(lines))
    return 0


def described(span):
    """The lines about one range."""
    if span.is_empty:
        posit = span.format.digits(span.start)
        return ["empty: no number is in it", f"both ends are posit {posit}, open"]
    return [
        str(span),
        "start " + _end(span.format, span.start, span.start_open, "below"),
        "end   " + _end(span.format, span.end, span.end_open, "above"),
        " ".join(drawn(span)),
    ]


def _end(form, index, is_open, where):
    if index is None:
        return f"none: unbounded {where} (posit {form.digits(None)}, open)"
    member = "open: it is not in the range" if is_open else "closed: it is in the range"
    return f"{written(form.value(index))}, {member} (posit {form.digits(index)})"
