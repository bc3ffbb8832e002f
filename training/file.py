"""The sheet file: its bytes written and read, and its rows worked by the library, refusals in words."""

from training.library import jorumrain
from training.outcome import Trouble
from training.posits import Format
from training.sheets import Sheet, Step, plain_names

MARK = b"RSH"
VERSION = 1
HEAD = 9
WORD_BYTES = 8
STEP_BYTES = 3
MOST_ROWS = jorumrain.MOST_INPUTS + jorumrain.MOST_STEPS

# The refusals that speak of the file as a whole; all others name a row of it.
OF_THE_WHOLE = (
    jorumrain.Number.BAD_FILE,
    jorumrain.Number.OUTSIDE_LIMITS,
    jorumrain.Number.WRONG_LENGTH,
)


def written(sheet):
    """The bytes of a sheet."""
    head = MARK + VERSION.to_bytes(2, "little")
    counts = bytes([*sheet.format, len(sheet.inputs), len(sheet.steps)])
    words = b"".join(word.to_bytes(WORD_BYTES, "little") for word in sheet.inputs)
    return head + counts + words + b"".join(bytes(step) for step in sheet.steps)


def read(data):
    """The sheet of a file whose head and length the library has judged."""
    version = int.from_bytes(data[3:5], "little")
    if version != VERSION:
        raise Trouble(f"this command reads version {VERSION} of the sheet file, not {version}")
    n, es, inputs, steps = data[5:HEAD]
    words = _pieces(data, HEAD, inputs, WORD_BYTES)
    triples = _pieces(data, HEAD + inputs * WORD_BYTES, steps, STEP_BYTES)
    return Sheet(
        Format(n, es),
        tuple(int.from_bytes(word, "little") for word in words),
        tuple(Step(*triple) for triple in triples),
        plain_names(inputs, steps),
    )


def _pieces(data, start, count, size):
    return [data[at : at + size] for at in range(start, start + count * size, size)]


def worked(data):
    """The words of all rows; raises the binding's Refused."""
    lent = [0] * MOST_ROWS
    return lent[: jorumrain.file_work(data, lent)]


def in_words(data, refused, sheet=None):
    """A refusal of the library in words: its number, the row where it names one, and its meaning."""
    number = refused.number
    if number in OF_THE_WHOLE:
        return f"refused {number:d}: {number.words}{_detail(data, number)}"
    sheet = sheet or read(data)
    row = refused.place
    how = f"{sheet.name(row)}: {sheet.made(row)}"
    return f"refused {number:d} at row {row} ({how}): {number.words}"


def _detail(data, number):
    """What of a file is wrong, as far as it can be told."""
    if number == jorumrain.Number.OUTSIDE_LIMITS:
        return f" (n is {data[5]} and es is {data[6]})"
    if number == jorumrain.Number.WRONG_LENGTH:
        return f" ({data[7]} inputs and {data[8]} steps)"
    if len(data) < HEAD:
        return f" (it has {len(data)} bytes)"
    if data[:3] != MARK:
        return " (it does not begin with RSH)"
    if int.from_bytes(data[3:5], "little") != VERSION:
        return f" (its version is {int.from_bytes(data[3:5], 'little')})"
    length = HEAD + data[7] * WORD_BYTES + data[8] * STEP_BYTES
    return f" (it has {len(data)} bytes; {data[7]} inputs and {data[8]} steps take {length})"
