"""A sheet as text, read and written: a format line, then the inputs, then the steps, a line each."""

import re

from training import notation
from training.library import jorumrain
from training.notation import Misread
from training.outcome import Refusal
from training.posits import Format
from training.ranges import EMPTY, is_word, text_of_word
from training.sheets import OPERATIONS, Sheet, Step

NAME = r"[A-Za-z][A-Za-z0-9_]*"
FORMAT = re.compile(r"format\s+(\d{1,9})\s*,?\s*(\d{1,9})", re.ASCII)
ROW = re.compile(rf"({NAME})\s*=\s*(.*)", re.ASCII)
STEP = re.compile(rf"({NAME})\s*([-+*/])\s*({NAME})", re.ASCII)
LINE_END = re.compile(r"\r\n|\r|\n")
COMMENT = "#"

# Words that mean something in an input, so that no row may have them as its name.
RESERVED = (EMPTY, notation.ALL, "format", "inf", "maxpos", "minpos")


class Reading:
    """What has been read so far: the format, the rows by name, and the line that each row stands on."""

    def __init__(self):
        self.format = None
        self.inputs = []
        self.steps = []
        self.rows = {}
        self.lines = []

    def sheet(self):
        return Sheet(self.format, tuple(self.inputs), tuple(self.steps), tuple(self.rows))


def read(text, title):
    """The sheet that a text means and the line of each row; refused with line, place and words."""
    reading = Reading()
    for number, line in enumerate(LINE_END.split(text), 1):
        body = line.split(COMMENT)[0].rstrip()
        try:
            _read_line(reading, body.lstrip(), number)
        except Misread as error:
            place = len(body) - len(body.lstrip()) + error.place
            raise Refusal(misread(title, number, place, error.words, line)) from None
    if reading.format is None:
        raise Refusal(f"{title}: there is no format line, such as: format 8 2")
    return reading.sheet(), reading.lines


def misread(title, number, place, words, line):
    """Words about a line, with the line and a mark under the place where it is short enough to show."""
    shown = f"\n    {line}\n    {' ' * place}^" if len(line) <= 100 and line.isprintable() else ""
    return f"{title}, line {number}, place {place + 1}: {words}{shown}"


def _read_line(reading, body, number):
    if not body:
        return
    if reading.format is None:
        reading.format = _read_format(body)
        return
    found = ROW.fullmatch(body)
    if not found:
        raise Misread(0, "a line is a name, =, and a range or a step: a = [1/2, 3/4) or r = a + b")
    name, made = found.groups()
    _new_name(reading, name)
    try:
        _read_row(reading, made)
    except Misread as error:
        raise Misread(found.start(2) + error.place, error.words) from None
    reading.rows[name] = len(reading.rows)
    reading.lines.append(number)


def _read_format(body):
    found = FORMAT.fullmatch(body)
    if not found:
        raise Misread(0, "the first line is the format, width and exponent size, such as: format 8 2")
    n, es = int(found[1]), int(found[2])
    try:
        jorumrain.posit_decode(n, es, 0)
    except jorumrain.Refused as refused:
        raise Misread(0, f"{refused.number.words}: n goes from 3 to 16 and es from 0 to 2") from None
    return Format(n, es)


def _new_name(reading, name):
    if name.lower() in RESERVED:
        raise Misread(0, f"{name} means something else; give the row another name")
    if name in reading.rows:
        raise Misread(0, f"there is a row named {name} above")


def _read_row(reading, made):
    """Adds an input or a step; what begins with a name that is no number's is a step."""
    first = re.match(NAME, made, re.ASCII)
    if first and first[0].lower() not in RESERVED:
        if len(reading.steps) == jorumrain.MOST_STEPS:
            raise Misread(0, f"a sheet has at most {jorumrain.MOST_STEPS} steps")
        reading.steps.append(_read_step(reading, made))
        return
    if reading.steps:
        raise Misread(0, "inputs come before the steps; a step is two earlier rows, as a + b")
    if len(reading.inputs) == jorumrain.MOST_INPUTS:
        raise Misread(0, f"a sheet has at most {jorumrain.MOST_INPUTS} inputs")
    reading.inputs.append(notation.read(reading.format, made).word)


def _read_step(reading, made):
    found = STEP.fullmatch(made)
    if not found:
        words = "a step is one operation on two earlier rows, as a + b, a - b, a * b or a / b"
        raise Misread(0, words + "; a number is written as an input with a name")
    left, sign, right = found.groups()
    for group, name in ((1, left), (3, right)):
        if name not in reading.rows:
            raise Misread(found.start(group), f"there is no row named {name} above")
    return Step(OPERATIONS[sign], reading.rows[left], reading.rows[right])


def written(sheet):
    """The text of a sheet. What no text means (only a damaged file has it) is written with a question mark."""
    lines = [f"format {sheet.format.n} {sheet.format.es}"]
    for row, word in enumerate(sheet.inputs):
        whole = is_word(sheet.format, word)
        lines.append(f"{sheet.name(row)} = {text_of_word(sheet.format, word) if whole else f'?{word:x}'}")
    for row in range(len(sheet.inputs), sheet.count):
        lines.append(f"{sheet.name(row)} = {sheet.made(row)}")
    return "".join(line + "\n" for line in lines)
