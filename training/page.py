"""sheet page: one page with a sheet, its number lines and the script that works new choices; it fetches nothing."""

import json
import pathlib
import random
import sys
from html import escape

from training import choice, exact, source
from training.exact import Missing
from training.line import around
from training.numbers import shortened, written
from training.picture import BEYOND, LABEL, LABEL_ROOM, WIDTH, drawing, ticks
from training.sheets import SIGNS
from training.verdict import hold

FOLDER = pathlib.Path(__file__).with_name("browser")
SCRIPTS = ("fraction.js", "member.js", "pick.js", "work.js", "page.js")

# The browser is told to fetch nothing and to run only what stands in the page.
POLICY = "default-src 'none'; style-src 'unsafe-inline'; script-src 'unsafe-inline'"

# The first choice is the same each time, so that the same sheet gives the same page.
FIRST_SEED = 1


def run(options):
    found = source.worked(options.file)
    inputs = found.ranges[: len(found.sheet.inputs)]
    chosen = choice.choose(random.Random(FIRST_SEED), inputs, {}, False)
    values = exact.work(found.sheet, chosen)
    hold(found, chosen, values)
    sys.stdout.write(page(found, chosen, values))
    return 0


def page(found, chosen, values):
    """The whole page."""
    parts = {
        "TITLE": escape(pathlib.PurePath(found.title).name),
        "POLICY": POLICY,
        "STYLE": _asset("page.css"),
        "FORMAT": f"n = {found.sheet.format.n} and es = {found.sheet.format.es}",
        "FIELDS": "".join(_field(found, row, x) for row, x in enumerate(chosen)),
        "ROWS": "".join(_row(found, row, value) for row, value in enumerate(values)),
        "DATA": _data(found),
        "SCRIPT": "".join(_asset(name) for name in SCRIPTS),
    }
    pieces = _asset("page.html").split("@@")
    return "".join(parts[piece] if at % 2 else piece for at, piece in enumerate(pieces))


def _asset(name):
    return (FOLDER / name).read_text(encoding="utf-8")


def _field(found, row, x):
    """The field in which a member of an input is chosen."""
    name, span = found.sheet.name(row), found.ranges[row]
    if x is None:
        return f'<p class="field"><b>{name}</b> in {span}: {exact.NOTHING}</p>\n'
    return (
        f'<p class="field"><label for="choice{row}"><b>{name}</b> in {span}</label> '
        f'<input id="choice{row}" data-row="{row}" value="{written(x)}" autocomplete="off" spellcheck="false" '
        f'aria-describedby="note{row}"> <span class="note" id="note{row}"></span></p>\n'
    )


def _row(found, row, value):
    """A row: what it is, its range, its value and its number line."""
    span, missing = found.ranges[row], isinstance(value, Missing)
    kind = " an input" if row < len(found.sheet.inputs) else ""
    shown, verdict = ("-", value.words) if missing else (shortened(value), "in")
    line = '<p class="nothing">no number is in it</p>' if span.is_empty else drawing(
        row, span, words(span, None if missing else value), None if missing else value
    )
    return (
        f'<section class="row" aria-labelledby="head{row}">\n<h2 id="head{row}">'
        f'<span class="number">{row}</span>{escape(found.sheet.formula(row))}<small>{kind}</small></h2>\n'
        f'<p class="range">{span} <small>{_posits(span)}</small></p>\n'
        f'<p class="value" id="value{row}"><output>{shown}</output> <span class="verdict">{verdict}</span></p>\n'
        f"{line}\n</section>\n"
    )


def _posits(span):
    """The posits at the ends."""
    marks = (("closed", "open")[span.start_open], ("closed", "open")[span.end_open])
    start, end = span.format.digits(span.start), span.format.digits(span.end)
    return f"posits {start} {marks[0]}, {end} {marks[1]}"


def words(span, value):
    """A number line in words, for those who do not see it."""
    start = "no start" if span.start is None else f"from {written(span.low)}, {'open' if span.start_open else 'closed'}"
    end = "no end" if span.end is None else f"to {written(span.high)}, {'open' if span.end_open else 'closed'}"
    return f"{start}, {end}" + ("" if value is None else f"; the value is {shortened(value)}")


def _data(found):
    """What the script needs: the rows, their ranges and the places of the posits on their lines."""
    rows = [_data_of_row(found, row, span) for row, span in enumerate(found.ranges)]
    data = {
        "rows": rows,
        "inputs": len(found.sheet.inputs),
        "mostBits": exact.MOST_BITS,
        "width": WIDTH,
        "beyond": [BEYOND, WIDTH - BEYOND],
        "label": {"most": LABEL, "room": LABEL_ROOM},
        "words": {"nothing": exact.NOTHING, "zeroDivisor": exact.ZERO_DIVISOR, "tooLong": exact.TOO_LONG},
    }
    return json.dumps(data, separators=(",", ":")).replace("<", "\\u003c")


def _data_of_row(found, row, span):
    sheet = found.sheet
    data = {
        "name": sheet.name(row),
        "text": str(span),
        "low": None if span.low is None else str(span.low),
        "high": None if span.high is None else str(span.high),
        "lowOpen": span.start_open,
        "highOpen": span.end_open,
        "empty": span.is_empty,
        "said": "" if span.is_empty else words(span, None),
        "ticks": [] if span.is_empty else [[str(x), place] for x, place in ticks(around(span))],
    }
    if row >= len(sheet.inputs):
        step = sheet.steps[row - len(sheet.inputs)]
        data |= {"sign": SIGNS[step.operation], "left": step.left, "right": step.right}
    return data
