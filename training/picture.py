"""A row's number line as a drawing (SVG): posits as ticks, the range with filled and hollow ends, and the value."""

from fractions import Fraction
from html import escape

from training.line import around
from training.numbers import written

# Sizes in the drawing's own units; the line leaves room beyond its edges for arrows.
WIDTH, HEIGHT = 720, 82
EDGE = 44
BASE = 42
BEYOND = EDGE // 2
TICK = 6
END_RADIUS = 6
LABELS, EDGE_LABELS = BASE + 21, BASE + 36

# About what a digit of a label takes, to keep labels inside the drawing.
DIGIT = 7.5

# How far from the edges of the drawing a label for 0 has room.
ZERO_ROOM = 150

# The longest number that is written over its pointer, and the room that it takes.
LABEL, LABEL_ROOM = 20, 80


def across(line, at):
    """The place of a position on the line, from left to right."""
    low, high = line.ticks[0], line.ticks[-1]
    if at < low:
        return BEYOND
    if at > high:
        return WIDTH - BEYOND
    return EDGE + float(Fraction(at - low, high - low) * (WIDTH - 2 * EDGE))


def ticks(line):
    """Each posit shown, as its number and its place."""
    value = line.range.format.value
    return [(value(index), round(across(line, index), 2)) for index in line.ticks]


def drawing(row, span, words, value):
    """The whole drawing of a row; the mark is moved by the page when a new choice is worked."""
    line = around(span)
    mark = None if value is None else across(line, line.at(value))
    parts = [
        f'<line class="base" x1="6" y1="{BASE}" x2="{WIDTH - 6}" y2="{BASE}"/>',
        *(_tick(line, index) for index in line.ticks),
        *_stretch(line, span),
        *_labels(line, span),
        _mark(mark, value),
    ]
    return (
        f'<svg id="line{row}" class="line" viewBox="0 0 {WIDTH} {HEIGHT}" role="img" aria-label="{escape(words)}">'
        + "".join(parts)
        + "</svg>"
    )


def _tick(line, index):
    form = line.range.format
    x = f"{across(line, index):.2f}"
    title = f"{written(form.value(index))} (posit {form.digits(index)})"
    ends = f'x1="{x}" y1="{BASE - TICK}" x2="{x}" y2="{BASE + TICK}"'
    return f'<line class="tick" {ends}><title>{title}</title></line>'


def _stretch(line, span):
    """The range itself, with an arrow where it has no bound and a dot, filled or hollow, where it has one."""
    left = BEYOND / 2 if span.start is None else across(line, span.start)
    right = WIDTH - BEYOND / 2 if span.end is None else across(line, span.end)
    yield f'<line class="inside" x1="{left:.2f}" y1="{BASE}" x2="{right:.2f}" y2="{BASE}"/>'
    yield _arrow(left, -1) if span.start is None else _dot(left, span.start_open, "start")
    yield _arrow(right, 1) if span.end is None else _dot(right, span.end_open, "end")


def _arrow(x, side):
    tip, back = x + side * 6, x - side * 6
    return f'<path class="arrow" d="M{tip:.2f} {BASE} L{back:.2f} {BASE - 8} L{back:.2f} {BASE + 8} Z"/>'


def _dot(x, is_open, which):
    kind = "hollow" if is_open else "filled"
    return f'<circle class="{which} {kind}" cx="{x:.2f}" cy="{BASE}" r="{END_RADIUS}"/>'


def _labels(line, span):
    """The numbers at the ends of the range, and lower down those at the edges of the line and 0."""
    value = span.format.value
    texts = [(across(line, index), written(value(index))) for index in _bounds(span)]
    room = texts[-1][0] - texts[0][0] if len(texts) == 2 else WIDTH
    crowded = room < DIGIT * max((len(text) for _, text in texts), default=0) + 2 * DIGIT
    for (x, text), outward in zip(texts, ("end", "start")):
        yield _label("number", x, LABELS, text, _kept(x, text, outward if crowded else "middle"))
    for index in _others(line):
        x, text = across(line, index), written(value(index))
        yield _label("edge", x, EDGE_LABELS, text, _kept(x, text, "middle"))


def _others(line):
    """The edges of the line, and 0 where it stands well between them; the ends of the range have their own labels."""
    low, high = line.ticks[0], line.ticks[-1]
    with_zero = low < 0 < high and ZERO_ROOM < across(line, 0) < WIDTH - ZERO_ROOM
    found = (low, 0, high) if with_zero else (low, high)
    return [index for index in found if index not in _bounds(line.range)]


def _bounds(span):
    """The indexes of the ends that there are, one for a single number."""
    ends = [span.start] if span.is_point else [span.start, span.end]
    return [index for index in ends if index is not None]


def _kept(x, text, anchor):
    """The side on which a number stands, turned where it would leave the drawing."""
    length = DIGIT * len(text)
    if anchor == "end" and x < length or anchor == "middle" and 2 * x < length:
        return "start"
    if anchor == "start" and WIDTH - x < length or anchor == "middle" and 2 * (WIDTH - x) < length:
        return "end"
    return anchor


def _label(kind, x, y, text, anchor):
    return f'<text class="{kind}" x="{x:.2f}" y="{y}" text-anchor="{anchor}">{text}</text>'


def _mark(x, value):
    """The value of the choice: a pointer down to the line and a label over it where the number is short."""
    hidden, place = (' style="display:none"', 0) if x is None else ("", x)
    point = f"M0 {BASE - 3} L-6 {BASE - 16} L6 {BASE - 16} Z"
    text = "" if value is None or len(written(value)) > LABEL else written(value)
    return (
        f'<g class="mark" transform="translate({place:.2f} 0)"{hidden}>'
        f'<path d="{point}"/>{_label("at", 0, BASE - 21, text, _anchor(place))}</g>'
    )


def _anchor(place):
    """On which side of the pointer its label stands; near an edge it turns inward."""
    if place < LABEL_ROOM:
        return "start"
    return "end" if place > WIDTH - LABEL_ROOM else "middle"
