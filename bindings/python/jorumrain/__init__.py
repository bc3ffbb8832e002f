"""Jorumrain for Python: the proved calls on posits, ranges, columns and sheets, over ctypes.

Posits are numbers of 3 to 16 bits; ranges (valids) have posits as their ends, each open or closed.
Every call gives its value, or raises `Refused` with document 01's number and place; a refused call
leaves all memory lent to it as it was. A format is a width n from 3 to 16 and an exponent size es
from 0 to 2. A posit is an int below 2**n. A range is an int, its start tile * 2**(n+1) + its end
tile, where a tile is a posit times 2, plus 1 for an open end.

An int that does not fit the library's type for it (32 bits for n, es and a posit, 64 for a range, 8
for an operation) raises ctypes.ArgumentError, in a column OverflowError and in a step ValueError; it
is never cut to its low bits.

The library is the file named by the environment variable JORUMRAIN_LIBRARY. Without that it is the
one beside this module, where the module is installed, or that which `./library` leaves in the
repository that this module stands in, or the one that the system's loader finds.

    >>> import jorumrain as j
    >>> hex(j.posit_operate(8, 2, j.Operation.ADD, 0x40, 0x40))
    '0x48'
    >>> j.range_give_out(8, 2, j.range_take_in(8, 2, 1.0, 2.0))
    Outgoing(low=1.0, high=2.0, low_open=False, high_open=False, empty=False)
"""

import ctypes
import enum
import operator
import os
import pathlib
from array import array
from typing import TYPE_CHECKING, Iterable, List, NamedTuple, Optional, Tuple, Union

if TYPE_CHECKING:
    from typing_extensions import Buffer

__all__ = [
    "Number", "Operation", "Kind", "Order", "Decoded", "Outgoing", "Refused",
    "LONGEST_COLUMN", "MOST_INPUTS", "MOST_STEPS", "STEP_BYTES",
    "posit_decode", "posit_encode", "posit_compare", "posit_negate", "posit_operate",
    "posit_from_float", "posit_to_float",
    "range_negate", "range_operate", "range_take_in", "range_give_out",
    "range_inside", "range_meets", "range_below",
    "columns_combine", "sheet_work", "file_work",
    "version", "words",
]

__version__ = "1.0.0"

# ---- Numbers with names


class Number(enum.IntEnum):
    """The numbers a call may come back with, each given exactly when its `words` say."""

    DONE = 0
    OUTSIDE_LIMITS = 1
    NO_OPERATION = 2
    TOO_LARGE = 3
    HOLDS_INFINITY = 4
    ZERO_DIVISOR = 5
    BAD_READING = 6
    WRONG_LENGTH = 7
    NOT_EARLIER = 8
    NO_ROOM = 9
    BAD_FILE = 10

    @property
    def words(self) -> str:
        """Document 01's words."""
        return _WORDS[self]


_WORDS = {
    Number.DONE: "done",
    Number.OUTSIDE_LIMITS: "n or es outside the format limits",
    Number.NO_OPERATION: "operation number above 3",
    Number.TOO_LARGE: "posit of 2^n or more, or range word of 2^(2n+2) or more",
    Number.HOLDS_INFINITY: "the range holds infinity",
    Number.ZERO_DIVISOR: "the divisor range has 0 as a member",
    Number.BAD_READING: "a reading with a NaN, low +infinity, high -infinity, or low above high",
    Number.WRONG_LENGTH: "columns of unequal length or over 4,096; over 32 inputs or 64 steps; "
    "a step list that is no whole number of steps",
    Number.NOT_EARLIER: "a step names a row that isn't earlier",
    Number.NO_ROOM: "the named row (0 for a sheet) plus the words to be written exceeds "
    "the lent column's length",
    Number.BAD_FILE: "file shorter than 9 bytes, mark or version wrong, or wrong length",
}


def words(number: int) -> str:
    """Document 01's words for a number, as `Number.words`; a number that has none is said to be so."""
    return _WORDS.get(number, "no number that this version knows")


class Operation(enum.IntEnum):
    """The operations; a call takes any int and refuses one above 3."""

    ADD = 0
    SUBTRACT = 1
    MULTIPLY = 2
    DIVIDE = 3


class Kind(enum.IntEnum):
    """The kinds of a decoded posit; NaR ("not a real") is what a division by zero gives."""

    ZERO = 0
    NAR = 1
    FINITE = 2


class Order(enum.IntEnum):
    """How a posit compares with another."""

    LESS = 0
    EQUAL = 1
    GREATER = 2


LONGEST_COLUMN = 4096
MOST_INPUTS = 32
MOST_STEPS = 64
STEP_BYTES = 3

# ---- What calls give


class Refused(Exception):
    """A call refused: its `number`, from 1 to 10, and the `place` that the number speaks of.

    The place is 0 or 1 for the left and the right operand of a single call, the pair of a column, or
    the row of a sheet; a refusal that names no place has 0. With number 7 `lengths` says which lengths
    were wrong.
    """

    def __init__(self, number: int, place: int):
        super().__init__(number, place)
        self.number = Number(number) if number in _WORDS else number
        self.place = place
        self.lengths = ""

    def __str__(self) -> str:
        text = f"refused {self.number:d} at place {self.place}: {words(self.number)}"
        return f"{text} (here {self.lengths})" if self.lengths else text


class Decoded(NamedTuple):
    """A decoded posit: a finite one is fraction * 2**scale, negated where `negative` is set."""

    kind: Kind
    negative: bool = False
    scale: int = 0
    fraction: int = 0


class Outgoing(NamedTuple):
    """A range as two exact floats.

    Unbounded ends are the infinities, open, and an empty range is 0.0 twice, both open.
    """

    low: float
    high: float
    low_open: bool
    high_open: bool
    empty: bool


# ---- The library and its declarations, which tests/header holds to the crate cabi


def _whole(name, kind, least, greatest):
    """A parameter of one of C's whole numbers that refuses an int outside it, as ctypes by itself does not."""

    def from_param(cls, value):
        value = operator.index(value)
        if not least <= value <= greatest:
            raise OverflowError(f"{value} is outside {least} to {greatest}")
        return kind(value)

    return type(name, (), {"kind": kind, "from_param": classmethod(from_param)})


_U8 = _whole("_U8", ctypes.c_uint8, 0, 2**8 - 1)
_U32 = _whole("_U32", ctypes.c_uint32, 0, 2**32 - 1)
_I32 = _whole("_I32", ctypes.c_int32, -(2**31), 2**31 - 1)
_U64 = _whole("_U64", ctypes.c_uint64, 0, 2**64 - 1)
_SIZE = _whole("_SIZE", ctypes.c_size_t, 0, 2 ** (8 * ctypes.sizeof(ctypes.c_size_t)) - 1)
_LENGTH = ctypes.c_size_t
_BOOL = ctypes.c_bool
_F64 = ctypes.c_double
_BYTES = ctypes.c_char_p
_COLUMN = ctypes.POINTER(ctypes.c_uint64)


def _answer(name, **values):
    """The struct of an answer: number, place and the values."""
    fields = [("number", ctypes.c_uint32), ("place", ctypes.c_uint32), *values.items()]
    return type(name, (ctypes.Structure,), {"_fields_": fields})


_PositAnswer = _answer("PositAnswer", posit=ctypes.c_uint32)
_PositDecoding = _answer(
    "PositDecoding",
    kind=ctypes.c_uint32,
    negative=ctypes.c_bool,
    scale=ctypes.c_int32,
    fraction=ctypes.c_uint32,
)
_PositComparison = _answer("PositComparison", order=ctypes.c_uint32)
_PositFloating = _answer("PositFloating", kind=ctypes.c_uint32, float=ctypes.c_double)
_RangeAnswer = _answer("RangeAnswer", word=ctypes.c_uint64)
_RangeReply = _answer("RangeReply", yes=ctypes.c_bool)
_RangeOutgoing = _answer(
    "RangeOutgoing",
    low=ctypes.c_double,
    high=ctypes.c_double,
    low_open=ctypes.c_bool,
    high_open=ctypes.c_bool,
    empty=ctypes.c_bool,
)
_SheetAnswer = _answer("SheetAnswer", count=ctypes.c_uint32)


_NAME = "libjorumrain.so." + __version__.split(".")[0]


def _place():
    """The library's file: the named one, that beside an installed module, the repository's, or the loader's."""
    named = os.environ.get("JORUMRAIN_LIBRARY")
    if named:
        return os.path.abspath(named)
    here = pathlib.Path(__file__).resolve().parent
    if (here / _NAME).exists():
        return str(here / _NAME)
    if here.parts[-3:-1] == ("bindings", "python"):
        return str(here.parents[2] / "target" / "jorumrain" / _NAME)
    return _NAME


def _load(path):
    """The library, once its version is seen to be one that this module can call."""
    advice = "run ./library at the repository's root, or name the file in JORUMRAIN_LIBRARY"
    try:
        library = ctypes.CDLL(path)
        library.jorumrain_version.restype = ctypes.c_uint32
        met = library.jorumrain_version()
    except OSError as error:
        raise OSError(f"{error}: {advice}") from None
    except AttributeError:
        raise OSError(f"{path} does not tell its version: {advice}") from None
    first, second, third = map(int, __version__.split("."))
    if met // 10000 != first or met < 10000 * first + 100 * second + third:
        has = f"{met // 10000}.{met // 100 % 100}.{met % 100}"
        raise OSError(f"{path} has version {has}, this module {__version__}: {advice}")
    return library


_library = _load(_place())


def _call(name, result, *parameters):
    """An exported call, which gives its answer or raises Refused."""
    call = _library[name]
    call.argtypes = parameters
    call.restype = result
    if issubclass(result, ctypes.Structure):
        call.errcheck = _hold
    return call


def _hold(answer, _call, arguments):
    """The answer where its number is 0."""
    del arguments  # A refusal that is kept would else hold the caller's arrays at their size.
    if answer.number:
        raise Refused(answer.number, answer.place)
    return answer


_version = _call("jorumrain_version", ctypes.c_uint32)
_posit_decode = _call("jorumrain_posit_decode", _PositDecoding, _U32, _U32, _U32)
_posit_encode = _call("jorumrain_posit_encode", _PositAnswer, _U32, _U32, _U32, _BOOL, _I32, _U32)
_posit_compare = _call("jorumrain_posit_compare", _PositComparison, _U32, _U32, _U32, _U32)
_posit_negate = _call("jorumrain_posit_negate", _PositAnswer, _U32, _U32, _U32)
_posit_operate = _call("jorumrain_posit_operate", _PositAnswer, _U32, _U32, _U8, _U32, _U32)
_posit_from_float = _call("jorumrain_posit_from_float", _PositAnswer, _U32, _U32, _F64)
_posit_to_float = _call("jorumrain_posit_to_float", _PositFloating, _U32, _U32, _U32)
_range_negate = _call("jorumrain_range_negate", _RangeAnswer, _U32, _U32, _U64)
_range_operate = _call("jorumrain_range_operate", _RangeAnswer, _U32, _U32, _U8, _U64, _U64)
_range_take_in = _call("jorumrain_range_take_in", _RangeAnswer, _U32, _U32, _F64, _F64)
_range_give_out = _call("jorumrain_range_give_out", _RangeOutgoing, _U32, _U32, _U64)
_range_inside = _call("jorumrain_range_inside", _RangeReply, _U32, _U32, _U64, _U64)
_range_meets = _call("jorumrain_range_meets", _RangeReply, _U32, _U32, _U64, _U64)
_range_below = _call("jorumrain_range_below", _RangeReply, _U32, _U32, _U64, _U64)
_columns_combine = _call(
    "jorumrain_columns_combine", _SheetAnswer,
    _U32, _U32, _U8, _COLUMN, _LENGTH, _COLUMN, _LENGTH, _SIZE, _COLUMN, _LENGTH,
)  # fmt: skip
_sheet_work = _call(
    "jorumrain_sheet_work", _SheetAnswer,
    _U32, _U32, _COLUMN, _LENGTH, _BYTES, _LENGTH, _COLUMN, _LENGTH,
)  # fmt: skip
_file_work = _call("jorumrain_file_work", _SheetAnswer, _BYTES, _LENGTH, _COLUMN, _LENGTH)

# ---- The library


def version() -> int:
    """The library's version: 10,000 times its first number, plus 100 times its second, plus its third.

    The module takes a library of its own first number that is not older than itself.
    """
    return _version()


# ---- Posits


def posit_decode(n: int, es: int, posit: int) -> Decoded:
    """The posit decoded; a finite one always with an odd fraction. Refused: 1; 3."""
    answer = _posit_decode(n, es, posit)
    return Decoded(Kind(answer.kind), answer.negative, answer.scale, answer.fraction)


def posit_encode(n: int, es: int, decoded: Decoded) -> int:
    """The posit that a decoded one rounds to; a fraction of 0 is zero. Refused: 1."""
    kind, negative, scale, fraction = decoded
    return _posit_encode(n, es, kind, negative, scale, fraction).posit


def posit_compare(n: int, es: int, left: int, right: int) -> Order:
    """How left compares with right; NaR equals itself and is below all else. Refused: 1; 3 left, 3 right."""
    return Order(_posit_compare(n, es, left, right).order)


def posit_negate(n: int, es: int, posit: int) -> int:
    """The negative of a posit; zero and NaR stay. Refused: 1; 3."""
    return _posit_negate(n, es, posit).posit


def posit_operate(n: int, es: int, operation: int, left: int, right: int) -> int:
    """The operation's exact result rounded; NaR and a zero divisor give NaR. Refused: 1; 2; 3 left, 3 right."""
    return _posit_operate(n, es, operation, left, right).posit


def posit_from_float(n: int, es: int, x: float) -> int:
    """The float's exact value rounded; a NaN and the infinities give NaR. Refused: 1."""
    return _posit_from_float(n, es, x).posit


def posit_to_float(n: int, es: int, posit: int) -> Optional[float]:
    """The posit's exact value, or None for NaR; zero is +0.0. Refused: 1; 3."""
    answer = _posit_to_float(n, es, posit)
    return None if answer.kind == Kind.NAR else answer.float


# ---- Ranges


def range_negate(n: int, es: int, word: int) -> int:
    """The range of the negatives. Refused: 1; 3 and 4."""
    return _range_negate(n, es, word).word


def range_operate(n: int, es: int, operation: int, left: int, right: int) -> int:
    """The smallest range of every exact result of one member from each.

    Refused: 1; 2; 3 and 4 left; 3 and 4 right; 5.
    """
    return _range_operate(n, es, operation, left, right).word


def range_take_in(n: int, es: int, low: float, high: float) -> int:
    """The smallest range of all rationals from low to high; the infinities mean unbounded. Refused: 1; 6."""
    return _range_take_in(n, es, low, high).word


def range_give_out(n: int, es: int, word: int) -> Outgoing:
    """The range as floats. Refused: 1; 3 and 4."""
    answer = _range_give_out(n, es, word)
    return Outgoing(answer.low, answer.high, answer.low_open, answer.high_open, answer.empty)


def range_inside(n: int, es: int, left: int, right: int) -> bool:
    """Whether each member of left is in right. Refused: 1; 3 and 4 left; 3 and 4 right."""
    return _range_inside(n, es, left, right).yes


def range_meets(n: int, es: int, left: int, right: int) -> bool:
    """Whether some member is in both. Refused as `range_inside`."""
    return _range_meets(n, es, left, right).yes


def range_below(n: int, es: int, left: int, right: int) -> bool:
    """Whether each member of left is less than each of right. Refused as `range_inside`."""
    return _range_below(n, es, left, right).yes


# ---- Columns and sheets

# Memory is any buffer of unsigned 64-bit words in a row: an array('Q'), an array of NumPy's uint64, a memoryview.
Column = Union["Buffer", Iterable[int]]
Lent = Union["Buffer", List[int]]
Steps = Iterable[Union[int, Tuple[int, ...]]]
File = Union[str, "os.PathLike[str]", Iterable[int]]


def columns_combine(
    n: int, es: int, operation: int, left: Column, right: Column, row: int, lent: Lent
) -> int:
    """One operation on two columns, pair by pair: answer i goes to lent[row + i]; the count of answers comes back.

    A column is any memory of unsigned 64-bit words in a row, such as an array('Q') or an array of
    NumPy's uint64, or a list of ints. Such memory is worked in place, with no copy of any word, so that
    a full column costs what the inner call costs, to within a few percent; a list, and memory that may
    only be read, is copied first, and a lent list takes its new words after the call. All other words
    of the lent column stay. An input that shares memory with the lent column is copied, so that it is
    read as it was.

    Refused, with the lent column as it was: 1; 2; 7; 9; then, with the pair as place, 3 and 4 for its
    left, 3 and 4 for its right, and 5.
    """
    memory, left, right = _lent(lent), _column(left, lent), _column(right, lent)
    try:
        answer = _columns_combine(
            n, es, operation, *_slice(left), *_slice(right), row, *_slice(memory)
        )
    except Refused as refusal:
        if refusal.number == Number.WRONG_LENGTH:
            refusal.lengths = _lengths_of_columns(len(left), len(right))
        raise
    return _handed_back(lent, memory, row, answer.count)


def sheet_work(n: int, es: int, inputs: Column, steps: Steps, lent: Lent) -> int:
    """A sheet worked: its rows, the inputs first, go to the first words of lent; the count of rows comes back.

    A step is an operation and two earlier rows, and adds a row. Steps come as tuples, or as their
    bytes, STEP_BYTES to a step. Inputs and the lent column are each memory, worked in place, or a
    list, which is copied, as for `columns_combine`. The words of the lent column after the rows stay.

    Refused, with the lent column as it was: 1; 7; 9; then, with the row as place, 3 and 4 for an
    input, and 2, 8 and 5 for a step.
    """
    memory, inputs, steps = _lent(lent), _column(inputs, lent), _bytes_of_steps(steps)
    try:
        answer = _sheet_work(n, es, *_slice(inputs), steps, len(steps), *_slice(memory))
    except Refused as refusal:
        if refusal.number == Number.WRONG_LENGTH:
            refusal.lengths = _lengths_of_sheet(len(inputs), len(steps))
        raise
    return _handed_back(lent, memory, 0, answer.count)


def file_work(file: File, lent: Lent) -> int:
    """The sheet of a sheet file worked; lent column and count as for `sheet_work`, n and es stand in the file.

    The file is its path, as a str or a pathlib.Path, or its bytes.

    Refused, with the lent column as it was: 10 for under 9 bytes, the mark or the version; 1; 7; 10 for
    the length; 9; then, with the row as place, 3 and 4 for an input, and 2, 8 and 5 for a step.
    """
    memory, file = _lent(lent), _bytes_of_file(file)
    try:
        answer = _file_work(file, len(file), *_slice(memory))
    except Refused as refusal:
        if refusal.number == Number.WRONG_LENGTH:
            refusal.lengths = _lengths_of_sheet(file[_INPUTS_AT], STEP_BYTES * file[_STEPS_AT])
        raise
    return _handed_back(lent, memory, 0, answer.count)


# Where a file has its counts of inputs and of steps, and one byte more than the longest file has.
_INPUTS_AT, _STEPS_AT = 7, 8
_ENOUGH = 9 + 8 * MOST_INPUTS + STEP_BYTES * MOST_STEPS + 1


def _bytes_of_file(file):
    """The bytes of a file, which comes by its path or as they are; of too long a file, enough to show it."""
    if isinstance(file, (str, os.PathLike)):
        with open(file, "rb") as opened:
            return opened.read(_ENOUGH)
    return bytes(iter(file))


def _bytes_of_steps(steps):
    """The bytes of steps that come as tuples or as their bytes."""
    fields = []
    for step in steps:
        if isinstance(step, (tuple, list)):
            if len(step) != STEP_BYTES:
                raise ValueError(f"a step has {STEP_BYTES} fields, an operation and its rows: {step}")
            fields.extend(step)
        else:
            fields.append(step)
    return bytes(fields)


def _lengths_of_columns(left, right):
    """What is wrong with two columns' lengths."""
    if left != right:
        return f"{left} and {right} rows"
    return f"{left} rows, at most {LONGEST_COLUMN}"


def _lengths_of_sheet(inputs, step_bytes):
    """What is wrong with the lengths of a sheet."""
    steps, left_over = divmod(step_bytes, STEP_BYTES)
    wrong = []
    if inputs > MOST_INPUTS:
        wrong.append(f"{inputs} inputs, at most {MOST_INPUTS}")
    if steps > MOST_STEPS:
        wrong.append(f"{steps} steps, at most {MOST_STEPS}")
    if left_over:
        wrong.append(f"{step_bytes} bytes of steps, {STEP_BYTES} to a step")
    return "; ".join(wrong)


def _lent(lent):
    """Lent memory itself, or a copy of a lent list."""
    if isinstance(lent, list):
        return array("Q", lent)
    if _is_memory(lent):
        return lent
    raise TypeError("a lent column is a list, or unsigned 64-bit words that may be written, as in an array('Q')")


def _column(column, lent):
    """Memory itself, or a copy of anything else and of what lies in the lent column, which must lie apart."""
    if _is_memory(column) and not _share(column, lent):
        return column
    return array("Q", list(column))


def _is_memory(column):
    """Whether a column is unsigned 64-bit words in a row that may be written; ctypes copies all other memory."""
    try:
        view = memoryview(column)
    except TypeError:
        return False
    # ctypes and NumPy call such a word L where C's long has 64 bits, and may say that its low byte comes first.
    words = view.itemsize == 8 and view.format.lstrip("@=<") in ("Q", "L")
    return words and view.ndim == 1 and view.c_contiguous and not view.readonly


def _share(column, lent):
    """Whether two columns have a byte in common."""
    if not _is_memory(lent):
        return False
    (one, _), (other, _) = _slice(column), _slice(lent)
    start, other_start = ctypes.addressof(one), ctypes.addressof(other)
    return start < other_start + ctypes.sizeof(other) and other_start < start + ctypes.sizeof(one)


def _slice(memory):
    """A column's memory and length, held so that it cannot move while the call runs."""
    return (ctypes.c_uint64 * len(memory)).from_buffer(memory), len(memory)


def _handed_back(lent, memory, row, count):
    """The count, once the words written are in a lent list too."""
    if memory is not lent:
        lent[row : row + count] = memory[row : row + count]
    return count
