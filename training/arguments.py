"""What each command is called with, and its help."""

import argparse
import functools

ABOUT = """\
Writes a sheet, shows its ranges and works one back, in exact fractions.

  sheet make FILE.txt > FILE.rsh    a sheet's text to the sheet file
  sheet show FILE.rsh               a sheet file to its text
  sheet rows FILE                   each row with its range and a number line
  sheet back FILE [a=3/4 ..]        pick a member of each input, work it exactly
  sheet page FILE > FILE.html       the same as a page for a browser or for paper

FILE is a sheet file or a sheet's text (whose names are then used); - is standard input.
`sheet COMMAND --help` says more; docs/TRAINING.md has exercises.
"""

STATUS = """\
exit status: 0 done, 1 refused (a text, a file, a sheet or a choice), 2 trouble (a file that cannot be
read, no library), 3 a value outside its row, which the proofs exclude
"""

TEXT = """\
A sheet's text is one line for each row, after a line with the format (width and exponent size):

  format 8 2                # what follows a hash is a comment
  a = [1/2, 3/4)            # 1/2 is in the range, 3/4 is not
  b = (-inf, 5]             # no bound below
  c = 3                     # the same as [3, 3]
  d = ~[1/3, 2/3]           # 1/3 is no posit: widened to the posits around
  e = [maxpos, inf)         # the largest posit; minpos is the smallest above 0
  f = empty                 # and all is (-inf, inf)
  r = a + b                 # a step: + - * / on two rows above
  s = r / c

Numbers are exact: 3, -3/4, 2^24, 3*2^-30. An end that is no posit is refused with the two posits
beside it, unless ~ stands before the range.
"""


@functools.cache
def parser(command):
    """The reader of one command's words."""
    words, describe = COMMANDS[command]
    made = argparse.ArgumentParser(
        prog=f"sheet {command}",
        description=words,
        epilog=STATUS,
        formatter_class=argparse.RawDescriptionHelpFormatter,
        allow_abbrev=False,
    )
    describe(made)
    return made


def _make(made):
    made.add_argument("file", metavar="FILE.txt", help="the text; - is standard input")
    made.epilog = f"{TEXT}\n{STATUS}"


def _file(made):
    made.add_argument("file", metavar="FILE", help="a sheet file or a sheet's text; - is standard input")


def _back(made):
    _file(made)
    made.add_argument("choices", metavar="a=3/4", nargs="*", help="the member to take for an input, by name or row")
    made.add_argument("--seed", type=int, metavar="N", help="make the same choice again")
    made.add_argument("--ends", action="store_true", help="pick at or close to the ends")
    made.add_argument("--many", type=_count, metavar="N", help="work N choices; say how close values came to the ends")
    made.add_argument("--full", action="store_true", help="print long fractions whole")
    made.add_argument("--lines", action="store_true", help="draw each number line with the value as a star")


def _count(text):
    count = int(text)
    if count < 1:
        raise argparse.ArgumentTypeError("a count is 1 or more")
    return count


COMMANDS = {
    "make": ("Writes the sheet file of a sheet's text to standard output.", _make),
    "show": ("Prints the text of a sheet file; `sheet make` makes the same bytes of it again.", _file),
    "rows": ("Prints each row: how it was made, its range, its ends and a number line.", _file),
    "back": (
        "Picks a member of each input, works every row in exact fractions and says whether each value is in its row.",
        _back,
    ),
    "page": ("Writes one page with the rows as number lines and a button that works a new choice.", _file),
}
