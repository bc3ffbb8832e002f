"""sheet make: the bytes of a sheet file from a sheet's text."""

import sys

from training import source
from training.outcome import Trouble


def run(options):
    if sys.stdout.isatty():
        raise Trouble("a sheet file is no text for a screen: sheet make FILE.txt > FILE.rsh")
    title, data = source.content(options.file)
    _, packed, _ = source.made(data, title)
    sys.stdout.buffer.write(packed)
    return 0
