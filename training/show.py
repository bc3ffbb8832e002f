"""sheet show: a sheet's text from a sheet file."""

import sys

from training import file, source, text
from training.library import jorumrain
from training.outcome import Refusal


def run(options):
    """Shows every sheet whose head and length are right; if the library refuses it, that is said after its text."""
    title, data = source.content(options.file)
    if source.is_text(data):
        sheet, _, _ = source.made(data, title)
        sys.stdout.write(text.written(sheet))
        return 0
    try:
        file.worked(data)
    except jorumrain.Refused as refused:
        if refused.number not in file.OF_THE_WHOLE:
            sys.stdout.write(text.written(file.read(data)))
        raise Refusal(f"{title}: {file.in_words(data, refused)}") from None
    sys.stdout.write(text.written(file.read(data)))
    return 0
