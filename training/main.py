"""The command `sheet`: finds the command that is meant, runs it, and puts how it ended in words."""

import contextlib
import importlib
import signal
import sys

from training import arguments
from training.outcome import Ending, Trouble


def main(words):
    """Runs one command and gives its exit status; what goes wrong goes to standard error."""
    try:
        return _run(words)
    except Ending as ending:
        _tell(ending)
        return ending.status
    except KeyboardInterrupt:
        _tell("stopped")
        return Trouble.status


def _run(words):
    if sys.stdout is None:
        raise Trouble("standard output is closed")
    if not words or words[0] in ("-h", "--help", "help"):
        (sys.stdout if words else sys.stderr).write(f"{arguments.ABOUT}\n{arguments.STATUS}")
        return 0 if words else Trouble.status
    if words[0] not in arguments.COMMANDS:
        raise Trouble(f"there is no command '{words[0]}'; the commands are {', '.join(arguments.COMMANDS)}")
    options = arguments.parser(words[0]).parse_intermixed_args(words[1:])
    # A reader that has seen enough, such as head, ends the command as it ends others.
    signal.signal(signal.SIGPIPE, signal.SIG_DFL)
    try:
        status = importlib.import_module(f"training.{words[0]}").run(options)
        sys.stdout.flush()
    except OSError as error:
        raise Trouble(f"the answer cannot be written: {error.strerror or error}") from None
    return status


def _tell(words):
    """Words on standard error, after all that was printed before; where these are closed there is no more to do."""
    for stream, text in ((sys.stdout, ""), (sys.stderr, f"sheet: {words}\n")):
        with contextlib.suppress(AttributeError, OSError):
            stream.write(text)
            stream.flush()
