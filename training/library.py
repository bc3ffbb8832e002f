"""The proved calls, through the Python binding of this repository."""

import pathlib
import sys

from training.outcome import Trouble

sys.path.insert(0, str(pathlib.Path(__file__).resolve().parents[1] / "bindings" / "python"))

try:
    import jorumrain
except (OSError, AttributeError) as error:
    raise Trouble(f"the library does not load: {error}") from None

__all__ = ["jorumrain"]
