"""What the tests share: the command run in this process, temporary files, and the generated sheet files."""

import functools
import io
import pathlib
import subprocess
import sys
import tempfile
import unittest
from contextlib import redirect_stderr, redirect_stdout
from typing import NamedTuple

from training.library import jorumrain
from training.main import main

ROOT = pathlib.Path(__file__).resolve().parents[2]
EXAMPLES = ROOT / "examples"


class Ended(NamedTuple):
    """How a command ended: its exit status, the bytes it wrote, and its words about what went wrong."""

    status: int
    data: bytes
    words: str

    @property
    def text(self):
        return self.data.decode()


def sheet(*words, given=b""):
    """Runs `sheet` with these words, its standard input given; an exception that it does not put in words gets out."""
    out = io.TextIOWrapper(io.BytesIO(), encoding="utf-8", write_through=True)
    err = io.StringIO()
    kept, sys.stdin = sys.stdin, io.TextIOWrapper(io.BytesIO(given))
    try:
        with redirect_stdout(out), redirect_stderr(err):
            status = main([str(word) for word in words])
    except SystemExit as ended:
        status = ended.code
    finally:
        sys.stdin = kept
    return Ended(status, out.buffer.getvalue(), err.getvalue())


@functools.cache
def generated():
    """The sheet files that tests/agree makes."""
    command = ["cargo", "run", "--release", "--offline", "--quiet", "--", "files"]
    made = subprocess.run(command, cwd=ROOT / "tests" / "agree", check=True, capture_output=True, text=True)
    return [bytes.fromhex(line) for line in made.stdout.split()]


def verdict(data):
    """The number that the library gives a file."""
    try:
        jorumrain.file_work(data, [0] * (jorumrain.MOST_INPUTS + jorumrain.MOST_STEPS))
    except jorumrain.Refused as refused:
        return refused.number
    return jorumrain.Number.DONE


@functools.cache
def accepted():
    """The generated files that the library takes."""
    return [data for data in generated() if verdict(data) == jorumrain.Number.DONE]


class Room(unittest.TestCase):
    """A test with a folder of its own."""

    def setUp(self):
        folder = tempfile.TemporaryDirectory()
        self.addCleanup(folder.cleanup)
        self.folder = pathlib.Path(folder.name)

    def put(self, content, name="sheet.txt"):
        """A file in the folder."""
        path = self.folder / name
        path.write_bytes(content if isinstance(content, bytes) else content.encode())
        return path

    def refused(self, ended, *parts):
        """Holds a command to a refusal in words that say each of these parts."""
        self.assertEqual((ended.status, ended.data), (1, b""), ended.words)
        self.assertTrue(ended.words.startswith("sheet: "), ended.words)
        for part in parts:
            self.assertIn(part, ended.words)
