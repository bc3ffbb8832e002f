"""The command as people run it, from another folder: help, exit statuses and trouble in words."""

import os
import subprocess
import unittest

from room import EXAMPLES, ROOT, Room, sheet
from training import exact, file
from training.outcome import Trouble
from training.posits import Format
from training.sheets import Sheet, Step

COMMANDS = ("make", "show", "rows", "back", "page")


class Command(Room):
    def run_sheet(self, *words, **more):
        """`sheet` by its path, from the test's own folder."""
        return subprocess.run([ROOT / "sheet", *words], cwd=self.folder, capture_output=True, **more)

    def test_help(self):
        self.assertIn(b"exit status: 0 done, 1 refused", self.run_sheet("--help").stdout)
        for command in COMMANDS:
            ended = self.run_sheet(command, "--help")
            self.assertEqual((ended.returncode, ended.stderr), (0, b""))
            self.assertIn(b"exit status: 0 done, 1 refused", ended.stdout)

    def test_no_command(self):
        for words in ((), ("work",), ("rows",), ("rows", "a", "b")):
            ended = self.run_sheet(*words)
            self.assertEqual((ended.returncode, ended.stdout), (2, b""))
            self.assertNotIn(b"Traceback", ended.stderr)

    def test_from_text_to_page(self):
        """Write, make, show, rows, back and page, each from the last one's files."""
        self.put("format 8 2\ngap = [0, 1)\nload = (1, 2)\np = gap * load\n", "damping.txt")
        made = self.run_sheet("make", "damping.txt").stdout
        self.assertEqual(made, (EXAMPLES / "damping-keeps-its-zero.rsh").read_bytes())
        self.put(made, "damping.rsh")
        shown = self.run_sheet("show", "damping.rsh").stdout
        self.assertEqual(shown, b"format 8 2\na = [0, 1)\nb = (1, 2)\nr2 = a * b\n")
        self.assertIn(b"row 2: p = gap * load\n    [0, 2)\n", self.run_sheet("rows", "damping.txt").stdout)
        back = self.run_sheet("back", "damping.txt", "gap=0", "load=3/2")
        self.assertIn(b"2    p = gap * load  [0, 2)  0      in\n", back.stdout)
        self.assertTrue(self.run_sheet("page", "damping.rsh").stdout.startswith(b"<!doctype html>"))

    def test_trouble(self):
        without = {**os.environ, "JORUMRAIN_LIBRARY": "/nowhere.so"}
        wrong = {**os.environ, "JORUMRAIN_LIBRARY": "libc.so.6"}
        for ended, words in (
            (self.run_sheet("rows", "nowhere.rsh"), b"nowhere.rsh cannot be read: No such file"),
            (self.run_sheet("rows", "."), b"cannot be read: Is a directory"),
            (self.run_sheet("rows", EXAMPLES / "first.rsh", env=without), b"the library does not load"),
            (self.run_sheet("rows", EXAMPLES / "first.rsh", env=wrong), b"the library does not load"),
        ):
            self.assertEqual((ended.returncode, ended.stdout), (2, b""))
            self.assertIn(words, ended.stderr)
            self.assertEqual(ended.stderr.count(b"\n"), 1)

    def test_a_full_disk(self):
        command = [ROOT / "sheet", "rows", EXAMPLES / "first.rsh"]
        with open("/dev/full", "wb") as full:
            ended = subprocess.run(command, stdout=full, stderr=subprocess.PIPE)
        self.assertEqual(ended.returncode, 2)
        self.assertIn(b"cannot be written", ended.stderr)
        self.assertNotIn(b"Traceback", ended.stderr)

    def test_closed_streams(self):
        first = EXAMPLES / "first.rsh"
        for stream, words, status in ((0, ("rows", "-"), 2), (1, ("rows", first), 2), (2, ("rows", "nowhere"), 2)):
            ended = self.run_sheet(*words, preexec_fn=lambda: os.close(stream))
            self.assertEqual(ended.returncode, status)
            self.assertNotIn(b"Traceback", ended.stderr)

    def test_versions_and_operations_to_come(self):
        """What a later library may take and this command does not know is trouble in words."""
        with self.assertRaisesRegex(Trouble, "version 1 of the sheet file, not 2"):
            file.read(b"RSH\x02\x00\x08\x02\x00\x00")
        made = Sheet(Format(8, 2), (0,), (Step(200, 0, 0),), ("a", "r1"))
        with self.assertRaisesRegex(Trouble, "does not know operation 200"):
            exact.work(made, [1])

    def test_a_large_file(self):
        self.refused(sheet("rows", self.put(b"RSH" + bytes(2 * 10**6))), "more than 1000000 bytes")


if __name__ == "__main__":
    unittest.main()
