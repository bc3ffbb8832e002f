"""Damaged files and texts: each gets an answer or words, and never a traceback."""

import random
import unittest

from room import Room, accepted, sheet

COMMANDS = ("show", "rows", "back", "page")
FILES = 600
TEXTS = 2500

# Characters that texts are damaged with: those that mean something, and some that do not.
CHARACTERS = "[](),=~+-*/^#0123456789abr \t\n\r.;'\"\\%{}&<>é∞\u2028\x00\x0b_inf"


class Damaged(Room):
    def setUp(self):
        super().setUp()
        self.random = random.Random(29)
        self.seen = set()

    def held(self, ended, what):
        """An answer, or a refusal in words that say where."""
        self.seen.add(ended.status)
        self.assertIn(ended.status, (0, 1), (what, ended))
        if ended.status == 1:
            self.assertRegex(ended.words, r"\Asheet: [^\n]+: \S[^\n]*(\n|\Z)", what)

    def test_files(self):
        for data in self.random.sample(accepted(), FILES):
            bad = self.damaged(bytearray(data))
            for command in COMMANDS:
                self.held(sheet(command, "-", given=bytes(bad)), bytes(bad).hex())
        self.assertEqual(self.seen, {0, 1})

    def damaged(self, data):
        """Bytes with one changed, cut off, taken out or put in."""
        at = self.random.randrange(len(data))
        kind = self.random.randrange(5)
        if kind == 0:
            return data[:at]
        if kind == 1:
            return data[:at] + data[at + 1 :]
        if kind == 2:
            return data[:at] + bytes([self.random.randrange(256)]) + data[at:]
        data[at] = self.random.randrange(256)
        return data

    def test_each_byte_of_a_head(self):
        good = (accepted()[0], accepted()[-1])
        for data in good:
            for at in range(9):
                for byte in range(256):
                    bad = data[:at] + bytes([byte]) + data[at + 1 :]
                    self.held(sheet("show", "-", given=bad), bad.hex())

    def test_each_length(self):
        data = max(accepted(), key=len)
        for length in [*range(len(data)), len(data) + 1]:
            bad = (data + b"\0")[:length]
            self.refused(sheet("rows", "-", given=bad), "refused 10", f"{length} bytes")

    def test_texts(self):
        for data in self.random.sample(accepted(), TEXTS):
            text = sheet("show", "-", given=data).text
            for _ in range(self.random.randrange(1, 3)):
                text = self.garbled(text)
            self.held(sheet("make", "-", given=text.encode()), text)
        self.assertEqual(self.seen, {0, 1})

    def garbled(self, text):
        """A text with characters changed, or a line taken out, doubled or moved."""
        if self.random.randrange(3) == 0:
            lines = text.splitlines(keepends=True) or [""]
            line = lines.pop(self.random.randrange(len(lines)))
            for _ in range(self.random.randrange(3)):
                lines.insert(self.random.randrange(len(lines) + 1), line)
            return "".join(lines)
        at = self.random.randrange(len(text) + 1)
        new = "".join(self.random.choices(CHARACTERS, k=self.random.randrange(3)))
        return text[:at] + new + text[at + self.random.randrange(3) :]

    def test_bytes_that_are_nothing(self):
        for length in range(120):
            data = self.random.randbytes(length)
            for command in ("make", *COMMANDS):
                ended = sheet(command, "-", given=data)
                self.held(ended, data.hex())
                self.assertEqual(ended.status, 1)


if __name__ == "__main__":
    unittest.main()
