"""docs/TRAINING.md and the examples: what they show of the commands is what the commands print."""

import contextlib
import re
import shlex
import unittest

from room import EXAMPLES, ROOT, sheet
from training.posits import Format

PAGE = (ROOT / "docs" / "TRAINING.md").read_text(encoding="utf-8")
WORKINGS = 9


def shown():
    """Each command in a block of the page, and the lines under it."""
    for block in re.findall(r"^```console\n(.*?)^```$", PAGE, re.M | re.S):
        for part in re.split(r"^\$ ", block, flags=re.M)[1:]:
            command, _, output = part.partition("\n")
            yield command, output


def printed(command):
    """What a command of the page prints."""
    given, _, last = command.rpartition(" | ")
    words = shlex.split(last)
    if words[0] == "cat":
        return (ROOT / words[1]).read_text()
    text = shlex.split(given)[1].encode().decode("unicode_escape") if given else ""
    with contextlib.chdir(ROOT):
        ended = sheet(*words[1:], given=text.encode())
    return ended.text + ended.words


class Docs(unittest.TestCase):
    def test_workings(self):
        count = 0
        for command, output in shown():
            self.assertEqual(printed(command), output, command)
            count += 1
        self.assertGreater(count, WORKINGS)

    def test_exercises_name_sheets(self):
        names = re.findall(r"^\d\. \*\*`([\w-]+)`\.", PAGE, re.M)
        self.assertEqual(len(names), 5)
        for name in names:
            self.assertTrue((EXAMPLES / f"{name}.rsh").exists())

    def test_table(self):
        form = Format(8, 2)
        found = dict(re.findall(r"\| ([0-9a-f]{2}) \| (\S+) (?=\|)", PAGE))
        self.assertEqual(len(found), 256)
        for digits, value in found.items():
            pattern = int(digits, 16)
            expected = "NaR" if pattern == form.nar else str(form.value(form.index(pattern)))
            self.assertEqual(value, expected, digits)

    def test_examples_make_their_files(self):
        texts = sorted(EXAMPLES.glob("*.txt"))
        self.assertGreater(len(texts), 5)
        for text in texts:
            self.assertEqual(sheet("make", text).data, text.with_suffix(".rsh").read_bytes(), text.name)


if __name__ == "__main__":
    unittest.main()
