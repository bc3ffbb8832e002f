"""The generated sheet files: each accepted one comes back from its text, and every value lies in its row."""

import re
import unittest

from room import Room, accepted, generated, sheet, verdict

# The least that the tests must have worked on, so that they cannot pass on nothing.
FEWEST_SHEETS = 4000
FEWEST_VALUES = 100_000

CHOICES = 2


class Generated(Room):
    def test_text_there_and_back(self):
        for data in accepted():
            shown = sheet("show", "-", given=data)
            self.assertEqual((shown.status, shown.words), (0, ""))
            made = sheet("make", "-", given=shown.data)
            self.assertEqual((made.status, made.data, made.words), (0, data, ""), shown.text)
        self.assertGreater(len(accepted()), FEWEST_SHEETS)
        print(f"{len(accepted())} sheets there and back as text")

    def test_every_value_lies_in_its_row(self):
        total = 0
        for seed, data in enumerate(accepted()):
            for ends in ([], ["--ends"]):
                ended = sheet("back", "-", "--many", CHOICES, "--seed", seed, *ends, given=data)
                self.assertEqual((ended.status, ended.words), (0, ""), data.hex())
                found = re.search(r"^(\d+) values, every one of them in its row's range\n\Z", ended.text, re.M)
                total += int(found[1]) if found else self.no_rows(ended, data)
        self.assertGreater(total, FEWEST_VALUES)
        print(f"{total} values in their rows")

    def no_rows(self, ended, data):
        self.assertEqual((ended.text, data[7] + data[8]), ("the sheet has no rows\n", 0))
        return 0

    def test_one_working_of_each(self):
        for seed, data in enumerate(accepted()[::4]):
            ended = sheet("back", "-", "--seed", seed, "--lines", "--full", given=data)
            self.assertEqual((ended.status, ended.words), (0, ""), data.hex())
            self.assertNotIn("NOT IN", ended.text)

    def test_rows_and_pages_of_some(self):
        for data in accepted()[::10]:
            rows, page = sheet("rows", "-", given=data), sheet("page", "-", given=data)
            self.assertEqual((rows.status, rows.words, page.status, page.words), (0, "", 0, ""), data.hex())
            count = data[7] + data[8]
            self.assertEqual(len(re.findall(r"^row \d+: ", rows.text, re.M)), count)
            self.assertEqual(page.text.count('<section class="row"'), count)

    def test_refused_sheets_get_the_library_s_words(self):
        numbers = {}
        for data in generated():
            number = verdict(data)
            if number and numbers.setdefault(number, 0) < 20:
                numbers[number] += 1
                for command in ("rows", "back", "page"):
                    self.refused(sheet(command, "-", given=data), f"refused {number:d}", number.words)
                self.shown_all_the_same(number, sheet("show", "-", given=data))
        self.assertGreater(len(numbers), 4)

    def shown_all_the_same(self, number, ended):
        """A sheet that is refused for one of its rows is shown before the words, any other is not."""
        self.assertEqual(ended.status, 1)
        self.assertIn(f"refused {number:d}", ended.words)
        self.assertEqual(ended.data.startswith(b"format "), " at row " in ended.words)


if __name__ == "__main__":
    unittest.main()
