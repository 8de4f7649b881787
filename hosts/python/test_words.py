"""Cases of a day's words: what is written can be read again, and what can't be read is said."""
import unittest

from capping import Day
from starred import STARRED_DAY, others

LARGEST = 2**64 - 1


class Words(unittest.TestCase):
    def test_round_trip(self):
        largest = f"{LARGEST};{LARGEST}:C:{LARGEST}"
        for words in ("-", "0;", "5;", "n;11:M:1", STARRED_DAY, "24;12:C:0,11:M:100", others(64), largest):
            self.assertEqual(str(Day.parse(words)), words)
            self.assertEqual(repr(Day.parse(words)), f"Day.parse('{words}')")

    def test_a_fresh_day_in_other_words(self):
        self.assertEqual(str(Day.parse("n;")), "-")
        self.assertEqual(Day.parse("n;"), Day.fresh())

    def test_more_units_than_places(self):
        for count in (65, 1000):
            day = Day.parse(others(count))
            self.assertEqual(day.running, Day.parse(others(64)).running)
            self.assertNotEqual(day, Day.parse(others(64)))
            self.assertEqual(Day.parse(str(day)), day)

    def test_unreadable(self):
        for words, complaint in (
            ("", "'' has no semicolon"),
            ("5", "'5' has no semicolon"),
            (";", "an hour is a numeral below 2\\^64 with no sign and no leading zero, and '' isn't"),
            ("05;", "'05' isn't"),
            ("-1;", "'-1' isn't"),
            ("5 ;", "'5 ' isn't"),
            ("\u0665;", "isn't"),
            (f"{LARGEST + 1};", f"'{LARGEST + 1}' isn't"),
            ("9" * 10000 + ";", f"'{'9' * 60}..' isn't"),
            ("5;11:C", "a running unit is UNIT:KIND:SCHEDULE, and '11:C' isn't"),
            ("5;11:C:2,", "UNIT:KIND:SCHEDULE, and '' isn't"),
            ("5;11:C:2:3", "'11:C:2:3' isn't"),
            ("5;11:c:2", "a kind is M or C, and 'c' isn't"),
            ("5;+11:C:2", "a unit is a numeral .* '\\+11' isn't"),
            ("5;11:C:2\n", "a schedule is a numeral .* '2\\\\n' isn't"),
            (others(1001), "at most 1000 units, and these have 1001"),
        ):
            with self.assertRaisesRegex(ValueError, complaint):
                Day.parse(words)


if __name__ == "__main__":
    unittest.main()
