"""Cases of the command that tests one supplier on amounts from standard input, run as people run it. Answers were worked from
documents 01 and 02."""
import os
import subprocess
import unittest

from starred import LARGEST
from test_command import PACKAGES, Case

FIRST_LINE = "refused with 11: the test takes 1 to 32 amounts, each at most 10^12, and a place among them\n"
LAST_LINE = "docs/REFUSALS.md says how to mend it, under 11\n"
NO_NUMERAL = "an amount is a numeral with no sign and no leading zero, and"

# A process that waits for more amounts than it needs is ended after so many seconds.
PATIENCE = 60


class Answers(Case):
    def test_verdicts(self):
        self.answers(b"2,P\n", "test", 3, 2, given=b"4\n3\n2\n1\n")
        self.answers(b"2,F\n", "test", 3, 3, given=b"4\n3\n2\n1\n")
        self.answers(b"0,F\n", "test", 0, 1, given=b"5\n5\n")
        self.answers(b"0,P\n", "test", 0, 0, given=b"0\n")
        self.answers(b"0,F\n", "test", 0, LARGEST, given=b"5\n")

    def test_line_ends(self):
        self.answers(b"2,P\n", "test", 3, 2, given=b"4\n3\n2\n1")
        self.answers(b"2,P\n", "test", 3, 2, given=b"4\r\n3\r\n2\r\n1\r\n")
        self.answers(b"2,P\n", "test", 3, 2, given=b"4\r\n3\n2\r\n1")

    def test_limits(self):
        self.answers(b"29000000000000,P\n", "test", 31, 29 * 10**12, given=b"1000000000000\n" * 32)

    def test_answer_that_cant_be_printed(self):
        with open("/dev/full", "wb") as full:
            self.fails(2, "standard output: ", "test", 0, 0, given=b"5\n", stdout=full)


class Refused(Case):
    def told(self, given, place, *details):
        words = FIRST_LINE + "".join(f"{line}\n" for line in details) + LAST_LINE
        self.fails(1, words, "test", place, 0, given=given)

    def test_no_such_place(self):
        self.told(b"", 0, "no amount stands at the place, counted from 0, among 0 amounts")
        self.told(b"5\n", 1, "no amount stands at the place, counted from 0, among 1 amount")
        for place in (3, LARGEST, LARGEST + 1, "9" * 5000):
            self.told(b"4\n3\n2\n", place, "no amount stands at the place, counted from 0, among 3 amounts")

    def test_too_many(self):
        for count in (33, 257, 1000, 100000):
            self.told(b"1\n" * count, 0, f"there are {count} amounts (of at most 32)")
        self.told(b"1\n" * 33, 32, "there are 33 amounts (of at most 32)")

    def test_too_large(self):
        for amount in (10**12 + 1, LARGEST, LARGEST + 1, LARGEST + 2):
            self.told(b"5\n%d\n" % amount, 1, "standard input, line 2: the amount is above 10^12")
        self.told(b"5\n" + b"9" * 5000, 0, "standard input, line 2: the amount is above 10^12")
        self.told(b"1000000000001\n" * 2 + b"1\n" * 30, 5, "standard input, line 1: the amount is above 10^12")

    def test_all_of_it(self):
        self.told(
            b"5\n" * 32 + b"1000000000001\n",
            33,
            "there are 33 amounts (of at most 32)",
            "standard input, line 33: the amount is above 10^12",
            "no amount stands at the place, counted from 0, among 33 amounts",
        )


class Unreadable(Case):
    def test_no_numeral(self):
        for word, shown in (
            (b"-1", "'-1'"),
            (b"+1", "'+1'"),
            (b"01", "'01'"),
            (b"1 ", "'1 '"),
            (b"1,2", "'1,2'"),
            (b"1.0", "'1.0'"),
            (b"", "''"),
            (b"\r", "'\\r'"),
            (b"x", "'x'"),
            (b"1\x00", "'1\\x00'"),
            (b"0" * 5000, f"'{'0' * 60}..'"),
        ):
            words = f"standard input, line 2: {NO_NUMERAL} {shown} isn't\n"
            self.fails(2, words, "test", 0, 0, given=b"5\n" + word + b"\r\n6\n")
        for given in (b"\xef\xbb\xbf5\n", b"\xd9\xa5\n", b"\n5\n"):
            self.fails(2, f"standard input, line 1: {NO_NUMERAL}", "test", 0, 0, given=given)

    def test_behind_what_is_refused(self):
        self.fails(2, f"standard input, line 34: {NO_NUMERAL} 'x' isn't\n", "test", 0, 0, given=b"1\n" * 33 + b"x\n")

    def test_no_standard_input(self):
        command = ["sh", "-c", 'exec "$@" <&-', "sh", *self.command("test", 0, 0)]
        ran = subprocess.run(command, cwd=PACKAGES, capture_output=True, check=False)
        self.assertEqual((ran.returncode, ran.stdout, ran.stderr), (2, b"", b"standard input: Bad file descriptor\n"))


class Stream(Case):
    def test_each_line_is_taken_as_it_comes(self):
        """What isn't a numeral ends the command while more could still come."""
        reading, writing = os.pipe()
        with open(writing, "wb", buffering=0) as more, open(reading, "rb") as given:
            more.write(b"4\nx\n")
            command = self.command("test", 0, 0)
            ran = subprocess.run(command, cwd=PACKAGES, stdin=given, capture_output=True, check=False, timeout=PATIENCE)
        self.assertEqual((ran.returncode, ran.stdout), (2, b""))
        self.assertIn(b"line 2: ", ran.stderr)


if __name__ == "__main__":
    unittest.main()
