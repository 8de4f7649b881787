"""Cases of the command, run as people run it, each in a folder of its own. Answers were worked from documents 01 and 02."""
import pathlib
import shutil
import subprocess
import sys
import tempfile
import unittest

from starred import AFFILIATED_ANSWER, AGAIN_ANSWER, PARENTS, STARRED, STARRED_ANSWER, STARRED_BY_NAME, STARRED_DAY
from starred import ANSWER, CURVE_11, CURVE_11_ANSWER, CURVES, SCHEDULES, STARRED_SCHEDULES, STARRED_SUPPLY, SUPPLY, quoted

PACKAGES = pathlib.Path(__file__).resolve().parent
NAMES = ("constraint.csv", "supply.csv", "schedules.csv")
NOTHING_TO_REFUSE = b"nothing to refuse in constraint.csv, supply.csv and schedules.csv\n"
MOST_BYTES = 65536


class Case(unittest.TestCase):
    def setUp(self):
        room = tempfile.TemporaryDirectory()
        self.addCleanup(room.cleanup)
        self.room = pathlib.Path(room.name)
        self.folder = self.room / "study"
        self.folder.mkdir()
        self.day = self.room / "day"
        for name, content in zip(NAMES, STARRED):
            (self.folder / name).write_bytes(content)

    def command(self, *arguments):
        return [sys.executable, "-B", "-m", "capping", *map(str, arguments)]

    def run_command(self, *arguments, given=b"", packages=PACKAGES, stdout=subprocess.PIPE):
        """Runs the command, which is given these bytes on standard input."""
        command = self.command(*arguments)
        return subprocess.run(command, cwd=packages, input=given, stdout=stdout, stderr=subprocess.PIPE, check=False)

    def answers(self, printed, *arguments, **named):
        """Requires the command to print these bytes, and nothing on standard error."""
        ran = self.run_command(*arguments, **named)
        self.assertEqual((ran.returncode, ran.stdout, ran.stderr), (0, printed, b""))

    def fails(self, status, words, *arguments, **named):
        """Requires the command to end with this status, print no answer and tell these words; the day stays as it was."""
        before = self.day.read_bytes() if self.day.exists() else None
        ran = self.run_command(*arguments, **named)
        self.assertEqual((ran.returncode, ran.stdout or b""), (status, b""))
        self.assertIn(words, ran.stderr.decode())
        self.assertNotIn("Traceback", ran.stderr.decode())
        self.assertEqual(self.day.read_bytes() if self.day.exists() else None, before)
        self.nothing_left_over()

    def nothing_left_over(self):
        self.assertLessEqual({path.name for path in self.room.iterdir()}, {"study", "day"})


class Check(Case):
    def test_nothing_to_refuse(self):
        self.answers(NOTHING_TO_REFUSE, "check", self.folder)

    def test_refused(self):
        (self.folder / "supply.csv").write_bytes(SUPPLY + b"11,1,0,3000,5000\r\n")
        words = (
            "refused with 3: a field is ill-formed or out of range\n"
            "supply.csv, record 1: 11,1,0,3000,5000\n"
            "field 3, mw: 0\n"
            "it should be a whole number from 1 to 100000 (tenths of a MW), in digits alone with no leading zero\n"
            "docs/REFUSALS.md says how to mend it, under 3\n"
        )
        self.fails(1, words, "check", self.folder)

    def test_missing_file(self):
        (self.folder / "schedules.csv").unlink()
        self.fails(1, "schedules.csv is empty or isn't there\n", "check", self.folder)

    def test_length(self):
        supply = self.folder / "supply.csv"
        supply.write_bytes(b"x" * MOST_BYTES)
        self.fails(1, "refused with 2: ", "check", self.folder)
        supply.write_bytes(b"x" * (MOST_BYTES + 1))
        (self.folder / "constraint.csv").unlink()
        self.fails(1, "refused: supply.csv is too long, a file may have 65536 bytes\n", "check", self.folder)


class Curves(Case):
    def setUp(self):
        super().setUp()
        self.curves = self.folder / "curves.csv"

    def test_read_where_it_is_there(self):
        self.curves.write_bytes(CURVE_11)
        self.answers(CURVE_11_ANSWER, "study", self.folder)
        self.answers(CURVE_11_ANSWER, "study", self.folder, "--day", self.day)
        self.assertEqual(self.day.read_text(), STARRED_DAY + "\n")

    def test_empty(self):
        for content in (b"", CURVES):
            self.curves.write_bytes(content)
            self.answers(STARRED_ANSWER, "study", self.folder)

    def test_beside_parents(self):
        self.curves.write_bytes(CURVE_11)
        (self.folder / "parents.csv").write_bytes(PARENTS + b"1,2\r\n")
        self.answers(CURVE_11_ANSWER.replace(b"14,4,F,5000000,", b"14,4,F,0,"), "study", self.folder)

    def test_no_row(self):
        self.curves.write_bytes(CURVE_11 + b"11,2,6,100,2000\r\n")
        words = (
            "refused with 32: a point of a curve has no row in schedules\n"
            "curves.csv, record 3: 11,2,6,100,2000\n"
            "hours of unit 11, schedule 2 in schedules.csv: 5\n"
            "docs/REFUSALS.md says how to mend it, under 32\n"
        )
        self.fails(1, words, "study", self.folder)

    def test_no_rise(self):
        self.curves.write_bytes(CURVE_11 + b"11,2,5,100,2500\r\n")
        words = (
            "refused with 33: a curve doesn't rise from point to point, or has more than ten\n"
            "curves.csv, record 3: 11,2,5,100,2500\n"
            "it is no higher in mw than the point before, record 2: 11,2,5,100,2000\n"
            "docs/REFUSALS.md says how to mend it, under 33\n"
        )
        self.fails(1, words, "study", self.folder)

    def test_ends_low(self):
        self.day.write_text("4;\n")
        self.curves.write_bytes(CURVES + b"11,2,5,50,1000\r\n")
        words = (
            "refused with 34: a curve ends below ecomin\n"
            "curves.csv, record 1: 11,2,5,50,1000\n"
            "the last mw of its curve should be at least ecomin, which is 100 in "
            "schedules.csv, record 2: 11,2,C,5,100,3000,50000,20000,1\n"
            "docs/REFUSALS.md says how to mend it, under 34\n"
        )
        self.fails(1, words, "study", self.folder, "--day", self.day)
        self.fails(1, words, "preview", 14, self.folder, "--day", self.day)

    def test_length(self):
        self.curves.write_bytes(b"x" * MOST_BYTES)
        self.fails(1, "refused with 2: ", "study", self.folder)
        self.curves.write_bytes(b"x" * (MOST_BYTES + 1))
        (self.folder / "constraint.csv").unlink()
        self.fails(1, "refused: curves.csv is too long, a file may have 65536 bytes\n", "study", self.folder)

    def test_no_part_in_the_check(self):
        for content in (b"\t", b"x" * (MOST_BYTES + 1)):
            self.curves.write_bytes(content)
            self.answers(NOTHING_TO_REFUSE, "check", self.folder)


class Parents(Case):
    def setUp(self):
        super().setUp()
        self.parents = self.folder / "parents.csv"

    def test_read_where_it_is_there(self):
        self.parents.write_bytes(PARENTS + b"1,2\r\n")
        self.answers(AFFILIATED_ANSWER, "study", self.folder)
        self.answers(AFFILIATED_ANSWER, "study", self.folder, "--day", self.day)
        self.assertEqual(self.day.read_text(), STARRED_DAY + "\n")

    def test_empty(self):
        for content in (b"", PARENTS):
            self.parents.write_bytes(content)
            self.answers(STARRED_ANSWER, "study", self.folder)

    def test_refused(self):
        self.day.write_text("4;\n")
        self.parents.write_bytes(PARENTS + b"1,2\r\n2,3\r\n3,2\r\n")
        words = (
            "refused with 36: a chain of parents returns to its start\n"
            "parents.csv, record 2: 2,3\n"
            "its chain comes back: 2 -> 3 -> 2\n"
            "docs/REFUSALS.md says how to mend it, under 36\n"
        )
        self.fails(1, words, "study", self.folder, "--day", self.day)

    def test_length(self):
        self.parents.write_bytes(b"x" * MOST_BYTES)
        self.fails(1, "refused with 2: ", "study", self.folder)
        self.parents.write_bytes(b"x" * (MOST_BYTES + 1))
        (self.folder / "constraint.csv").unlink()
        self.fails(1, "refused: parents.csv is too long, a file may have 65536 bytes\n", "study", self.folder)

    def test_no_part_in_the_check(self):
        for content in (b"\t", b"x" * (MOST_BYTES + 1)):
            self.parents.write_bytes(content)
            self.answers(NOTHING_TO_REFUSE, "check", self.folder)


class Study(Case):
    def test_without_a_day(self):
        self.answers(STARRED_ANSWER, "study", self.folder)
        self.answers(STARRED_ANSWER, "study", self.folder)
        self.assertFalse(self.day.exists())

    def test_day_moves_on(self):
        self.answers(STARRED_ANSWER, "study", self.folder, "--day", self.day)
        self.assertEqual(self.day.read_text(), STARRED_DAY + "\n")
        self.answers(AGAIN_ANSWER, "study", self.folder, "--day", self.day)
        self.assertEqual(self.day.read_text(), STARRED_DAY + "\n")
        self.nothing_left_over()

    def test_day_as_people_write_it(self):
        for line in (b"-", b"-\n", b"-\r\n", b"n;\n", b"4;\n"):
            self.day.write_bytes(line)
            self.answers(STARRED_ANSWER, "study", self.folder, "--day", self.day)
            self.assertEqual(self.day.read_text(), STARRED_DAY + "\n")

    def test_refused(self):
        self.day.write_text("6;11:M:1\n")
        words = "refused with 20: the hour is earlier than the day's\nconstraint.csv, record 1: 5,1000,300\n"
        self.fails(1, words, "study", self.folder, "--day", self.day)
        self.day.write_text("24;\n")
        self.fails(1, "refused with 24: the day is ill-formed\n", "study", self.folder, "--day", self.day)

    def test_refused_without_a_day_so_far(self):
        (self.folder / "supply.csv").unlink()
        self.fails(1, "refused with 2: ", "study", self.folder, "--day", self.day)

    def test_day_that_is_none(self):
        for content in (b"", b"\n", b"five\n", b"5;11:X:2\n", b"-\n-\n", b"5;\xff\n"):
            self.day.write_bytes(content)
            self.fails(2, f"{self.day} holds no day: ", "study", self.folder, "--day", self.day)

    def test_day_that_cant_be_written(self):
        day = self.room / "no folder" / "day"
        self.fails(2, f"{day}: No such file or directory\n", "study", self.folder, "--day", day)

    def test_answer_that_cant_be_printed(self):
        with open("/dev/full", "wb") as full:
            self.fails(2, "standard output: ", "study", self.folder, "--day", self.day, stdout=full)
            self.day.write_text("4;\n")
            self.fails(2, "standard output: ", "study", self.folder, "--day", self.day, stdout=full)

    def test_mode_and_link_are_kept(self):
        self.day.write_text("4;\n")
        self.day.chmod(0o640)
        link = self.folder / "link"
        link.symlink_to(self.day)
        self.answers(STARRED_ANSWER, "study", self.folder, "--day", link)
        self.assertTrue(link.is_symlink())
        self.assertEqual((self.day.read_text(), self.day.stat().st_mode & 0o777), (STARRED_DAY + "\n", 0o640))


class Preview(Case):
    def shows(self, row, *arguments):
        """Requires the command to print the header and this row, and to leave the day as it was."""
        before = self.day.read_bytes() if self.day.exists() else None
        self.answers(ANSWER + row + b"\r\n", "preview", *arguments)
        self.assertEqual(self.day.read_bytes() if self.day.exists() else None, before)
        self.nothing_left_over()

    def test_without_a_day(self):
        self.shows(b"11,1,F,0,2,C,1030000", 11, self.folder)
        self.shows(b"14,4,F,5000000,1,M,500000", 14, self.folder)

    def test_day_that_is_not_there_yet(self):
        self.shows(b"14,4,F,5000000,1,M,500000", 14, self.folder, "--day", self.day)

    def test_on_a_day(self):
        self.day.write_text("4;14:C:2")
        self.shows(b"14,4,F,5000000,2,C,220000", 14, self.folder, "--day", self.day)
        self.shows(b"11,1,F,0,2,C,1030000", "--day", self.day, 11, self.folder)
        self.day.chmod(0o400)
        self.shows(b"14,4,F,5000000,2,C,220000", 14, self.folder, "--day", self.day)

    def test_before_a_study(self):
        self.shows(b"11,1,F,0,2,C,1030000", 11, self.folder, "--day", self.day)
        self.answers(STARRED_ANSWER, "study", self.folder, "--day", self.day)
        self.shows(b"11,1,F,0,2,C,830000", 11, self.folder, "--day", self.day)
        self.answers(AGAIN_ANSWER, "study", self.folder, "--day", self.day)

    def test_curves(self):
        (self.folder / "curves.csv").write_bytes(CURVE_11)
        self.shows(b"11,1,F,0,2,C,920000", 11, self.folder)

    def test_parents(self):
        (self.folder / "parents.csv").write_bytes(PARENTS + b"1,2\r\n")
        self.shows(b"14,4,F,0,1,M,500000", 14, self.folder)

    def test_not_in_supply(self):
        words = (
            "refused with 31: the unit to preview isn't in supply\n"
            "units in supply.csv: 11, 12, 13, 14\n"
            "docs/REFUSALS.md says how to mend it, under 31\n"
        )
        for unit in (0, 15, 2**64 + 14):
            self.fails(1, words, "preview", unit, self.folder)
        (self.folder / "supply.csv").write_bytes(SUPPLY)
        (self.folder / "schedules.csv").write_bytes(SCHEDULES)
        self.fails(1, "units in supply.csv: none\n", "preview", 14, self.folder)

    def test_refused_as_a_study(self):
        self.day.write_text("6;11:M:1\n")
        words = "refused with 20: the hour is earlier than the day's\nconstraint.csv, record 1: 5,1000,300\nthe day: 6;11:M:1\n"
        self.fails(1, words, "preview", 15, self.folder, "--day", self.day)
        self.day.write_text("24;\n")
        self.fails(1, "refused with 24: the day is ill-formed\n", "preview", 14, self.folder, "--day", self.day)
        self.day.write_text("5;14:C:2\n")
        (self.folder / "schedules.csv").write_bytes(STARRED_SCHEDULES.replace(b"14,2,C,5,100,2000,0,0,1\r\n", b""))
        words = "refused with 21: a unit that runs on cost has no cost-based schedule\nschedules.csv, unit 14\n"
        self.fails(1, words, "preview", 11, self.folder, "--day", self.day)
        (self.folder / "supply.csv").write_bytes(b"x" * (MOST_BYTES + 1))
        self.fails(1, "refused: supply.csv is too long", "preview", 11, self.folder)

    def test_day_that_is_none(self):
        self.day.write_text("five\n")
        self.fails(2, f"{self.day} holds no day: ", "preview", 14, self.folder, "--day", self.day)

    def test_row_that_cant_be_printed(self):
        with open("/dev/full", "wb") as full:
            self.fails(2, "standard output: ", "preview", 14, self.folder, stdout=full)


class Release(Case):
    def test_unit_taken_out(self):
        self.day.write_text(STARRED_DAY)
        self.answers(b"", "release", 12, "--day", self.day)
        self.assertEqual(self.day.read_text(), "5;11:C:2,13:C:1,14:M:1\n")
        self.nothing_left_over()

    def test_refused(self):
        self.day.write_text(STARRED_DAY)
        words = f"refused with 23: the unit to release isn't running\nthe day: {STARRED_DAY}\n"
        self.fails(1, words, "release", 15, "--day", self.day)
        self.fails(1, "refused with 23: ", "release", 2**64 + 11, "--day", self.day)
        self.day.write_text("5;12:M:1,11:C:2")
        self.fails(1, "refused with 24: ", "release", 11, "--day", self.day)

    def test_day_that_cant_be_read(self):
        self.fails(2, f"{self.day}: No such file or directory\n", "release", 11, "--day", self.day)
        self.fails(2, f"{self.folder}: Is a directory\n", "release", 11, "--day", self.folder)
        self.day.write_text("11")
        self.fails(2, f"{self.day} holds no day: ", "release", 11, "--day", self.day)


class Tidy(Case):
    def setUp(self):
        super().setUp()
        self.supply = self.folder / "supply.csv"
        self.other = self.folder / "other.csv"

    def test_by_name(self):
        for file, content in STARRED_BY_NAME.items():
            path = self.folder / f"{file}.csv"
            path.write_bytes(quoted(content))
            self.answers(content, "tidy", path)
            self.assertEqual(path.read_bytes(), quoted(content))

    def test_as(self):
        for file, content in STARRED_BY_NAME.items():
            self.other.write_bytes(quoted(content))
            self.answers(content, "tidy", self.other, "--as", file)

    def test_as_wins(self):
        self.supply.write_bytes(STARRED_BY_NAME["schedules"])
        self.answers(STARRED_BY_NAME["schedules"], "tidy", self.supply, "--as", "schedules")
        self.fails(1, "refused with 2: ", "tidy", self.supply)

    def test_any_other_name(self):
        for name in ("other.csv", "curves.csv", "parents.csv", "supply"):
            path = self.folder / name
            path.write_bytes(STARRED_SUPPLY)
            words = f"{path} has none of the names constraint.csv, supply.csv, schedules.csv: say with --as which file it is\n"
            self.fails(2, words, "tidy", path)

    def test_refused(self):
        words = (
            "refused with 6: a row contradicts an earlier one\n"
            "supply.csv, record 5: 11,1,1000,3000,-5000\n"
            "at odds with record 1, which has another dfax of the same unit: 11,1,1000,3000,5000\n"
            "docs/REFUSALS.md says how to mend it, under 6\n"
        )
        for path in (self.supply, self.other):
            path.write_bytes(STARRED_SUPPLY + b"11,1,1000,3000,-5000\r\n")
            self.fails(1, words, "tidy", path, "--as", "supply")
        self.fails(1, words, "tidy", self.supply)

    def test_length(self):
        self.supply.write_bytes(b"x" * MOST_BYTES)
        self.fails(1, "refused with 2: ", "tidy", self.supply)
        self.supply.write_bytes(b"x" * (MOST_BYTES + 1))
        self.fails(1, "refused: supply.csv is too long, a file may have 65536 bytes\n", "tidy", self.supply)

    def test_file_that_cant_be_read(self):
        self.supply.unlink()
        self.fails(2, f"{self.supply}: No such file or directory\n", "tidy", self.supply)
        self.fails(2, f"{self.folder}: Is a directory\n", "tidy", self.folder, "--as", "supply")

    def test_tidy_file_that_cant_be_printed(self):
        with open("/dev/full", "wb") as full:
            self.fails(2, "standard output: ", "tidy", self.supply, stdout=full)


class Usage(Case):
    def test_wrong(self):
        for arguments in (
            (),
            ("tidied", self.folder),
            ("tidy",),
            ("tidy", self.folder),
            ("tidy", self.folder / "supply.csv", "--as", "curves"),
            ("tidy", self.folder / "supply.csv", "--as", "parents"),
            ("tidy", self.folder / "supply.csv", "--day", self.day),
            ("check",),
            ("check", self.folder, "--day", self.day),
            ("study", self.folder, "--da", self.day),
            ("preview",),
            ("preview", self.folder),
            ("preview", 14),
            ("preview", self.folder, 14),
            ("preview", "-1", self.folder),
            ("preview", "014", self.folder),
            ("preview", "1e1", self.folder),
            ("preview", 14, self.folder, "--as", "supply"),
            ("release", 11),
            ("release", "-1", "--day", self.day),
            ("release", "011", "--day", self.day),
            ("test",),
            ("test", 3),
            ("test", 3, 2, 4),
            ("test", 3, 2, "--day", self.day),
            ("test", "-1", 2),
            ("test", "03", 2),
            ("test", "", 2),
            ("test", 3, "-2"),
            ("test", 3, "02"),
            ("test", 3, "two"),
            ("test", 3, 2**64),
            ("test", 3, "9" * 5000),
        ):
            self.fails(2, "usage: python3 -m capping", *arguments)

    def test_no_folder(self):
        self.fails(2, f"{self.day} isn't a folder\n", "check", self.day)
        self.fails(2, f"{self.day} isn't a folder\n", "preview", 14, self.day)

    def test_help(self):
        for arguments in ((), ("check",), ("study",), ("preview",), ("release",), ("tidy",), ("test",)):
            ran = self.run_command(*arguments, "--help")
            self.assertEqual((ran.returncode, ran.stderr), (0, b""))
            for words in (b"exit status:", b"  0  there", b"  1  refused", b"  2  wrong usage", b"docs/REFUSALS.md"):
                self.assertIn(words, ran.stdout)

    def test_help_says_what_reads_curves_and_parents(self):
        for arguments in ((), ("check",), ("study",), ("preview",)):
            printed = self.run_command(*arguments, "--help").stdout
            self.assertIn(b"A study and a preview read curves.csv and parents.csv too where FOLDER has them", printed)
            self.assertIn(b"A check takes the three files alone.", printed)

    def test_help_says_that_a_preview_moves_nothing(self):
        for arguments in ((), ("preview",)):
            printed = self.run_command(*arguments, "--help").stdout
            self.assertIn(b"Nothing is moved: the\nFILE of --day is only read.", printed)

    def test_help_says_which_file_is_tidied(self):
        for arguments in ((), ("tidy",)):
            printed = self.run_command(*arguments, "--help").stdout
            self.assertIn(b"that its name or --as\nsays it is", printed)

    def test_help_says_where_amounts_are_read(self):
        for arguments in ((), ("test",)):
            printed = self.run_command(*arguments, "--help").stdout
            self.assertIn(b"A test reads amounts from standard input, one numeral a line", printed)

    def test_numbers_of_many_digits(self):
        self.fails(1, "refused with 31: ", "preview", "9" * 5000, self.folder)
        self.day.write_text(STARRED_DAY)
        self.fails(1, "refused with 23: ", "release", "9" * 5000, "--day", self.day)

    def test_without_the_engine(self):
        packages = self.folder / "hosts" / "python"
        shutil.copytree(PACKAGES / "capping", packages / "capping", ignore=shutil.ignore_patterns("__pycache__"))
        self.fails(2, "hosts/python/build links it anew", "check", self.folder, packages=packages)


if __name__ == "__main__":
    unittest.main()
