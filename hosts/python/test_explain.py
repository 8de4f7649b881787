"""Cases of a refusal told in plain words. The number and place of each were worked from documents 01 and 02."""
import unittest

import capping
from capping import columns
from capping.explain import explained, shown
from starred import CONSTRAINT, HOUR_5, PARENTS, SCHEDULES, STARRED, STARRED_DAY, STARRED_SCHEDULES, STARRED_SUPPLY, SUPPLY
from starred import CURVES, others

BUT_CONSTRAINT = (STARRED_SUPPLY, STARRED_SCHEDULES)
ROW_11 = b"11,1,M,5,100,4000,50000,20000,1\r\n"


class Case(unittest.TestCase):
    def told(self, files, *details, day="-"):
        """Requires a study of the files to be refused, and the lines between its number and the page to be these."""
        day = capping.Day.parse(day)
        files = dict(zip(columns.FILES, files))
        with self.assertRaises(capping.Refused) as raised:
            day.study(**files)
        return self.explains(raised.exception, files, day, *details)

    def explains(self, refused, files, day, *details):
        first, *lines, last = explained(refused, files, day)
        self.assertEqual(first, f"refused with {refused.number}: {refused.meaning}")
        self.assertEqual(tuple(lines), details)
        self.assertEqual(last, f"docs/REFUSALS.md says how to mend it, under {refused.number}")
        return refused.number


class Alone(Case):
    """Refusals that one file earns on its own."""

    def test_not_csv(self):
        line_feeds = HOUR_5.replace(b"\r\n", b"\n")
        words = "constraint.csv, record 0, goes wrong in field 3: cutoff\\n5,1000,300\\n"
        self.assertEqual(self.told((line_feeds, *BUT_CONSTRAINT), words), 1)
        words = "supply.csv, record 1, goes wrong in field 2: \\xe9\\t,1"
        self.assertEqual(self.told((HOUR_5, SUPPLY + b"11,\xe9\t,1", STARRED_SCHEDULES), words), 1)

    def test_header(self):
        words = "constraint.csv, record 0: Hour,relief,cutoff", "the header should be: hour,relief,cutoff"
        self.assertEqual(self.told((b"H" + HOUR_5[1:], *BUT_CONSTRAINT), *words), 2)
        words = "constraint.csv, record 0: (blank)", "the header should be: hour,relief,cutoff"
        self.assertEqual(self.told((b"\r\n", *BUT_CONSTRAINT), *words), 2)
        words = "supply.csv is empty or isn't there", "its header should be: unit,supplier,mw,cost,dfax"
        self.assertEqual(self.told((HOUR_5, b"", b""), *words), 2)

    def test_field_count(self):
        words = "schedules.csv, record 1: 11,1,M", "it has 3 fields and should have 9"
        self.assertEqual(self.told((HOUR_5, STARRED_SUPPLY, SCHEDULES + b"11,1,M"), *words), 2)
        words = "constraint.csv, record 2: (blank)", "it has 1 field and should have 3"
        self.assertEqual(self.told((HOUR_5 + b"\r\n", *BUT_CONSTRAINT), *words), 2)

    def test_numeral(self):
        words = (
            'supply.csv, record 1: 11,"1",100.0,3000,5000',
            "field 3, mw: 100.0",
            "it should be a whole number from 1 to 100000 (tenths of a MW), in digits alone with no leading zero",
        )
        self.assertEqual(self.told((HOUR_5, SUPPLY + b'11,"1",100.0,3000,5000', b""), *words), 3)

    def test_signed_numeral(self):
        words = (
            "supply.csv, record 2: 12,1,1,1,",
            "field 5, dfax: (blank)",
            "it should be a whole number from -10000 to 10000 (ten-thousandths), in digits with no leading zero, and with - in "
            "front if it is below 0",
        )
        self.assertEqual(self.told((HOUR_5, SUPPLY + b"11,1,1,1,-1\r\n12,1,1,1,", b""), *words), 3)

    def test_letter(self):
        row = b"11,1,m,24,100,4000,50000,20000,1"
        words = f"schedules.csv, record 1: {row.decode()}", "field 3, kind: m", "it should be M or C"
        self.assertEqual(self.told((HOUR_5, STARRED_SUPPLY, SCHEDULES + row), *words), 3)

    def test_row_count(self):
        words = "constraint.csv has 0 rows below its header and should have exactly one"
        self.assertEqual(self.told((CONSTRAINT, *BUT_CONSTRAINT), words), 4)
        words = "supply.csv has 257 rows below its header and should have at most 256"
        self.assertEqual(self.told((HOUR_5, SUPPLY + b"11,1,1,1,1\r\n" * 257, b""), words), 4)
        words = "schedules.csv has 1025 rows below its header and should have at most 1024"
        self.assertEqual(self.told((HOUR_5, STARRED_SUPPLY, SCHEDULES + ROW_11 * 1025), words), 4)


class BetweenRows(Case):
    def test_too_many(self):
        units = SUPPLY + b"".join(b"%d,1,1,1,1\r\n" % unit for unit in range(1, 66))
        line = "with it there are 65 units (of at most 64) and 1 supplier (of at most 32)"
        words = "supply.csv, record 65: 65,1,1,1,1", line
        self.assertEqual(self.told((HOUR_5, units, b""), *words), 5)
        suppliers = SUPPLY + b"".join(b"%d,%d,1,1,1\r\n" % (unit, unit) for unit in range(1, 41))
        line = "with it there are 33 units (of at most 64) and 33 suppliers (of at most 32)"
        words = "supply.csv, record 33: 33,33,1,1,1", line
        self.assertEqual(self.told((HOUR_5, suppliers, b""), *words), 5)

    def test_supply_at_odds(self):
        for row, what in ((b"11,1,1,1,-5000", "dfax"), (b'"11",9,1,1,5000', "supplier")):
            words = (
                f"supply.csv, record 5: {row.decode()}",
                f"at odds with record 1, which has another {what} of the same unit: 11,1,1000,3000,5000",
            )
            self.assertEqual(self.told((HOUR_5, STARRED_SUPPLY + row, b""), *words), 6)

    def test_schedules_at_odds(self):
        for row, earlier, what in (
            (b"13,1,M,6,200,4000,0,1000,1", 5, "another kind of the same schedule"),
            (b"14,2,C,6,100,2000,0,9,1", 7, "another startup of the same schedule"),
            (b"14,2,C,6,100,2000,0,0,2", 7, "another minrun of the same schedule"),
            (b"14,1,M,5,100,2000,0,0,1", 6, "the same hour of the same schedule"),
            (b"14,3,M,5,100,2000,0,0,1", 6, "another M schedule of the same unit"),
        ):
            text = STARRED_SCHEDULES.split(b"\r\n")[earlier].decode()
            words = f"schedules.csv, record 8: {row.decode()}", f"at odds with record {earlier}, which has {what}: {text}"
            self.assertEqual(self.told((HOUR_5, STARRED_SUPPLY, STARRED_SCHEDULES + row), *words), 6)

    def test_not_at_odds_with_another_cost_schedule(self):
        text = "14,3,C,5,100,2000,0,0,1"
        schedules = STARRED_SCHEDULES + f"{text}\r\n{text}\r\n".encode()
        odds = f"at odds with record 8, which has the same hour of the same schedule: {text}"
        self.assertEqual(self.told((HOUR_5, STARRED_SUPPLY, schedules), f"schedules.csv, record 9: {text}", odds), 6)

    def test_no_such_unit(self):
        words = "schedules.csv, record 8: 15,1,C,5,1,1,1,1,1"
        self.assertEqual(self.told((HOUR_5, STARRED_SUPPLY, STARRED_SCHEDULES + b"15,1,C,5,1,1,1,1,1"), words), 7)

    def test_units(self):
        self.assertEqual(self.told((HOUR_5, STARRED_SUPPLY, SCHEDULES + ROW_11), "schedules.csv, unit 12"), 8)
        hour_6 = CONSTRAINT + b"6,1000,300\r\n"
        self.assertEqual(self.told((hour_6, *BUT_CONSTRAINT), "schedules.csv, unit 11"), 9)


class OfCurves(Case):
    def told_of(self, points, *details, schedules=STARRED_SCHEDULES):
        return self.told((HOUR_5, STARRED_SUPPLY, schedules, CURVES + points), *details)

    def test_alone(self):
        words = "curves.csv, record 1, goes wrong in field 5: 2000\\n"
        self.assertEqual(self.told_of(b"11,2,5,100,2000\n", words), 1)
        words = "curves.csv, record 0: (blank)", "the header should be: unit,schedule,hour,mw,price"
        self.assertEqual(self.told((*STARRED, b"\r\n"), *words), 2)
        words = "curves.csv, record 2: 11,2", "it has 2 fields and should have 5"
        self.assertEqual(self.told_of(b"11,2,5,100,2000\r\n11,2", *words), 2)
        words = (
            "curves.csv, record 1: 11,2,5,100.0,2000",
            "field 4, mw: 100.0",
            "it should be a whole number from 0 to 100000 (tenths of a MW), in digits alone with no leading zero",
        )
        self.assertEqual(self.told_of(b"11,2,5,100.0,2000", *words), 3)
        words = "curves.csv has 4097 rows below its header and should have at most 4096"
        self.assertEqual(self.told_of(b"11,2,5,1,1\r\n" * 4097, words), 4)

    def test_no_row(self):
        words = "curves.csv, record 1: 11,3,5,100,2000", "hours of unit 11, schedule 3 in schedules.csv: none"
        self.assertEqual(self.told_of(b"11,3,5,100,2000", *words), 32)
        later = STARRED_SCHEDULES + b"11,2,C,23,100,1,1,20000,1\r\n11,2,C,6,100,1,1,20000,1\r\n"
        words = 'curves.csv, record 2: "11",2,7,100,1', "hours of unit 11, schedule 2 in schedules.csv: 5, 6, 23"
        self.assertEqual(self.told_of(b'11,2,5,100,1\r\n"11",2,7,100,1', *words, schedules=later), 32)

    def test_no_rise(self):
        for point, level in ((b"100,3000", "mw"), (b"200,2000", "price"), (b"99,1999", "mw and price")):
            words = (
                f"curves.csv, record 4: 11,2,5,{point.decode()}",
                f"it is no higher in {level} than the point before, record 2: 11,2,5,\"100\",2000",
            )
            points = b'11,2,5,50,1000\r\n11,2,5,"100",2000\r\n12,2,5,900,9000\r\n11,2,5,' + point
            self.assertEqual(self.told_of(points, *words), 33)

    def test_eleventh_point(self):
        ten = b"".join(b"11,2,5,%d,%d\r\n" % (100 + nth, nth) for nth in range(10))
        count = "with it there are 11 points of its curve (of at most 10)"
        self.assertEqual(self.told_of(ten + b"11,2,5,200,99", "curves.csv, record 11: 11,2,5,200,99", count), 33)
        level = "it is no higher in mw than the point before, record 10: 11,2,5,109,9"
        self.assertEqual(self.told_of(ten + b"11,2,5,109,99", "curves.csv, record 11: 11,2,5,109,99", level, count), 33)

    def test_ends_low(self):
        where = "schedules.csv, record 2: 11,2,C,5,100,3000,50000,20000,1"
        low = f"the last mw of its curve should be at least ecomin, which is 100 in {where}"
        points = b"11,2,5,50,1\r\n12,2,5,100,1\r\n11,2,5,99,2"
        self.assertEqual(self.told_of(points, "curves.csv, record 3: 11,2,5,99,2", low), 34)


class OfParents(Case):
    def told_of(self, rows, *details):
        return self.told((*STARRED, b"", PARENTS + rows), *details)

    def test_alone(self):
        words = "parents.csv, record 1, goes wrong in field 2: 2\\n"
        self.assertEqual(self.told_of(b"1,2\n", words), 1)
        words = "parents.csv, record 0: (blank)", "the header should be: supplier,parent"
        self.assertEqual(self.told((*STARRED, b"", b"\r\n"), *words), 2)
        words = "parents.csv, record 2: 3", "it has 1 field and should have 2"
        self.assertEqual(self.told_of(b"1,2\r\n3", *words), 2)
        words = (
            "parents.csv, record 1: 1,1000",
            "field 2, parent: 1000",
            "it should be a whole number from 1 to 999, in digits alone with no leading zero",
        )
        self.assertEqual(self.told_of(b"1,1000", *words), 3)
        words = "parents.csv has 65 rows below its header and should have at most 64"
        self.assertEqual(self.told_of(b"1,2\r\n" * 65, words), 4)

    def test_two_parents(self):
        words = "parents.csv, record 3: 1,4", "at odds with record 1, which has parent 2 for supplier 1: 1,2"
        self.assertEqual(self.told_of(b"1,2\r\n3,4\r\n1,4", *words), 35)
        words = 'parents.csv, record 2: "1",2', 'at odds with record 1, which has parent 2 for supplier 1: 1,"2"'
        self.assertEqual(self.told_of(b'1,"2"\r\n"1",2', *words), 35)

    def test_ring(self):
        words = "parents.csv, record 2: 2,3", "its chain comes back: 2 -> 3 -> 2"
        self.assertEqual(self.told_of(b"1,2\r\n2,3\r\n3,2", *words), 36)
        words = "parents.csv, record 1: 7,7", "its chain comes back: 7 -> 7"
        self.assertEqual(self.told_of(b"7,7", *words), 36)

    def test_longest_ring(self):
        chain = [*range(101, 165), 101]
        rows = b"".join(b"%d,%d\r\n" % step for step in zip(chain, chain[1:]))
        words = "parents.csv, record 1: 101,102", f"its chain comes back: {' -> '.join(map(str, chain))}"
        self.assertEqual(self.told_of(rows, *words), 36)


class OfTheDay(Case):
    def test_hour(self):
        words = "constraint.csv, record 1: 5,1000,300", "the day: 6;11:M:1"
        self.assertEqual(self.told(STARRED, *words, day="6;11:M:1"), 20)

    def test_unit_on_cost(self):
        words = "schedules.csv, unit 11", f"the day: {STARRED_DAY}"
        self.assertEqual(self.told((HOUR_5, SUPPLY + b"11,1,1,1,1", SCHEDULES + ROW_11), *words, day=STARRED_DAY), 21)

    def test_crowd(self):
        day = "5;11:C:2," + others(61).removeprefix("5;")
        words = "units that run already: 62, further units in supply.csv: 3", f"the day: {day}"
        self.assertEqual(self.told(STARRED, *words, day=day), 22)

    def test_ill_formed(self):
        self.assertEqual(self.told(STARRED, "the day: 24;", day="24;"), 24)


class OfAPreview(Case):
    def told_of(self, unit, files, *details):
        """The same of a preview on a fresh day."""
        files = dict(zip(columns.FILES, files))
        with self.assertRaises(capping.Refused) as raised:
            capping.Day.fresh().preview(**files, unit=unit)
        return self.explains(raised.exception, files, capping.Day.fresh(), *details)

    def test_not_in_supply(self):
        rows = b"102,1,1,1,1\r\n9,1,1,1,1\r\n102,1,1,1,1\r\n"
        schedules = SCHEDULES + b"9,1,C,5,1,1,1,1,1\r\n102,1,C,5,1,1,1,1,1\r\n"
        self.assertEqual(self.told_of(11, (HOUR_5, SUPPLY + rows, schedules), "units in supply.csv: 9, 102"), 31)
        self.assertEqual(self.told_of(11, (HOUR_5, SUPPLY, SCHEDULES), "units in supply.csv: none"), 31)

    def test_of_the_files(self):
        self.assertEqual(self.told_of(15, (HOUR_5, STARRED_SUPPLY, SCHEDULES + ROW_11), "schedules.csv, unit 12"), 8)


class Shown(unittest.TestCase):
    def test_one_line_of_plain_text(self):
        self.assertEqual(shown(b'11,"a ~"'), '11,"a ~"')
        self.assertEqual(shown(b"\x00\x1b[2J\r\n\t\x7f\xff\\"), "\\x00\\x1b[2J\\r\\n\\t\\x7f\\xff\\\\")

    def test_long(self):
        self.assertEqual(shown(b"7" * 120), "7" * 120)
        self.assertEqual(shown(b"7" * 121), "7" * 120 + " .. and 1 byte more")


if __name__ == "__main__":
    unittest.main()
