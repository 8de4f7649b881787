"""Cases of a look at one unit's choice from Python, each held beside the study that it looks ahead at. What each must answer was
worked from documents 01 and 02."""
import pickle
import threading
import unittest

import capping
from capping import Day, Row
from starred import ANSWER, CONSTRAINT, HOUR_5, LARGEST, PARENTS, STARRED, STARRED_ANSWER, STARRED_DAY, STARRED_SCHEDULES
from starred import CURVE_11, CURVES, STARRED_SUPPLY, DayCase, others

ROW_14 = Row(14, 4, "F", 5000000, 1, "M", 500000)
ON_COST_14 = ROW_14._replace(schedule=2, kind="C", cost=220000)
WITHOUT_COST_14 = (HOUR_5, STARRED_SUPPLY, STARRED_SCHEDULES.replace(b"14,2,C,5,100,2000,0,0,1\r\n", b""))
RING = PARENTS + b"1,2\r\n2,3\r\n3,2\r\n"
NOT_IN_SUPPLY = 31


def at_relief(relief):
    """The starred files with another relief."""
    return (CONSTRAINT + b"5,%d,300\r\n" % relief, STARRED_SUPPLY, STARRED_SCHEDULES)


class Accepted(DayCase):
    def previewed(self, unit, files=STARRED, day="-", **beside):
        """The row of a unit, which must be the study's too. A preview leaves every cell of the day."""
        day = day if isinstance(day, Day) else Day.parse(day)
        before = day.cells
        row = day.preview(*files, unit, **beside)
        self.assertEqual(day.cells, before)
        self.assertIn(str(row).encode(), day.study(*files, **beside).split(b"\r\n"))
        return row

    def test_fields(self):
        row = self.previewed(14)
        self.assertEqual(row, ROW_14)
        self.assertEqual((row.unit, row.supplier, row.verdict, row.left), (14, 4, "F", 5000000))
        self.assertEqual((row.schedule, row.kind, row.cost), (1, "M", 500000))

    def test_each_starred_unit(self):
        rows = b"".join(f"{self.previewed(unit)}\r\n".encode() for unit in (11, 12, 13, 14))
        self.assertEqual(ANSWER + rows, STARRED_ANSWER)

    def test_each_verdict(self):
        self.assertEqual(self.previewed(14, at_relief(499)), ROW_14._replace(verdict="P"))
        self.assertEqual(self.previewed(14, at_relief(1501)), ROW_14._replace(verdict="U", left=0))
        self.assertEqual(self.previewed(11, at_relief(1501)), Row(11, 1, "U", 0, 2, "C", 1030000))

    def test_kinds_of_the_day(self):
        self.assertEqual(self.previewed(14, day="n;14:C:2"), ON_COST_14)
        self.assertEqual(self.previewed(14, day="5;14:M:1"), ROW_14)
        self.assertEqual(self.previewed(14, day="5;12:C:2"), ROW_14)
        self.assertEqual(self.previewed(12, day="5;12:C:2"), Row(12, 2, "F", 0, 2, "C", 330000))
        self.assertEqual(self.previewed(11, day=STARRED_DAY), Row(11, 1, "F", 0, 2, "C", 830000))

    def test_what_is_no_part_of_the_day(self):
        behind = [14, ord("C"), 2] * ((capping.DAY_CELLS - 3) // 3)
        self.assertEqual(self.previewed(14, day=Day.from_cells([0, 24, 1, *behind])), ON_COST_14)
        self.assertEqual(self.previewed(14, day=Day.from_cells([9, 5, 0, *behind])), ROW_14)

    def test_affiliated(self):
        self.assertEqual(self.previewed(14, parents=PARENTS + b"1,2\r\n"), ROW_14._replace(left=0))
        self.assertEqual(self.previewed(14, parents=PARENTS), ROW_14)

    def test_curves(self):
        row = Row(11, 1, "F", 0, 2, "C", 920000)
        self.assertEqual(self.previewed(11, curves=CURVE_11), row)
        self.assertEqual(self.previewed(11, day=STARRED_DAY, curves=CURVE_11), row._replace(cost=720000))
        self.assertEqual(self.previewed(14, curves=CURVE_11), ROW_14)
        self.assertEqual(self.previewed(14, curves=CURVE_11, parents=PARENTS + b"1,2"), ROW_14._replace(left=0))

    def test_64_units_would_run(self):
        self.assertEqual(self.previewed(14, day=others(60)), ROW_14)

    def test_by_name(self):
        constraint, supply, schedules = STARRED
        row = Day.fresh().preview(unit=14, schedules=schedules, supply=supply, constraint=constraint, parents=b"")
        self.assertEqual(row, ROW_14)


class Refused(DayCase):
    def refused_for(self, unit, refusal, day, files=STARRED, **beside):
        day = Day.parse(day)
        self.refused_unchanged(*refusal, day, day.preview, *files, unit, **beside)

    def test_not_in_supply(self):
        for unit in (0, 10, 15, 101, LARGEST, LARGEST + 1, LARGEST + 12, -1):
            for day in ("-", "5;101:M:1", STARRED_DAY):
                self.refused_for(unit, (NOT_IN_SUPPLY, 0, 0), day)

    def test_no_number(self):
        for unit in ("14", 14.0, None):
            with self.assertRaises(TypeError):
                Day.fresh().preview(*STARRED, unit)

    def test_what_a_study_is_refused_with_comes_first(self):
        for unit in (11, 14, 15, LARGEST + 1, -1):
            self.refused_for(unit, (20, 0, 0), "6;")
            self.refused_for(unit, (21, 3, 14), "5;14:C:2", WITHOUT_COST_14)
            self.refused_for(unit, (22, 0, 0), others(61))
            self.refused_for(unit, (24, 0, 0), "5;12:M:1,11:M:1")
            self.refused_for(unit, (24, 0, 0), "24;", (b"", b"", b""))
            self.refused_for(unit, (2, 1, 0), STARRED_DAY, (b"", b"", b""))
            self.refused_for(unit, (34, 4, 1), "6;", curves=CURVES + b"11,2,5,99,1")
            self.refused_for(unit, (36, 5, 2), "6;", parents=RING)

    def test_words(self):
        told = self.refused(NOT_IN_SUPPLY, 0, 0, Day.fresh().preview, *STARRED, 15)
        self.assertEqual(told, "refusal 31: the unit to preview isn't in supply")


class Value(unittest.TestCase):
    def test_text(self):
        self.assertEqual(str(ROW_14), "14,4,F,5000000,1,M,500000")

    def test_pickled(self):
        self.assertEqual(pickle.loads(pickle.dumps(ROW_14)), ROW_14)


class Threads(unittest.TestCase):
    def test_one_day(self):
        day = Day.parse("n;14:C:2")
        rows = []

        def look():
            rows.extend(day.preview(*STARRED, 14) for _ in range(5))

        threads = [threading.Thread(target=look) for _ in range(4)]
        for thread in threads:
            thread.start()
        for thread in threads:
            thread.join()
        self.assertEqual(rows, [ON_COST_14] * 20)


if __name__ == "__main__":
    unittest.main()
