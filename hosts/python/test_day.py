"""Cases of a day of several studies from Python. What each must answer was worked from documents 01 and 02."""
import copy
import pickle
import threading
import unittest

import capping
from capping import Day, Running
from starred import AFFILIATED_ANSWER, AGAIN_ANSWER, ANSWER, CONSTRAINT, HOUR_5, PARENTS, SCHEDULES, STARRED, STARRED_ANSWER
from starred import CURVE_11, CURVE_11_ANSWER, CURVES, LARGEST, STARRED_DAY, SUPPLY, DayCase, others

STARRED_RUNNING = (Running(11, "C", 2), Running(12, "M", 1), Running(13, "C", 1), Running(14, "M", 1))
NO_UNITS_HOUR_4 = (CONSTRAINT + b"4,1000,300\r\n", SUPPLY, SCHEDULES)
NO_UNITS_HOUR_6 = (CONSTRAINT + b"6,1000,300\r\n", SUPPLY, SCHEDULES)
UNIT_11_WITHOUT_COST = (HOUR_5, SUPPLY + b"11,1,1000,3000,5000\r\n", SCHEDULES + b"11,1,M,5,100,4000,50000,20000,1\r\n")
ILL_FORMED = ("24;", "5;12:C:1,11:M:1", "5;11:M:1,11:M:1", "5;0:M:1", "5;10000:M:1", "5;11:M:0", "n;11:M:100", others(65))


class Study(DayCase):
    def test_fresh(self):
        day = Day.fresh()
        self.assertEqual((day.hour, day.running), (None, ()))
        self.assertEqual(day.cells, (0,) * capping.DAY_CELLS)
        self.assertEqual(day, Day())

    def test_starred_twice(self):
        day = Day.fresh()
        self.assertEqual(day.study(*STARRED), STARRED_ANSWER)
        self.assertEqual((day.hour, day.running), (5, STARRED_RUNNING))
        self.assertEqual(day.study(*STARRED), AGAIN_ANSWER)
        self.assertEqual((day.hour, day.running), (5, STARRED_RUNNING))

    def test_hour_moves_and_units_stay(self):
        day = Day.parse(STARRED_DAY)
        self.assertEqual(day.study(*NO_UNITS_HOUR_6), ANSWER)
        self.assertEqual((day.hour, day.running), (6, STARRED_RUNNING))

    def test_room(self):
        day = Day.fresh()
        self.refused_unchanged(10, 0, 0, day, day.study, *STARRED, room=len(STARRED_ANSWER) - 1)
        with self.assertRaises(ValueError):
            day.study(*STARRED, room=-1)
        self.assertEqual(day.study(*STARRED, room=len(STARRED_ANSWER)), STARRED_ANSWER)

    def test_refused_by_the_files(self):
        day = Day.parse(STARRED_DAY)
        self.refused_unchanged(2, 1, 0, day, day.study, b"", b"", b"")
        with self.assertRaises(TypeError):
            day.study("", "", "")

    def test_affiliated(self):
        day = Day.fresh()
        self.assertEqual(day.study(*STARRED, parents=PARENTS + b"1,2"), AFFILIATED_ANSWER)
        self.assertEqual(str(day), STARRED_DAY)
        again = AGAIN_ANSWER.replace(b"14,4,F,5000000,", b"14,4,F,0,")
        self.assertEqual(day.study(*STARRED, parents=PARENTS + b"1,2"), again)
        self.assertEqual(day.study(*STARRED, parents=PARENTS), AGAIN_ANSWER)

    def test_refused_by_parents(self):
        day = Day.parse(STARRED_DAY)
        self.refused_unchanged(35, 5, 2, day, day.study, *STARRED, parents=PARENTS + b"1,2\r\n1,2")
        self.refused_unchanged(36, 5, 2, day, day.study, *STARRED, parents=PARENTS + b"1,2\r\n2,3\r\n3,2")
        self.refused_unchanged(36, 5, 1, day, day.study, *NO_UNITS_HOUR_4, parents=PARENTS + b"1,1")

    def test_curves(self):
        day = Day.fresh()
        self.assertEqual(day.study(*STARRED, curves=CURVE_11), CURVE_11_ANSWER)
        self.assertEqual(str(day), STARRED_DAY)
        self.assertEqual(day.study(*STARRED, curves=CURVE_11), AGAIN_ANSWER.replace(b"2,C,830000", b"2,C,720000"))
        self.assertEqual(day.study(*STARRED, curves=CURVES), AGAIN_ANSWER)

    def test_refused_by_curves(self):
        day = Day.parse(STARRED_DAY)
        self.refused_unchanged(32, 4, 1, day, day.study, *STARRED, curves=CURVES + b"11,3,5,100,1")
        self.refused_unchanged(33, 4, 3, day, day.study, *STARRED, curves=CURVE_11 + b"11,2,5,100,2000")
        day = Day.parse("6;")
        self.refused_unchanged(34, 4, 1, day, day.study, *STARRED, curves=CURVES + b"11,2,5,99,1")

    def test_refused_by_the_hour(self):
        day = Day.parse(STARRED_DAY)
        self.refused_unchanged(20, 0, 0, day, day.study, *NO_UNITS_HOUR_4)

    def test_refused_by_a_unit_on_cost(self):
        day = Day.parse(STARRED_DAY)
        self.refused_unchanged(21, 3, 11, day, day.study, *UNIT_11_WITHOUT_COST)

    def test_refused_by_a_crowd(self):
        day = Day.parse(others(61))
        self.refused_unchanged(22, 0, 0, day, day.study, *STARRED)
        day.release(161)
        self.assertEqual(day.study(*STARRED), STARRED_ANSWER)
        self.assertEqual(len(day.running), 64)


class Release(DayCase):
    def test_startup_is_paid_again(self):
        day = Day.parse(STARRED_DAY)
        day.release(11)
        self.assertEqual((day.hour, day.running), (5, STARRED_RUNNING[1:]))
        self.assertEqual(day.study(*STARRED), AGAIN_ANSWER.replace(b"C,830000", b"C,1030000"))
        self.assertEqual(day, Day.parse(STARRED_DAY))

    def test_to_a_fresh_day(self):
        day = Day.parse("n;7:C:9")
        day.release(7)
        self.assertEqual(day.cells, Day.fresh().cells)

    def test_not_running(self):
        day = Day.parse(STARRED_DAY)
        for unit in (0, 10, 15, LARGEST, LARGEST + 1, LARGEST + 12, -1):
            self.refused_unchanged(23, 0, 0, day, day.release, unit)
        with self.assertRaises(TypeError):
            day.release("11")

    def test_of_an_ill_formed_day(self):
        day = Day.parse("24;11:C:2")
        for unit in (11, 12, LARGEST + 1, -1):
            self.refused_unchanged(24, 0, 0, day, day.release, unit)


class IllFormed(DayCase):
    def test_words(self):
        for words in ILL_FORMED:
            day = Day.parse(words)
            self.refused_unchanged(24, 0, 0, day, day.study, *STARRED)
            self.refused_unchanged(24, 0, 0, day, day.preview, *STARRED, 11)
            self.refused_unchanged(24, 0, 0, day, day.release, 11)

    def test_a_kind_that_is_neither(self):
        day = Day.from_cells([1, 5, 1, 11, ord("X"), 2] + [0] * (capping.DAY_CELLS - 6))
        self.assertEqual((day.hour, day.running), (5, (Running(0, "M", 0),)))
        self.refused_unchanged(24, 0, 0, day, day.study, *STARRED)

    def test_what_is_no_part_of_a_day(self):
        day = Day.from_cells([0, 24, 1, 11, ord("C"), 2] + [99] * (capping.DAY_CELLS - 6))
        self.assertEqual((day.hour, day.running), (None, (Running(11, "C", 2),)))
        self.assertEqual(day, Day.parse("n;11:C:2"))
        day.release(11)
        self.assertEqual(day.cells, Day.fresh().cells)

    def test_no_cells_of_a_day(self):
        fresh = Day.fresh().cells
        for cells in (fresh[1:], (*fresh, 0), (*fresh[1:], -1), (*fresh[1:], LARGEST + 1)):
            with self.assertRaises(ValueError):
                Day.from_cells(cells)


class Value(unittest.TestCase):
    def test_equality(self):
        self.assertNotEqual(Day.parse("5;"), Day.fresh())
        self.assertNotEqual(Day.parse("5;11:C:2"), Day.parse("5;11:M:2"))
        self.assertNotEqual(Day.parse("5;"), "5;")
        with self.assertRaises(TypeError):
            hash(Day.fresh())

    def test_copies_go_their_own_way(self):
        for copied in (copy.copy, copy.deepcopy, lambda day: pickle.loads(pickle.dumps(day))):
            day = Day.parse(STARRED_DAY)
            other = copied(day)
            self.assertEqual(other, day)
            other.release(11)
            self.assertEqual(str(day), STARRED_DAY)
            self.assertEqual(str(other), "5;12:M:1,13:C:1,14:M:1")


class Threads(unittest.TestCase):
    def test_a_day_each(self):
        answers = {}

        def study(name):
            day = Day.fresh()
            answers[name] = [day.study(*STARRED) for _ in range(5)], str(day)

        threads = [threading.Thread(target=study, args=(name,)) for name in range(4)]
        for thread in threads:
            thread.start()
        for thread in threads:
            thread.join()
        expected = [STARRED_ANSWER] + [AGAIN_ANSWER] * 4, STARRED_DAY
        self.assertEqual(answers, {name: expected for name in range(4)})


if __name__ == "__main__":
    unittest.main()
