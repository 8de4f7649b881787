"""Cases of the check, the study and the test from Python. What each must answer was worked from documents 01 and 02."""
import pickle
import unittest
import unittest.mock

import capping
from capping import engine
from starred import AFFILIATED_ANSWER, CONSTRAINT, HOUR_5, PARENTS, SCHEDULES, STARRED, STARRED_ANSWER, STARRED_BY_NAME
from starred import CURVE_11, CURVE_11_ANSWER, CURVES, MOST_AMOUNT, STARRED_SCHEDULES, STARRED_SUPPLY, SUPPLY, Case, quoted


class Check(Case):
    def test_kept(self):
        self.assertEqual(capping.check(*STARRED), 0)
        self.assertEqual(capping.check(HOUR_5, SUPPLY, SCHEDULES), 0)

    def test_first_refusal(self):
        self.assertEqual(capping.check(b"", b"", b""), 2)
        self.assertEqual(capping.check(HOUR_5, STARRED_SUPPLY + b"\0", STARRED_SCHEDULES), 1)
        self.assertEqual(capping.check(HOUR_5, STARRED_SUPPLY, SCHEDULES), 8)


class Study(Case):
    def test_starred(self):
        self.assertEqual(capping.study(*STARRED), STARRED_ANSWER)

    def test_room(self):
        self.assertEqual(capping.study(*STARRED, room=len(STARRED_ANSWER)), STARRED_ANSWER)
        words = self.refused(10, 0, 0, capping.study, *STARRED, room=len(STARRED_ANSWER) - 1)
        self.assertEqual(words, "refusal 10: the buffer is shorter than the answer")
        self.refused(10, 0, 0, capping.study, *STARRED, room=0)
        with self.assertRaises(ValueError):
            capping.study(*STARRED, room=-1)

    def test_bytes_of_any_kind(self):
        self.assertEqual(capping.study(*map(bytearray, STARRED)), STARRED_ANSWER)
        self.assertEqual(capping.study(*map(memoryview, STARRED)), STARRED_ANSWER)
        with self.assertRaises(TypeError):
            capping.study("", "", "")

    def test_refused_file(self):
        words = self.refused(1, 2, 0, capping.study, HOUR_5, SUPPLY + b"11\t", SCHEDULES)
        self.assertEqual(words, "refusal 1: the file isn't CSV by RFC 4180 (supply)")

    def test_refused_record(self):
        words = self.refused(3, 2, 5, capping.study, HOUR_5, STARRED_SUPPLY + b"15,5,0,1,1\r\n", STARRED_SCHEDULES)
        self.assertEqual(words, "refusal 3: a field is ill-formed or out of range (supply, record 5)")

    def test_refused_unit(self):
        words = self.refused(8, 3, 11, capping.study, HOUR_5, STARRED_SUPPLY, SCHEDULES)
        self.assertEqual(words, "refusal 8: a unit has no schedule (schedules, unit 11)")


class Parents(Case):
    def answered(self, rows):
        return capping.study(*STARRED, parents=PARENTS + rows)

    def told(self, number, place, rows):
        return self.refused(number, 5, place, capping.study, *STARRED, parents=PARENTS + rows)

    def test_none(self):
        self.assertEqual(capping.study(*STARRED, parents=b""), STARRED_ANSWER)
        self.assertEqual(self.answered(b""), STARRED_ANSWER)
        self.assertEqual(self.answered(b"5,6\r\n"), STARRED_ANSWER)

    def test_affiliated(self):
        for rows in (b"1,2\r\n", b"4,900\r\n1,900\r\n", b"1,5\r\n5,6\r\n2,6\r\n"):
            self.assertEqual(self.answered(rows), AFFILIATED_ANSWER)
        self.assertEqual(capping.study(*STARRED, parents=memoryview(PARENTS + b"1,2")), AFFILIATED_ANSWER)

    def test_room(self):
        room = len(AFFILIATED_ANSWER)
        self.assertEqual(capping.study(*STARRED, room, parents=PARENTS + b"1,2"), AFFILIATED_ANSWER)
        self.refused(10, 0, 0, capping.study, *STARRED, room - 1, parents=PARENTS + b"1,2")

    def test_refused_file(self):
        self.assertEqual(self.told(1, 0, b"1,2\n"), "refusal 1: the file isn't CSV by RFC 4180 (parents)")
        self.refused(2, 5, 0, capping.study, *STARRED, parents=b"\r\n")
        self.told(2, 2, b"1,2\r\n3\r\n")
        self.told(3, 1, b"1,1000\r\n")
        self.told(4, 0, b"1,2\r\n" * 65)

    def test_two_parents(self):
        words = "refusal 35: a supplier is given two parents (parents, record 2)"
        self.assertEqual(self.told(35, 2, b"1,2\r\n1,2\r\n"), words)
        self.told(35, 3, b"1,1\r\n2,3\r\n2,4\r\n")

    def test_ring(self):
        words = "refusal 36: a chain of parents returns to its start (parents, record 2)"
        self.assertEqual(self.told(36, 2, b"1,2\r\n2,3\r\n3,2\r\n"), words)
        self.told(36, 1, b"1,1\r\n")

    def test_by_name_alone(self):
        with self.assertRaises(TypeError):
            capping.study(*STARRED, capping.LONGEST_ANSWER, PARENTS)


class Curves(Case):
    def answered(self, points):
        return capping.study(*STARRED, curves=CURVES + points)

    def told(self, number, place, points, files=STARRED):
        return self.refused(number, 4, place, capping.study, *files, curves=CURVES + points)

    def at_ecomin(self, ecomin):
        """The starred files with another ecomin of unit 11's C schedule."""
        return (HOUR_5, STARRED_SUPPLY, STARRED_SCHEDULES.replace(b"11,2,C,5,100,", b"11,2,C,5,%d," % ecomin))

    def rising(self, count):
        """Points of unit 11's C schedule, up to ecomin at the tenth."""
        return b"".join(b"11,2,5,%d,%d\r\n" % (10 * nth, 200 * nth) for nth in range(1, count + 1))

    def test_none(self):
        self.assertEqual(capping.study(*STARRED, curves=b""), STARRED_ANSWER)
        self.assertEqual(self.answered(b""), STARRED_ANSWER)

    def test_price_at_ecomin(self):
        self.assertEqual(capping.study(*STARRED, curves=memoryview(CURVE_11)), CURVE_11_ANSWER)
        for points in (
            b"11,2,5,100,2000",
            b"11,2,5,99,1000\r\n11,2,5,101,2000\r\n",
            b"11,2,5,100,2000\r\n11,2,5,200,9000\r\n",
            b'11,2,5,0,0\r\n"11",2,5,100,"2000"\r\n',
            self.rising(10),
        ):
            self.assertEqual(self.answered(points), CURVE_11_ANSWER)
        for ecomin, cost in ((0, 700000), (50, 755000), (51, 812200)):
            answer = STARRED_ANSWER.replace(b"1030000", b"%d" % cost)
            self.assertEqual(capping.study(*self.at_ecomin(ecomin), curves=CURVE_11), answer)

    def test_in_place_of_the_column(self):
        for point, row in ((b"11,2,5,100,9000", b"11,1,F,0,1,M,1100000"), (b"11,1,5,100,2000", b"11,1,F,0,1,M,900000")):
            self.assertEqual(self.answered(point), STARRED_ANSWER.replace(b"11,1,F,0,2,C,1030000", row))

    def test_interleaved(self):
        points = b"11,2,5,50,1000\r\n14,1,5,10,4000\r\n11,2,5,100,2000\r\n14,1,5,100,6000\r\n"
        self.assertEqual(self.answered(points), CURVE_11_ANSWER.replace(b"1,M,500000", b"1,M,600000"))

    def test_beside_parents(self):
        answer = CURVE_11_ANSWER.replace(b"14,4,F,5000000,", b"14,4,F,0,")
        self.assertEqual(capping.study(*STARRED, curves=CURVE_11, parents=PARENTS + b"1,2"), answer)
        self.refused(36, 5, 1, capping.study, *STARRED, curves=CURVE_11, parents=PARENTS + b"1,1")

    def test_room(self):
        room = len(CURVE_11_ANSWER)
        self.assertEqual(capping.study(*STARRED, room, curves=CURVE_11), CURVE_11_ANSWER)
        self.refused(10, 0, 0, capping.study, *STARRED, room - 1, curves=CURVE_11)

    def test_refused_file(self):
        self.assertEqual(self.told(1, 0, b"11,2,5,100,2000\n"), "refusal 1: the file isn't CSV by RFC 4180 (curves)")
        self.refused(2, 4, 0, capping.study, *STARRED, curves=b"\r\n")
        self.told(2, 2, b"11,2,5,100,2000\r\n11,2,5,200\r\n")
        self.told(3, 1, b"11,2,5,100001,2000\r\n")
        self.told(4, 0, self.rising(4097))

    def test_no_row(self):
        words = "refusal 32: a point of a curve has no row in schedules (curves, record 1)"
        for point in (b"15,1,5,100,1", b"11,3,5,100,1", b"11,2,6,100,1"):
            self.assertEqual(self.told(32, 1, point), words)
        self.told(32, 3, b"11,2,5,50,1\r\n11,2,5,50,1\r\n11,2,6,1,1\r\n")

    def test_no_rise(self):
        words = "refusal 33: a curve doesn't rise from point to point, or has more than ten (curves, record 2)"
        for points in (b"11,2,5,100,1\r\n11,2,5,100,2", b"11,2,5,50,2\r\n11,2,5,100,2", b"11,2,5,50,2\r\n11,2,5,100,1"):
            self.assertEqual(self.told(33, 2, points), words)
        self.told(33, 3, b"11,2,5,50,1\r\n12,2,5,9,9\r\n11,2,5,50,2\r\n")
        self.told(33, 11, self.rising(11))

    def test_ends_low(self):
        words = "refusal 34: a curve ends below ecomin (curves, record 2)"
        self.assertEqual(self.told(34, 2, b"11,2,5,50,1\r\n11,2,5,99,2\r\n"), words)
        self.told(34, 2, b"11,2,5,9,1\r\n12,2,5,9,1\r\n11,2,5,10,2\r\n")
        self.refused(34, 4, 2, capping.study, *self.at_ecomin(101), curves=CURVE_11)

    def test_order_of_files(self):
        low = b"11,2,5,99,1\r\n"
        stray_unit = (HOUR_5, STARRED_SUPPLY, STARRED_SCHEDULES + b"15,1,C,5,1,1,1,1,1\r\n")
        self.refused(7, 3, 8, capping.study, *stray_unit, curves=b"\t")
        self.refused(34, 4, 1, capping.study, *STARRED, curves=CURVES + low, parents=b"\t")
        one_unit = (HOUR_5, STARRED_SUPPLY, SCHEDULES + b"11,2,C,5,100,3000,50000,20000,1\r\n")
        self.told(34, 1, low, one_unit)
        self.refused(8, 3, 12, capping.study, *one_unit, curves=CURVE_11)

    def test_by_name_alone(self):
        with self.assertRaises(TypeError):
            capping.study(*STARRED, capping.LONGEST_ANSWER, CURVES)


class Tidy(Case):
    def told(self, refusal, file, data):
        """Requires this number, file and place, whether or not the room is enough."""
        for room in (None, 0):
            self.refused(*refusal, capping.tidy, file, data, room)

    def test_tidy_and_quoted(self):
        for file, content in STARRED_BY_NAME.items():
            self.assertEqual(capping.tidy(file, content), content)
            self.assertEqual(capping.tidy(file, quoted(content)), content)
            self.assertEqual(capping.tidy(file, memoryview(content)), content)

    def test_rows_stay_in_their_order(self):
        supply = SUPPLY + b"12,2,9,0,-1\r\n11,1,5,7,0\r\n12,2,9,0,-1\r\n11,1,4,7,0\r\n"
        self.assertEqual(capping.tidy("supply", quoted(supply)), supply)
        schedules = SCHEDULES + b"9,2,C,23,0,0,0,0,24\r\n7,1,M,0,1,2,3,4,1\r\n9,2,C,1,5,6,7,0,24\r\n"
        self.assertEqual(capping.tidy("schedules", quoted(schedules)), schedules)

    def test_room(self):
        self.assertEqual(capping.tidy("supply", SUPPLY, room=28), SUPPLY)
        words = self.refused(30, 0, 0, capping.tidy, "supply", SUPPLY, room=27)
        self.assertEqual(words, "refusal 30: the buffer is shorter than the tidy file")
        with self.assertRaises(ValueError):
            capping.tidy("supply", SUPPLY, room=-1)

    def test_longest(self):
        supply = (b"%d,%d,100000,370000,-10000\r\n" % (9999 - row % 64, 999 - row % 32) for row in range(256))
        hours = ((9999 - row // 14, 10 + row % 14) for row in range(1024))
        schedules = (b"%d,99,C,%d,100000,370000,100000000,100000000,24\r\n" % row for row in hours)
        for number, file, content in (
            (1, "constraint", CONSTRAINT + b"23,1000000,10000\r\n"),
            (2, "supply", SUPPLY + b"".join(supply)),
            (3, "schedules", SCHEDULES + b"".join(schedules)),
        ):
            self.assertEqual(len(content), capping.LONGEST_TIDY[file])
            self.assertEqual(len(content), engine.functions().capping_longest_tidy(number))
            self.assertEqual(capping.tidy(file, content), content)
            self.refused(30, 0, 0, capping.tidy, file, content, room=len(content) - 1)

    def test_refused(self):
        self.told((1, 2, 0), "supply", STARRED_SUPPLY + b"\t")
        self.told((2, 1, 0), "constraint", b"")
        self.told((2, 3, 8), "schedules", STARRED_SCHEDULES + b"\r\n")
        self.told((4, 1, 0), "constraint", CONSTRAINT)
        self.told((3, 2, 5), "supply", STARRED_SUPPLY + b"15,5,1,0,-0\r\n")
        self.told((5, 2, 65), "supply", SUPPLY + b"".join(b"%d,1,1,0,0\r\n" % unit for unit in range(1, 67)))
        self.told((6, 2, 5), "supply", STARRED_SUPPLY + b"11,1,1,0,-5000\r\n")
        self.told((6, 3, 8), "schedules", STARRED_SCHEDULES + b"14,3,M,5,0,0,0,0,1\r\n")

    def test_no_such_file(self):
        for file in ("curves", "parents", "supply.csv", 2):
            with self.assertRaisesRegex(ValueError, "none of the files that can be tidied: constraint, supply, schedules$"):
                capping.tidy(file, SUPPLY)


class Test(Case):
    def test_verdicts(self):
        self.assertEqual(capping.test([4, 3, 2, 1], 3, 2), (2, "P"))
        self.assertEqual(capping.test([4, 3, 2, 1], 3, 3), (2, "F"))
        self.assertEqual(capping.test([5, 5], 0, 1), (0, "F"))
        self.assertEqual(capping.test([MOST_AMOUNT] * 32, 31, 2**64 - 1), (29 * MOST_AMOUNT, "F"))

    def test_refused(self):
        self.refused(11, 0, 0, capping.test, [], 0, 1)
        self.refused(11, 0, 0, capping.test, [1] * 33, 0, 1)
        self.refused(11, 0, 0, capping.test, [1, MOST_AMOUNT + 1], 0, 1)
        self.refused(11, 0, 0, capping.test, [1, 2**64], 0, 1)
        self.refused(11, 0, 0, capping.test, [1, 2], 2, 1)
        self.refused(11, 0, 0, capping.test, [1, 2], -1, 1)

    def test_need(self):
        self.assertEqual(capping.test([5], 0, 0), (0, "P"))
        with self.assertRaises(ValueError):
            capping.test([5], 0, 2**64)


class Words(unittest.TestCase):
    def test_every_number(self):
        for number in (*range(1, 12), *range(20, 25), *range(30, 37)):
            self.assertIn(f"refusal {number}: ", str(capping.Refused(number)))

    def test_pickled(self):
        told = pickle.loads(pickle.dumps(capping.Refused(8, 3, 12)))
        self.assertEqual((told.number, told.file, told.place), (8, 3, 12))
        self.assertEqual(str(told), "refusal 8: a unit has no schedule (schedules, unit 12)")


class Loading(unittest.TestCase):
    def test_a_library_without_the_calls(self):
        other = unittest.mock.patch.object(engine, "SHARED_OBJECT", "libc.so.6")
        with other, self.assertRaisesRegex(OSError, "capping_check; hosts/python/build links it anew$"):
            engine.functions.__wrapped__()


if __name__ == "__main__":
    unittest.main()
