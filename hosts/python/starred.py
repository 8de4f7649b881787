"""What the tests share: the starred example of document 01 with its answers, and how a refusal is expected."""
import unittest

import capping

CONSTRAINT = b"hour,relief,cutoff\r\n"
SUPPLY = b"unit,supplier,mw,cost,dfax\r\n"
SCHEDULES = b"unit,schedule,kind,hour,ecomin,price,noload,startup,minrun\r\n"
CURVES = b"unit,schedule,hour,mw,price\r\n"
PARENTS = b"supplier,parent\r\n"
ANSWER = b"unit,supplier,verdict,left,schedule,kind,cost\r\n"
HOUR_5 = CONSTRAINT + b"5,1000,300\r\n"

STARRED_SUPPLY = SUPPLY + b"11,1,1000,3000,5000\r\n12,2,1000,3000,-5000\r\n13,3,1000,4000,5000\r\n14,4,2000,2000,200\r\n"
STARRED_SCHEDULES = (
    SCHEDULES
    + b"11,1,M,5,100,4000,50000,20000,1\r\n11,2,C,5,100,3000,50000,20000,1\r\n"
    + b"12,1,M,5,100,3300,0,0,1\r\n12,2,C,5,100,3000,0,0,1\r\n13,1,C,5,200,4000,0,1000,1\r\n"
    + b"14,1,M,5,100,5000,0,0,1\r\n14,2,C,5,100,2000,0,0,1\r\n"
)
STARRED = (HOUR_5, STARRED_SUPPLY, STARRED_SCHEDULES)
STARRED_BY_NAME = dict(zip(("constraint", "supply", "schedules"), STARRED))
STARRED_ANSWER = ANSWER + b"11,1,F,0,2,C,1030000\r\n12,2,F,0,1,M,330000\r\n13,3,F,0,1,C,890000\r\n14,4,F,5000000,1,M,500000\r\n"

# The same where any two of its suppliers are affiliated: unit 14's own group and two others are then all that supply.
AFFILIATED_ANSWER = STARRED_ANSWER.replace(b"14,4,F,5000000,", b"14,4,F,0,")

# A curve of unit 11's C schedule, and the answer with it: the first point at or above ecomin, 100, is the second, so the price is
# 2000 and capped 2200, and the cost 100 * 2200 + 10 * 50000 + 10 * 20000.
CURVE_11 = CURVES + b"11,2,5,50,1000\r\n11,2,5,100,2000\r\n"
CURVE_11_ANSWER = STARRED_ANSWER.replace(b"2,C,1030000", b"2,C,920000")

# The starred study again, with its units running: no startup is paid, and only the hour itself.
AGAIN_ANSWER = ANSWER + b"11,1,F,0,2,C,830000\r\n12,2,F,0,1,M,330000\r\n13,3,F,0,1,C,880000\r\n14,4,F,5000000,1,M,500000\r\n"
STARRED_DAY = "5;11:C:2,12:M:1,13:C:1,14:M:1"

# The largest number that a call takes, and the largest amount that a test takes.
LARGEST = 2**64 - 1
MOST_AMOUNT = 10**12


def quoted(content):
    """The same file with every field quoted, and without the last CR LF."""
    return b"\r\n".join(b'"' + record.replace(b",", b'","') + b'"' for record in content.splitlines())


def others(count):
    """A day of hour 5 with so many units running that the starred example doesn't have."""
    return "5;" + ",".join(f"{unit}:M:1" for unit in range(101, 101 + count))


class Case(unittest.TestCase):
    def refused(self, number, file, place, call, *arguments, **named):
        with self.assertRaises(capping.Refused) as raised:
            call(*arguments, **named)
        told = raised.exception
        self.assertEqual((told.number, told.file, told.place), (number, file, place))
        return str(told)


class DayCase(Case):
    def refused_unchanged(self, number, file, place, day, call, *arguments, **named):
        before = day.cells
        self.refused(number, file, place, call, *arguments, **named)
        self.assertEqual(day.cells, before)
