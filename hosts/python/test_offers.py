"""Cases of costs and prices above 2,000 dollars, where the capped offer is the cost alone. What each must answer was worked from
documents 01 and 02."""
import unittest

import capping
from starred import AFFILIATED_ANSWER, CURVES, HOUR_5, STARRED, STARRED_ANSWER, STARRED_SCHEDULES, STARRED_SUPPLY, Case

# Prices of unit 13, which has a C schedule alone, with an ecomin of 200 and a startup of 1000; and the cost of each.
COSTS = ((195000, 40010000), (200000, 40010000), (200001, 40010200), (370000, 74010000))


def price_13(price):
    """The starred files with another price of unit 13."""
    return HOUR_5, STARRED_SUPPLY, STARRED_SCHEDULES.replace(b"13,1,C,5,200,4000,", b"13,1,C,5,200,%d," % price)


def price_14(price):
    """The starred files with another price of unit 14's market-based schedule."""
    return HOUR_5, STARRED_SUPPLY, STARRED_SCHEDULES.replace(b"14,1,M,5,100,5000,", b"14,1,M,5,100,%d," % price)


def cost_13(cost):
    """The starred files where units 11 and 12 clear at 200001, and unit 13 has another cost."""
    supply = STARRED_SUPPLY.replace(b",1000,3000,", b",1000,200001,").replace(b"13,3,1000,4000,", b"13,3,1000,%d," % cost)
    return HOUR_5, supply, STARRED_SCHEDULES


def answer_at(cost):
    """The starred answer with another cost of unit 13."""
    return STARRED_ANSWER.replace(b"890000", b"%d" % cost)


class Offers(Case):
    def test_cost_based(self):
        for price, cost in COSTS:
            self.assertEqual(capping.study(*price_13(price)), answer_at(cost))
            self.assertEqual(capping.Day().preview(*price_13(price), 13).cost, cost)
        words = self.refused(3, 3, 5, capping.study, *price_13(370001))
        self.assertEqual(words, "refusal 3: a field is ill-formed or out of range (schedules, record 5)")

    def test_market_based(self):
        for price, cost in ((200001, 20000100), (370000, 37000000)):
            answer = STARRED_ANSWER.replace(b"1,M,500000", b"1,M,%d" % cost)
            self.assertEqual(capping.study(*price_14(price)), answer)
        self.refused(3, 3, 6, capping.study, *price_14(370001))

    def test_curve(self):
        for price, cost in COSTS:
            curves = CURVES + b"13,1,5,200,%d\r\n" % price
            self.assertEqual(capping.study(*STARRED, curves=curves), answer_at(cost))
        self.refused(3, 4, 1, capping.study, *STARRED, curves=CURVES + b"13,1,5,200,370001\r\n")

    def test_market(self):
        """Where unit 13 isn't relevant, what the others supply is all that a removal takes away: nothing is left for unit 14."""
        self.assertEqual(capping.study(*cost_13(300001)), STARRED_ANSWER)
        for cost in (300002, 370000):
            self.assertEqual(capping.study(*cost_13(cost)), AFFILIATED_ANSWER)
        self.refused(3, 2, 3, capping.study, *cost_13(370001))


if __name__ == "__main__":
    unittest.main()
