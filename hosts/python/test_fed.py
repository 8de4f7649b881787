"""Cases of the test that is fed one amount at a time, each held beside the test of the whole list. What each must answer was worked
from documents 01 and 02."""
import copy
import itertools
import pickle
import random
import threading
import unittest

import capping
from capping import FedTest, engine
from starred import LARGEST, MOST_AMOUNT, Case

TOO_LARGE = MOST_AMOUNT + 1
MOST_AMOUNTS = 32

# Numbers that no 64 bits hold; cut to 64 bits, most of them would be good amounts and places.
NOT_OF_64_BITS = (-1, -(2**64), LARGEST + 1, LARGEST + 2, 2**128, 10**5000)


def fed(amounts, place, need):
    """A test that was given these amounts one by one."""
    test = FedTest(place, need)
    for amount in amounts:
        test.feed(amount)
    return test


def extended(amounts, place, need):
    """A test that was given these amounts by an iterable."""
    test = FedTest(place, need)
    test.extend(iter(amounts))
    return test


class FedCase(Case):
    def answers(self, amounts, place, need, answer):
        for test in (fed(amounts, place, need), extended(amounts, place, need)):
            self.asked(test, answer)
            self.asked(test, answer)
        self.assertEqual(capping.test(amounts, place, need), answer)

    def asked(self, test, answer):
        """Asks for an answer, None for a refusal; no cell changes."""
        before = test.cells
        if answer is None:
            self.refused(11, 0, 0, test.ask)
        else:
            self.assertEqual(test.ask(), answer)
        self.assertEqual(test.cells, before)

    def refuses(self, amounts, place):
        for need in (0, 1, LARGEST):
            self.asked(fed(amounts, place, need), None)
            self.asked(extended(amounts, place, need), None)
            self.refused(11, 0, 0, capping.test, amounts, place, need)


class Answers(FedCase):
    def test_verdicts(self):
        self.answers([4, 3, 2, 1], 3, 2, (2, "P"))
        self.answers([4, 3, 2, 1], 3, 3, (2, "F"))
        self.answers([5, 5], 0, 1, (0, "F"))
        self.answers([5], 0, 1, (0, "F"))
        self.answers([5], 0, 0, (0, "P"))
        self.answers([5, 5, 5, 5], 2, 5, (5, "P"))
        self.answers([5, 5, 5, 5], 2, 6, (5, "F"))

    def test_two_largest_in_any_order(self):
        for others in itertools.permutations((9, 5, 1)):
            for place in range(4):
                amounts = [*others[:place], 7, *others[place:]]
                self.answers(amounts, place, 1, (1, "P"))
                self.answers(amounts, place, 2, (1, "F"))
        self.answers([7, 9, 5], 0, 1, (0, "F"))
        self.answers([7, 5, 9], 0, 1, (0, "F"))

    def test_own_amount_is_the_largest(self):
        self.answers([9, 4, 3, 2], 0, 2, (2, "P"))
        self.answers([4, 9, 3, 2], 1, 2, (2, "P"))
        self.answers([4, 3, 2, 9], 3, 3, (2, "F"))

    def test_limits(self):
        left = 29 * MOST_AMOUNT
        self.answers([MOST_AMOUNT] * MOST_AMOUNTS, 31, left, (left, "P"))
        self.answers([MOST_AMOUNT] * MOST_AMOUNTS, 0, left + 1, (left, "F"))
        self.answers([MOST_AMOUNT] * 4, 1, LARGEST, (MOST_AMOUNT, "F"))
        self.answers([1, MOST_AMOUNT], 1, 0, (0, "P"))


class Refused(FedCase):
    def test_too_many(self):
        for count in (33, 257, 256 + MOST_AMOUNTS, 1000):
            self.refuses([1] * count, 0)
            self.refuses([0] * count, 0)
            self.refuses([1] * count, count - 1)
            self.refuses([1] * count, LARGEST)

    def test_too_large(self):
        self.refuses([1, TOO_LARGE], 0)
        self.refuses([1, TOO_LARGE], 1)
        for good in (1, 31, 300):
            self.refuses([TOO_LARGE] + [1] * good, 0)
            self.refuses([TOO_LARGE] + [1] * good, 1)

    def test_sums_that_would_wrap(self):
        for count in (1, 2, 3, 4, 5, MOST_AMOUNTS, 33, 257):
            self.refuses([LARGEST] * count, 0)
            self.refuses([2**63] * count, count - 1)
        self.refuses([0, 2**63, 2**63], 0)

    def test_no_such_place(self):
        self.refuses([], 0)
        self.refuses([4, 3], 3)
        for place in (4, 31, 32, 256, 2**32, 2**63, LARGEST):
            self.refuses([4, 3, 2, 1], place)
        self.refuses([1] * 31, 31)

    def test_not_of_64_bits(self):
        for number in NOT_OF_64_BITS:
            self.refuses([4, 3, 2, number], 3)
            self.refuses([4, 3, number, 1], 3)
            self.refuses([number, 4, 3, 2, 1], 4)
            self.refuses([4, 3, 2, 1], number)

    def test_words(self):
        told = self.refused(11, 0, 0, FedTest(0, 0).ask)
        self.assertEqual(told, "refusal 11: the test takes 1 to 32 amounts, each at most 10^12, and a place among them")


class InBetween(FedCase):
    def stages(self, place, need, stages):
        """Asks at once, and then behind each amount."""
        test = FedTest(place, need)
        self.asked(test, None)
        for amount, answer in stages:
            test.feed(amount)
            self.asked(test, answer)

    def test_asked(self):
        self.stages(3, 2, [(4, None), (3, None), (2, None), (1, (2, "P")), (5, (5, "P")), (TOO_LARGE, None), (1, None)])
        self.stages(1, 4, [(6, None), (2, (0, "F")), (5, (0, "F")), (3, (3, "F")), (1, (4, "P")), (9, (9, "P"))])

    def test_asked_behind_each_of_many(self):
        """Amounts of 1: all but the own and two others are left, until there are too many."""
        few = [(1, (max(count - 3, 0), "F")) for count in range(1, MOST_AMOUNTS)]
        self.stages(0, 29, [*few, (1, (29, "P")), *[(1, None)] * 300])

    def test_an_iterable_is_fed_as_it_comes(self):
        test = FedTest(3, 2)

        def totals():
            for amount in (4, 3, 2, 1):
                self.asked(test, None)
                yield amount

        test.extend(totals())
        self.asked(test, (2, "P"))
        test.extend(())
        test.extend({5: "a supplier's total"})
        self.asked(test, (5, "P"))
        test.extend(itertools.repeat(1, 10000))
        self.asked(test, None)

    def test_begun_anew(self):
        for cells in (fed([1] * 33, 0, 0).cells, fed([TOO_LARGE], 0, 0).cells, [LARGEST] * capping.FED_CELLS):
            used = engine.FedCells(*cells)
            engine.functions().capping_fed_begin(used, 3, 2)
            test = FedTest.from_cells(used)
            self.asked(test, None)
            test.extend([4, 3, 2, 1])
            self.asked(test, (2, "P"))


class Arguments(FedCase):
    def test_need(self):
        for need in NOT_OF_64_BITS:
            with self.assertRaisesRegex(ValueError, "^the need is a 64-bit number$"):
                FedTest(0, need)

    def test_by_name(self):
        test = FedTest(need=2, place=3)
        test.extend([4, 3, 2, 1])
        self.asked(test, (2, "P"))

    def test_no_number(self):
        test = fed([4, 3, 2, 1], 3, 2)
        for other in ("1", 1.0, None):
            for call in (test.feed, lambda number: FedTest(number, 0), lambda number: FedTest(0, number)):
                with self.assertRaises(TypeError):
                    call(other)
            with self.assertRaises(TypeError):
                test.extend([other])
        self.asked(test, (2, "P"))


class Value(FedCase):
    def test_copies_go_their_own_way(self):
        for copied in (copy.copy, copy.deepcopy, lambda test: pickle.loads(pickle.dumps(test))):
            test = fed([4, 3, 2], 3, 2)
            other = copied(test)
            other.feed(1)
            self.asked(other, (2, "P"))
            self.asked(test, None)

    def test_cells(self):
        test = fed([4, 3, 2], 3, 2)
        self.assertEqual(len(test.cells), capping.FED_CELLS)
        stored = FedTest.from_cells(list(test.cells))
        stored.feed(1)
        self.asked(stored, (2, "P"))
        self.assertEqual(repr(stored), f"FedTest.from_cells({stored.cells})")

    def test_no_cells(self):
        cells = FedTest(0, 0).cells
        for others in (cells[1:], (*cells, 0), (*cells[1:], -1), (*cells[1:], LARGEST + 1)):
            with self.assertRaisesRegex(ValueError, "^a fed test is 6 numbers of 64 bits$"):
                FedTest.from_cells(others)


class AnyCells(Case):
    """It is open what cells answer that no test was begun in, but it is an answer."""

    def answers(self, cells):
        test = FedTest.from_cells(cells)
        for amount in (0, 1, MOST_AMOUNT, TOO_LARGE, LARGEST, LARGEST):
            try:
                self.assertIn(test.ask()[1], ("P", "F"))
            except capping.Refused as refused:
                self.assertEqual(refused.number, 11)
            test.feed(amount)

    def test_edges(self):
        for cells in itertools.product((0, MOST_AMOUNTS, LARGEST), repeat=capping.FED_CELLS):
            self.answers(cells)

    def test_random(self):
        made = random.Random(1)
        for _ in range(1000):
            self.answers([made.getrandbits(made.randint(1, 64)) for _ in range(capping.FED_CELLS)])


class Threads(unittest.TestCase):
    def test_a_test_each(self):
        answers = []

        def work():
            answers.extend(fed([4, 3, 2, 1], 3, 2).ask() for _ in range(50))

        threads = [threading.Thread(target=work) for _ in range(4)]
        for thread in threads:
            thread.start()
        for thread in threads:
            thread.join()
        self.assertEqual(answers, [(2, "P")] * 200)


if __name__ == "__main__":
    unittest.main()
