"""The test of one supplier, fed one amount at a time. Assumes nothing of its cells; what those answer that no test was begun in is
left open."""
import functools

from .calls import lent_need, lent_to_test, tested
from .engine import FedCells, functions
from .kept import Kept


class FedTest(Kept):
    """The test of the supplier at `place`, counted from 0, against `need`, for totals that come as a stream: six numbers are kept,
    however many amounts come.

        fed = capping.FedTest(3, 2)
        fed.extend(totals)
        left, verdict = fed.ask()

    Any place will do: whether an amount has come for it is looked at when the test is asked. Threads may each use a test of their
    own at once.
    """

    __slots__ = ()
    _Cells = FedCells
    _WHAT = "a fed test"

    def __init__(self, place, need):
        self._cells = FedCells()
        functions().capping_fed_begin(self._cells, lent_to_test(place), lent_need(need))

    def feed(self, amount):
        """Gives the test one amount more. Nothing is refused here: a 33rd amount, or one above 10^12, is remembered whatever comes
        behind it, and told when the test is asked."""
        functions().capping_fed_feed(self._cells, lent_to_test(amount))

    def extend(self, amounts):
        """Feeds each of the amounts as it comes."""
        for amount in amounts:
            self.feed(amount)

    def ask(self):
        """What `capping.test` answers on the amounts fed so far: what is left, and P or F. The test stays as it is: it can be asked
        in between and fed on."""
        return tested(functools.partial(functions().capping_fed_ask, self._cells))

    def __repr__(self):
        return f"{type(self).__name__}.from_cells({self.cells})"
