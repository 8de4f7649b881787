"""The amounts that a test is given on standard input, one numeral a line. Each goes on as it comes, and none is kept: however many
there are, what is known of them afterwards is only what to tell if they are refused."""
import os

from . import numerals
from .explain import counted, framed
from .files import Unreadable, naming, without_end

STANDARD_INPUT = 0
NAME = "standard input"
MOST_AMOUNTS = 32
MOST_AMOUNT = 10**12


class Given:
    """The amounts, to be gone through once."""

    def __init__(self):
        self._count = 0
        self._first_too_large = None

    def __iter__(self):
        with naming(NAME), os.fdopen(os.dup(STANDARD_INPUT), "rb") as lines:
            for line in lines:
                yield self._noted(without_end(line))

    def explained(self, refused, place):
        """The lines that say why a test of the supplier at a place of these amounts was refused."""
        details = []
        if self._count > MOST_AMOUNTS:
            details.append(f"there are {self._count} amounts (of at most {MOST_AMOUNTS})")
        if self._first_too_large is not None:
            details.append(f"{NAME}, line {self._first_too_large}: the amount is above 10^12")
        if place >= self._count:
            details.append(f"no amount stands at the place, counted from 0, among {counted(self._count, 'amount')}")
        return framed(refused, details)

    def _noted(self, word):
        """The amount of the next line."""
        self._count += 1
        try:
            amount = numerals.any_number(word, "an amount")
        except ValueError as error:
            raise Unreadable(f"{NAME}, line {self._count}: {error}") from error
        if amount > MOST_AMOUNT and self._first_too_large is None:
            self._first_too_large = self._count
        return amount
