"""The offer capping engine as Python programs call it, so that a seller's script can check its files before it sends them.

    day = capping.Day.fresh()
    row = day.preview(constraint, supply, schedules, 14, curves=curves, parents=parents)
    answer = day.study(constraint, supply, schedules, curves=curves, parents=parents)
    tidy = capping.tidy("supply", supply)
    left, verdict = capping.test([4, 3, 2, 1], 3, 2)

Files are bytes, and so is what is handed back, but for a row, which is a `Row`. Without `curves` each schedule row has the price
of its column, and without `parents` no suppliers are affiliated. A `FedTest` is the test fed one amount at a time. What is refused
raises `Refused`. Nothing is kept but in a `Day` or a `FedTest`, so threads may call at the same time. `python3 -m capping --help`
is the same for people.
"""
from .calls import TEST_REFUSED, VERDICTS, check, study, test, tidy
from .day import Day
from .engine import DAY_CELLS, FED_CELLS, LONGEST_ANSWER, LONGEST_TIDY, MOST_64_BIT
from .fed import FedTest
from .refusal import FILES, MEANINGS, PLACE_IS_A_UNIT, PLACE_IS_THE_FILE, Refused
from .row import Row
from .view import Running

__all__ = ["DAY_CELLS", "FED_CELLS", "LONGEST_ANSWER", "LONGEST_TIDY"]
__all__ += ["Day", "FedTest", "Refused", "Row", "Running", "check", "study", "test", "tidy"]
