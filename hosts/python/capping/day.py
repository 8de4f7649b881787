"""A day, which studies and releases move on and previews look at. Assumes nothing of its cells: the engine refuses an ill-formed
day with 24."""
import functools

from . import words
from .engine import LONGEST_ANSWER, DayCells, Report, RowCells, functions, lent, lent_number, refuse, written_by
from .kept import Kept
from .row import stored
from .view import lay_down, seen

# No unit has this number, so none is running under it, and no file has it.
NO_UNIT = 0


class Day(Kept):
    """A day: the hour of its last study, and the running units.

    A refused call raises `Refused` and leaves the day as it was. Threads may each use a day of their own at once. Days are
    equal that have the same hour and the same running units. `str` gives a day's words, as in 5;11:C:2,12:M:1, and `Day.parse`
    reads them: they are what to keep where a day outlives a program.
    """

    __slots__ = ()
    _Cells = DayCells
    _WHAT = "a day"

    def __init__(self):
        self._cells = DayCells()
        functions().capping_day_fresh(self._cells)

    @classmethod
    def fresh(cls):
        """A day before its first study."""
        return cls()

    @classmethod
    def parse(cls, text):
        """The day whose words these are; a ValueError says what is wrong with them."""
        day = cls()
        lay_down(words.read(text), day._cells)
        return day

    @property
    def hour(self):
        """The hour of the last accepted study, or None."""
        return seen(self._cells).hour

    @property
    def running(self):
        """The running units, each with unit, kind and schedule, at most 64, as the engine sees them."""
        return seen(self._cells).running

    def study(self, constraint, supply, schedules, room=LONGEST_ANSWER, *, curves=b"", parents=b""):
        """Studies the files, each as bytes, on this day, and answers the answer file. `room` is how long a buffer is lent to
        it; the longest answer always fits. Without `curves` each schedule row has the price of its column, and without
        `parents` no suppliers are affiliated."""
        files = lent(constraint, supply, schedules, curves, parents)
        cells = self._copied()
        answer = written_by(functools.partial(functions().capping_day_study, cells, *files), room)
        self._cells = cells
        return answer

    def preview(self, constraint, supply, schedules, unit, *, curves=b"", parents=b""):
        """Looks at the choice for one unit: the row that a study of the files on this day would answer for it, as fields. The
        day stays as it is. What that study is refused with, this is too, and else with 31 where the unit isn't in supply."""
        files = lent(constraint, supply, schedules, curves, parents)
        row, report = RowCells(), Report()
        functions().capping_preview(self._cells, *files, lent_number(unit, NO_UNIT), row, report)
        refuse(report)
        return stored(row)

    def release(self, unit):
        """Takes a running unit out, and changes nothing else."""
        cells, report = self._copied(), Report()
        functions().capping_day_release(cells, lent_number(unit, NO_UNIT), report)
        refuse(report)
        self._cells = cells

    def _copied(self):
        """Cells for a call to write into: whoever looks at the day meanwhile sees it before or after, never in between."""
        return DayCells.from_buffer_copy(self._cells)

    def __str__(self):
        return words.written(seen(self._cells))

    def __repr__(self):
        return f"{type(self).__name__}.parse({str(self)!r})"

    def __eq__(self, other):
        return seen(self._cells) == seen(other._cells) if isinstance(other, Day) else NotImplemented

    __hash__ = None
