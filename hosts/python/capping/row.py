"""A row of the answer file, as fields and as its text."""
import typing


class Row(typing.NamedTuple):
    """The row of a unit: its supplier with the verdict on it, U, P or F, and what is left without it; the schedule that the unit
    runs on, with kind, M or C, and cost. `str` gives the row as it stands in the answer file, without the line end."""

    unit: int
    supplier: int
    verdict: str
    left: int
    schedule: int
    kind: str
    cost: int

    def __str__(self):
        return ",".join(map(str, self))


HEADER = ",".join(Row._fields)
"""The header of the answer file, without the line end."""


def stored(cells):
    """The row that the engine stored in cells."""
    unit, supplier, verdict, left, schedule, kind, cost = cells
    return Row(unit, supplier, chr(verdict), left, schedule, chr(kind), cost)
