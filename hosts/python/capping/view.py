"""What the cells of a day stand for. Any 64-bit numbers are such cells; the view is the engine's."""
import typing

# Where things stand: whether there is an hour, the hour, how many units run, then unit, kind and schedule of each place.
HAS_HOUR, HOUR, COUNT, PLACES = range(4)
PLACE_WIDTH = 3
MOST_RUNNING = 64

KINDS = ("M", "C")
LETTERS = {ord(kind): kind for kind in KINDS}


class Running(typing.NamedTuple):
    """A running unit: its number, the kind of its schedule, M or C, and the schedule's number."""

    unit: int
    kind: str
    schedule: int


class View(typing.NamedTuple):
    """A day's hour, or None, how many units it counts, and the running ones that it has a place for."""

    hour: typing.Optional[int]
    count: int
    running: typing.Tuple[Running, ...]


UNREAD = Running(0, "M", 0)
"""How a unit is seen whose kind is neither letter. No unit has the number 0, so such a day is ill-formed."""


def seen(cells):
    """The view of a day's cells."""
    count = cells[COUNT]
    places = range(PLACES, PLACES + PLACE_WIDTH * min(count, MOST_RUNNING), PLACE_WIDTH)
    running = tuple(_unit(*cells[at : at + PLACE_WIDTH]) for at in places)
    return View(cells[HOUR] if cells[HAS_HOUR] else None, count, running)


def _unit(unit, kind, schedule):
    return Running(unit, LETTERS[kind], schedule) if kind in LETTERS else UNREAD


def lay_down(view, cells):
    """Lays a view down in the cells of a fresh day."""
    if view.hour is not None:
        cells[HAS_HOUR], cells[HOUR] = 1, view.hour
    cells[COUNT] = view.count
    kept = [cell for unit, kind, schedule in view.running for cell in (unit, ord(kind), schedule)]
    cells[PLACES : PLACES + len(kept)] = kept
