"""A day as words: `-` for a fresh one, else the hour (`n` for none), `;` and each running unit, as in 5;11:C:2,12:M:1.

An ill-formed day has words too, and they are read as they stand.
"""
from .numerals import number, quoted
from .view import KINDS, MOST_RUNNING, UNREAD, Running, View

FRESH = "-"
NO_HOUR = "n"
MOST_UNITS = 1000


def written(view):
    """The words of a day. Units that it counts and has no place for are written as it sees them, so that a day of too many
    units doesn't become a sound one by being written down."""
    if view.hour is None and view.count == 0:
        return FRESH
    unplaced = [UNREAD] * (min(view.count, MOST_UNITS) - len(view.running))
    units = ",".join(f"{unit}:{kind}:{schedule}" for unit, kind, schedule in (*view.running, *unplaced))
    return f"{NO_HOUR if view.hour is None else view.hour};{units}"


def read(words):
    """The view that words stand for; a ValueError says what is wrong with them."""
    if words == FRESH:
        return View(None, 0, ())
    hour, semicolon, units = words.partition(";")
    if not semicolon:
        raise ValueError(f"a day is - or HOUR;UNITS, and {quoted(words)} has no semicolon")
    hour = None if hour == NO_HOUR else number(hour, "an hour")
    units = [_unit(word) for word in units.split(",")] if units else []
    if len(units) > MOST_UNITS:
        raise ValueError(f"a day's words have at most {MOST_UNITS} units, and these have {len(units)}")
    return View(hour, len(units), tuple(units[:MOST_RUNNING]))


def _unit(word):
    parts = word.split(":")
    if len(parts) != len(Running._fields):
        raise ValueError(f"a running unit is UNIT:KIND:SCHEDULE, and {quoted(word)} isn't")
    unit, kind, schedule = parts
    if kind not in KINDS:
        raise ValueError(f"a kind is M or C, and {quoted(kind)} isn't")
    return Running(number(unit, "a unit"), kind, number(schedule, "a schedule"))
