"""A refusal in plain words for the person whose files were refused: what it means, where, and what should stand there.

Assumes that these are the files that were refused, so that they keep every rule that comes before.
"""
from . import columns, odds, refusal
from .records import NotCsv, records

PAGE = "docs/REFUSALS.md"
LONGEST_SHOWN = 120
LONGEST_DAY_SHOWN = 1000
MOST_UNITS = 64
MOST_SUPPLIERS = 32
MOST_POINTS = 10
HOUR_TOO_EARLY = 20
TOO_MANY_RUNNING = 22
OF_THE_DAY = range(20, 25)
NOT_IN_SUPPLY = 31
CURVE = ("unit", "schedule", "hour")
"""What the points of one curve have alike with each other and with their row in schedules."""


def explained(refused, files, day):
    """The lines that say why a study or a preview of the files on a day, a release from it, or the tidying of a file was refused.
    The bytes of the files are given by what a study calls them."""
    lines = []
    if refused.file != 0:
        lines += DETAILS[refused.number](Spot(files, refusal.FILES[refused.file], refused.place))
    if refused.number == HOUR_TOO_EARLY:
        lines.append(Spot(files, "constraint", place=1).line())
    if refused.number == TOO_MANY_RUNNING:
        lines.append(_crowd(Spot(files, "supply"), day))
    if refused.number in OF_THE_DAY:
        lines.append(f"the day: {shown(str(day).encode(), LONGEST_DAY_SHOWN)}")
    if refused.number == NOT_IN_SUPPLY:
        lines.append(_units_to_preview(Spot(files, "supply")))
    return framed(refused, lines)


def framed(refused, details):
    """The lines of a refusal: what it means, then these details of what was refused, then where to look."""
    first = f"refused with {refused.number}: {refused.meaning}"
    return [first, *details, f"{PAGE} says how to mend it, under {refused.number}"]


def shown(content, longest=LONGEST_SHOWN):
    """Bytes as they stand in a file, on one line: unusual ones escaped, and only the first of very many."""
    text = content[:longest].decode("latin-1").encode("unicode_escape").decode("ascii")
    rest = len(content) - longest
    return f"{text} .. and {counted(rest, 'byte')} more" if rest > 0 else text or "(blank)"


def counted(count, thing):
    return f"{count} {thing}" if count == 1 else f"{count} {thing}s"


class Spot:
    """Where a refusal points: a file, and a record of it or a unit."""

    def __init__(self, files, file, place=0):
        self._files = files
        self.file = columns.FILES[file]
        self.content = files[file]
        self.place = place

    def elsewhere(self, file):
        """The same for another file, by what a study calls it."""
        return Spot(self._files, file)

    def records(self):
        return records(self.content)

    def rows(self):
        """The fields of each record by their columns' names; the header's first."""
        names = [column.name for column in self.file.columns]
        return [dict(zip(names, record.fields)) for record in self.records()]

    def line(self):
        """The record as it stands."""
        return f"{self.file.name}, {self.record(self.place)}"

    def record(self, place):
        """A record of the file as it stands."""
        return f"record {place}: {shown(self.records()[place].raw)}"


def _record(spot):
    return [spot.line()]


def _unit(spot):
    return [f"{spot.file.name}, unit {spot.place}"]


def _not_csv(spot):
    try:
        spot.records()
    except NotCsv as found:
        return [f"{spot.file.name}, record {found.record}, goes wrong in field {found.field}: {shown(found.rest)}"]


def _misshapen(spot):
    if spot.content == b"":
        return [f"{spot.file.name} is empty or isn't there", f"its header should be: {spot.file.header()}"]
    if spot.place == 0:
        return [spot.line(), f"the header should be: {spot.file.header()}"]
    has = counted(len(spot.records()[spot.place].fields), "field")
    return [spot.line(), f"it has {has} and should have {len(spot.file.columns)}"]


def _out_of_range(spot):
    fields = zip(spot.file.columns, spot.records()[spot.place].fields)
    bad = ((at, column, field) for at, (column, field) in enumerate(fields, start=1) if not column.permits(field))
    at, column, field = next(bad)
    return [spot.line(), f"field {at}, {column.name}: {shown(field)}", f"it should be {column.permitted()}"]


def _row_count(spot):
    rows = counted(len(spot.records()) - 1, "row")
    return [f"{spot.file.name} has {rows} below its header and should have {spot.file.rows}"]


def _too_many(spot):
    rows = spot.rows()[1 : spot.place + 1]
    units, suppliers = (len({row[name] for row in rows}) for name in ("unit", "supplier"))
    return [
        spot.line(),
        f"with it there are {counted(units, 'unit')} (of at most {MOST_UNITS}) "
        f"and {counted(suppliers, 'supplier')} (of at most {MOST_SUPPLIERS})",
    ]


def _at_odds(spot):
    between = ODDS[spot.file.name]
    rows = spot.rows()
    all_odds = ((earlier, between(rows[spot.place], rows[earlier])) for earlier in range(1, spot.place))
    earlier, words = next(found for found in all_odds if found[1])
    text = shown(spot.records()[earlier].raw)
    return [spot.line(), f"at odds with record {earlier}, which has {words}: {text}"]


def _no_row(spot):
    point, schedules = spot.rows()[spot.place], spot.elsewhere("schedules")
    rows = [row for row in schedules.rows()[1:] if _alike(row, point, ("unit", "schedule"))]
    hours = ", ".join(map(str, sorted(int(row["hour"]) for row in rows)))
    whose = f"unit {point['unit'].decode()}, schedule {point['schedule'].decode()}"
    return [spot.line(), f"hours of {whose} in {schedules.file.name}: {hours or 'none'}"]


def _no_rise(spot):
    rows = spot.rows()
    point = rows[spot.place]
    earlier = [place for place in range(1, spot.place) if _alike(rows[place], point, CURVE)]
    before = earlier[-1]
    level = [name for name in ("mw", "price") if int(point[name]) <= int(rows[before][name])]
    lines = [spot.line()]
    if level:
        lines.append(f"it is no higher in {' and '.join(level)} than the point before, {spot.record(before)}")
    if len(earlier) >= MOST_POINTS:
        lines.append(f"with it there are {len(earlier) + 1} points of its curve (of at most {MOST_POINTS})")
    return lines


def _ends_low(spot):
    point, schedules = spot.rows()[spot.place], spot.elsewhere("schedules")
    rows = enumerate(schedules.rows())
    place, ecomin = next((place, row["ecomin"].decode()) for place, row in rows if _alike(row, point, CURVE))
    where = f"{schedules.file.name}, {schedules.record(place)}"
    return [spot.line(), f"the last mw of its curve should be at least ecomin, which is {ecomin} in {where}"]


def _alike(row, other, names):
    return all(row[name] == other[name] for name in names)


def _ring(spot):
    rows = spot.rows()
    parents = {row["supplier"]: row["parent"] for row in rows[1:]}
    start = rows[spot.place]["supplier"]
    chain = [start, parents[start]]
    while chain[-1] != start:
        chain.append(parents[chain[-1]])
    return [spot.line(), f"its chain comes back: {b' -> '.join(chain).decode()}"]


def _crowd(spot, day):
    running = {unit for unit, _, _ in day.running}
    further = _filed_units(spot) - running
    return f"units that run already: {len(running)}, further units in {spot.file.name}: {len(further)}"


def _units_to_preview(spot):
    units = ", ".join(map(str, sorted(_filed_units(spot))))
    return f"units in {spot.file.name}: {units or 'none'}"


def _filed_units(spot):
    return {int(row["unit"]) for row in spot.rows()[1:]}


ODDS = {
    columns.SUPPLY.name: odds.between_supply_rows,
    columns.SCHEDULES.name: odds.between_schedule_rows,
    columns.PARENTS.name: odds.between_parent_rows,
}

DETAILS = {
    1: _not_csv,
    2: _misshapen,
    3: _out_of_range,
    4: _row_count,
    5: _too_many,
    6: _at_odds,
    7: _record,
    8: _unit,
    9: _unit,
    21: _unit,
    32: _no_row,
    33: _no_rise,
    34: _ends_low,
    35: _at_odds,
    36: _ring,
}
