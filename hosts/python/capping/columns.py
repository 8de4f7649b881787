"""The files as documents 01 and 02 have them: the name of each, how many rows it may have, and its columns with their ranges.

The engine has its own table; this one is for telling people, and tests hold it to the engine.
"""
import re
import typing

NUMERAL = re.compile(rb"0|[1-9][0-9]*")
SIGNED = re.compile(rb"0|-?[1-9][0-9]*")
LETTER = re.compile(rb"[MC]")

HOW_WRITTEN = {
    NUMERAL: "in digits alone with no leading zero",
    SIGNED: "in digits with no leading zero, and with - in front if it is below 0",
}

# A field with more bytes than this is out of every range.
LONGEST_FIELD = 9


class Column(typing.NamedTuple):
    """A column: its name, its least and its largest number, what these count, and how they are written."""

    name: str
    minimum: int = 0
    maximum: int = 0
    measure: str = ""
    form: re.Pattern = NUMERAL

    def permits(self, field):
        """Whether the column may have this field, by its bytes without quotes around them."""
        if not self.form.fullmatch(field):
            return False
        return self.form is LETTER or (len(field) <= LONGEST_FIELD and self.minimum <= int(field) <= self.maximum)

    def permitted(self):
        """What the column may have, in plain words."""
        if self.form is LETTER:
            return "M or C"
        measure = f" ({self.measure})" if self.measure else ""
        return f"a whole number from {self.minimum} to {self.maximum}{measure}, {HOW_WRITTEN[self.form]}"


class File(typing.NamedTuple):
    """A file of a study: its name in the folder, how many rows it may have, and its columns."""

    name: str
    rows: str
    columns: typing.Tuple[Column, ...]

    def header(self):
        """The header record."""
        return ",".join(column.name for column in self.columns)


UNIT = Column("unit", 1, 9999)
SUPPLIER = Column("supplier", 1, 999)
SCHEDULE = Column("schedule", 1, 99)
HOUR = Column("hour", 0, 23)
ECOMIN = Column("ecomin", 0, 100000, "tenths of a MW")
HIGHEST_COST = 370000
PRICE = Column("price", 0, HIGHEST_COST, "cents per MWh")

CONSTRAINT = File(
    "constraint.csv",
    "exactly one",
    (HOUR, Column("relief", 1, 1000000, "tenths of a MW"), Column("cutoff", 1, 10000, "ten-thousandths")),
)
SUPPLY = File(
    "supply.csv",
    "at most 256",
    (
        UNIT,
        SUPPLIER,
        Column("mw", 1, 100000, "tenths of a MW"),
        Column("cost", 0, HIGHEST_COST, "cents per MWh"),
        Column("dfax", -10000, 10000, "ten-thousandths", SIGNED),
    ),
)
SCHEDULES = File(
    "schedules.csv",
    "at most 1024",
    (
        UNIT,
        SCHEDULE,
        Column("kind", form=LETTER),
        HOUR,
        ECOMIN,
        PRICE,
        Column("noload", 0, 100000000, "cents per hour"),
        Column("startup", 0, 100000000, "cents"),
        Column("minrun", 1, 24, "hours"),
    ),
)
CURVES = File("curves.csv", "at most 4096", (UNIT, SCHEDULE, HOUR, ECOMIN._replace(name="mw"), PRICE))
PARENTS = File("parents.csv", "at most 64", (SUPPLIER, SUPPLIER._replace(name="parent")))

FILES = {"constraint": CONSTRAINT, "supply": SUPPLY, "schedules": SCHEDULES, "curves": CURVES, "parents": PARENTS}
"""The files of a study in its order, by what a study calls them."""
CHECKED = ("constraint", "supply", "schedules")
"""Those of them that a check takes."""
