"""Refusals, and what their numbers say in plain words."""

FILES = {1: "constraint", 2: "supply", 3: "schedules", 4: "curves", 5: "parents"}
FILE_NUMBERS = {name: number for number, name in FILES.items()}
PLACE_IS_A_UNIT = (8, 9, 21)
PLACE_IS_THE_FILE = (1, 4)
MEANINGS = {
    1: "the file isn't CSV by RFC 4180",
    2: "the header differs, or a record has another number of fields",
    3: "a field is ill-formed or out of range",
    4: "the file has too many or too few rows",
    5: "there are more than 64 units or 32 suppliers",
    6: "a row contradicts an earlier one",
    7: "a schedule row is of a unit that isn't in supply",
    8: "a unit has no schedule",
    9: "a schedule lacks an hour that it needs",
    10: "the buffer is shorter than the answer",
    11: "the test takes 1 to 32 amounts, each at most 10^12, and a place among them",
    20: "the hour is earlier than the day's",
    21: "a unit that runs on cost has no cost-based schedule",
    22: "more than 64 units would run",
    23: "the unit to release isn't running",
    24: "the day is ill-formed",
    30: "the buffer is shorter than the tidy file",
    31: "the unit to preview isn't in supply",
    32: "a point of a curve has no row in schedules",
    33: "a curve doesn't rise from point to point, or has more than ten",
    34: "a curve ends below ecomin",
    35: "a supplier is given two parents",
    36: "a chain of parents returns to its start",
}


class Refused(Exception):
    """Why a call was refused: the number by documents 01 and 02, the file (1 constraint, 2 supply, 3 schedules, 4 curves,
    5 parents, 0 none) and the place in it, a record (the header is 0) or, for 8, 9 and 21, a unit's number."""

    def __init__(self, number, file=0, place=0):
        self.number = number
        self.file = file
        self.place = place
        self.meaning = MEANINGS[number]
        super().__init__(f"refusal {number}: {self.meaning}{self._where()}")

    def __reduce__(self):
        # An exception is pickled with its message alone unless it says otherwise; pools of processes pickle it.
        return type(self), (self.number, self.file, self.place)

    def _where(self):
        if self.file == 0:
            return ""
        name = FILES[self.file]
        if self.number in PLACE_IS_THE_FILE:
            return f" ({name})"
        kind = "unit" if self.number in PLACE_IS_A_UNIT else "record"
        return f" ({name}, {kind} {self.place})"
