"""Holds what the command knows of files to the engine: the table of columns, and how a file is cut into records and fields."""
import random
import unittest

import capping
from capping import columns
from capping.explain import explained
from capping.records import NotCsv, records
from capping.refusal import FILE_NUMBERS
from starred import CURVES, PARENTS, STARRED

FIELD_REFUSED = 3
SOUND = dict(zip(columns.FILES, (*STARRED, CURVES + b"11,2,5,100,2000\r\n", PARENTS + b"1,2\r\n")))
FIELDS = (b"", b"0", b"1", b"-1", b"-0", b"-01", b"+1", b"01", b" 1", b"1.0", b"9" * 5000, b"M", b"C", b"m", b"MC", b"X")
COLUMNS = [(file, at, column) for file, table in columns.FILES.items() for at, column in enumerate(table.columns)]

SEED, MADE_FILES, MOST_PIECES = 20, 400, 12
HEADER, ROW = b"hour,relief,cutoff\r\n", b"5,1000,300\r\n"
PIECES = (HEADER, ROW, b'"hour"', b"5", b" ", b"~", b",", b'"', b'""', b'"\n,"', b"\r\n")
BAD_PIECES = (b"\r", b"\n", b"\t", b"\x00", b"\x7f", b"\x80", b"\xef\xbb\xbf", b'"\t"', b'"\x80"')


def with_field(file, at, field):
    """The sound files, with one field of the first row of a file replaced."""
    header, row, *rest = SOUND[file].split(b"\r\n")
    fields = row.split(b",")
    fields[at] = field
    return {**SOUND, file: b"\r\n".join([header, b",".join(fields), *rest])}


def numeral(number):
    return str(number).encode()


def refusal(files):
    """The refusal of a study, or None."""
    try:
        capping.study(**files)
    except capping.Refused as refused:
        return refused
    return None


def field_refused(files):
    """Whether a study is refused for a field."""
    refused = refusal(files)
    return refused is not None and refused.number == FIELD_REFUSED


class Columns(unittest.TestCase):
    def test_headers(self):
        for file, table in columns.FILES.items():
            self.assertEqual(table.header().encode(), SOUND[file].split(b"\r\n")[0])

    def test_ranges(self):
        for file, at, column in COLUMNS:
            if column.form is columns.LETTER:
                continue
            for edge in (column.minimum, column.maximum):
                self.assertFalse(field_refused(with_field(file, at, numeral(edge))), column)
            for edge in (column.minimum - 1, column.maximum + 1):
                self.assertTrue(field_refused(with_field(file, at, numeral(edge))), column)

    def test_permitted_as_by_the_engine(self):
        for file, at, column in COLUMNS:
            edges = (column.minimum - 1, column.minimum, column.maximum, column.maximum + 1)
            for field in (*FIELDS, *map(numeral, edges)):
                self.assertEqual(column.permits(field), not field_refused(with_field(file, at, field)), (column, field))

    def test_the_very_column_is_named(self):
        for file, at, column in COLUMNS:
            for field in (b"x", numeral(column.maximum + 1)):
                files = with_field(file, at, field)
                refused = refusal(files)
                self.assertEqual((refused.number, refused.file, refused.place), (FIELD_REFUSED, FILE_NUMBERS[file], 1))
                named = explained(refused, files, capping.Day())[2]
                self.assertEqual(named, f"field {at + 1}, {column.name}: {field.decode()}")


class Records(unittest.TestCase):
    def shape(self, content):
        """Number and place of the refusal that a constraint file's records earn for their shape, or None."""
        try:
            header, *rows = records(content)
        except NotCsv:
            return 1, 0
        names = tuple(column.name.encode() for column in columns.CONSTRAINT.columns)
        if header.fields != names:
            return 2, 0
        return next(((2, place) for place, row in enumerate(rows, start=1) if len(row.fields) != len(names)), None)

    def test_cut_as_by_the_engine(self):
        made = random.Random(SEED)
        seen = set()
        for _ in range(MADE_FILES):
            pieces = made.choices(PIECES + BAD_PIECES * made.randrange(2), k=made.randrange(MOST_PIECES))
            content = HEADER * made.randrange(2) + b"".join(pieces)
            refused = refusal({**SOUND, "constraint": content, "supply": b""})
            shape = (refused.number, refused.place) if refused.file == 1 and refused.number in (1, 2) else None
            self.assertEqual(self.shape(content), shape, content)
            seen.add(shape)
        self.assertLessEqual({(1, 0), (2, 0), (2, 1), None}, seen)

    def test_raw_and_unquoted(self):
        first, second = records(b'a,"b,""c""\r\n",\r\n"",d')
        self.assertEqual((first.raw, first.fields), (b'a,"b,""c""\r\n",', (b"a", b'b,"c"\r\n', b"")))
        self.assertEqual((second.raw, second.fields), (b'"",d', (b"", b"d")))


if __name__ == "__main__":
    unittest.main()
