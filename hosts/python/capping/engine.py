"""The engine's own functions by ctypes, and what is lent to them.

They are in target/hosts-python/libcapping.so below the repository's root, which hosts/python/build links; it is loaded at the
first call. A call keeps nothing and lets other threads run meanwhile.
"""
import ctypes
import functools
import operator
import pathlib

from .refusal import Refused

SHARED_OBJECT = pathlib.Path(__file__).resolve().parents[3] / "target" / "hosts-python" / "libcapping.so"

LONGEST_ANSWER = 2799
"""How many bytes the longest answer file has."""

LONGEST_TIDY = {"constraint": 38, "supply": 7964, "schedules": 52284}
"""How many bytes the longest tidy file has, of each that can be handed back."""

DAY_CELLS = 195
"""How many 64-bit cells a day has."""

FED_CELLS = 6
"""How many 64-bit cells a test that is fed has."""

ROW_CELLS = 7
"""How many 64-bit cells a row of the answer file has."""

MOST_64_BIT = 2**64 - 1

DayCells = ctypes.c_uint64 * DAY_CELLS
FedCells = ctypes.c_uint64 * FED_CELLS
RowCells = ctypes.c_uint64 * ROW_CELLS
Report = ctypes.c_uint64 * 3


@functools.cache
def functions():
    """The functions, with the types of what they take and answer."""
    try:
        return _typed(ctypes.CDLL(str(SHARED_OBJECT)))
    except (OSError, AttributeError) as error:
        raise OSError(f"{error}; hosts/python/build links it anew") from error


def _typed(library):
    number, length = ctypes.c_uint64, ctypes.c_size_t
    file = [ctypes.c_char_p, length]
    check, files = file * 3, file * 5
    written = [ctypes.c_char_p, length, Report]
    study = [*files, *written]
    amounts = [ctypes.POINTER(number), length]
    left = ctypes.POINTER(number)
    for name, takes, answers in (
        ("capping_check", check, number),
        ("capping_study", study, number),
        ("capping_tidy", [number, *file, *written], number),
        ("capping_longest_tidy", [number], number),
        ("capping_test", [*amounts, number, number, left], number),
        ("capping_fed_begin", [FedCells, number, number], None),
        ("capping_fed_feed", [FedCells, number], None),
        ("capping_fed_ask", [FedCells, left], number),
        ("capping_day_fresh", [DayCells], None),
        ("capping_day_study", [DayCells, *study], number),
        ("capping_preview", [DayCells, *files, number, RowCells, Report], number),
        ("capping_day_release", [DayCells, number, Report], number),
    ):
        function = getattr(library, name)
        function.argtypes, function.restype = takes, answers
    return library


def lent(*files):
    """Each file as a pointer and a length."""
    held = [bytes(file) for file in files]
    return [part for file in held for part in (file, len(file))]


def lent_number(number, beyond):
    """A whole number as a call takes it; `beyond` is lent for one that isn't of 64 bits."""
    number = operator.index(number)
    return number if 0 <= number <= MOST_64_BIT else beyond


def written_by(call, room):
    """What a call writes into a buffer of so many bytes; `call` lacks only the buffer and the report."""
    if room < 0:
        raise ValueError("a buffer has no negative length")
    buffer = ctypes.create_string_buffer(max(room, 1))
    report = Report()
    count = call(buffer, room, report)
    refuse(report)
    return buffer.raw[:count]


def refuse(report):
    """Raises the refusal that a report tells of, if it tells of one."""
    number, file, place = report
    if number != 0:
        raise Refused(number, file, place)
