"""The calls that need no day: the check, the study of a fresh day, the tidying of a file, and the test of one supplier."""
import ctypes
import functools

from .engine import LONGEST_ANSWER, LONGEST_TIDY, MOST_64_BIT, functions, lent, lent_number, written_by
from .refusal import FILE_NUMBERS, Refused

TEST_REFUSED = 11
VERDICTS = {0: "P", 1: "F"}

# What is lent for an amount or a place that isn't of 64 bits: as an amount it is above 10^12, and as a place past every list of at
# most 32, so that it is refused with 11 as the number itself would be.
OUT_OF_LIMITS = MOST_64_BIT


def check(constraint, supply, schedules):
    """Checks three files of a study, each as bytes: 0, or the number of the first refusal, 1 to 9, that a study of these three
    alone gives."""
    return functions().capping_check(*lent(constraint, supply, schedules))


def study(constraint, supply, schedules, room=LONGEST_ANSWER, *, curves=b"", parents=b""):
    """Studies the files, each as bytes, on a fresh day, and answers the answer file. `room` is how long a buffer is lent to it;
    the longest answer always fits. Without `curves` each schedule row has the price of its column, and without `parents` no
    suppliers are affiliated."""
    files = lent(constraint, supply, schedules, curves, parents)
    return written_by(functools.partial(functions().capping_study, *files), room)


def tidy(file, data, room=None):
    """Reads one file alone, "constraint", "supply" or "schedules" with its bytes, and hands it back tidy, as the engine
    understood it: unquoted, CR LF after each record, the header, then the rows in their order. `room` is how long a buffer is
    lent to it; without it, one that the longest tidy file fits."""
    if file not in LONGEST_TIDY:
        raise ValueError(f"{file!r} is none of the files that can be tidied: {', '.join(LONGEST_TIDY)}")
    call = functools.partial(functions().capping_tidy, FILE_NUMBERS[file], *lent(data))
    return written_by(call, LONGEST_TIDY[file] if room is None else room)


def test(amounts, place, need):
    """Tests the supplier at `place`, counted from 0: what is left without it and its two largest others, and P or F."""
    place, need = lent_to_test(place), lent_need(need)
    amounts = [lent_to_test(amount) for amount in amounts]
    run = (ctypes.c_uint64 * max(len(amounts), 1))(*amounts)
    return tested(functools.partial(functions().capping_test, run, len(amounts), place, need))


def lent_to_test(number):
    """An amount or a place as a test takes it."""
    return lent_number(number, OUT_OF_LIMITS)


def lent_need(need):
    """A need as a test takes it. No refusal speaks of one that isn't of 64 bits, so it is a wrong argument."""
    need = lent_number(need, beyond=None)
    if need is None:
        raise ValueError("the need is a 64-bit number")
    return need


def tested(call):
    """What a test answers: what is left, and P or F; `call` lacks only where to store what is left."""
    left = ctypes.c_uint64(0)
    answer = call(ctypes.byref(left))
    if answer == TEST_REFUSED:
        raise Refused(TEST_REFUSED)
    return left.value, VERDICTS[answer]
