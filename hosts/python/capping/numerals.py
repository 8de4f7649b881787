"""Numerals that people write: digits with no sign and no leading zero. A ValueError says what is wrong with any other word."""
import re

from .engine import MOST_64_BIT

NUMERAL = re.compile("0|[1-9][0-9]*")
MOST_DIGITS = len(str(MOST_64_BIT))
LONGEST_SHOWN = 60

# Read for a numeral with more digits than any 64-bit number has: no call takes it, whichever it is, and Python turns no more than
# some thousand digits into a number.
BEYOND = MOST_64_BIT + 1


def any_number(word, what):
    """The number that a numeral of any length stands for."""
    if not NUMERAL.fullmatch(word):
        raise ValueError(f"{what} is a numeral with no sign and no leading zero, and {quoted(word)} isn't")
    return _value(word)


def number(word, what):
    """The 64-bit number that a numeral stands for."""
    if not NUMERAL.fullmatch(word) or _value(word) > MOST_64_BIT:
        raise ValueError(f"{what} is a numeral below 2^64 with no sign and no leading zero, and {quoted(word)} isn't")
    return _value(word)


def quoted(word):
    """A word in quotes, and only the first of very many characters."""
    return repr(word if len(word) <= LONGEST_SHOWN else word[:LONGEST_SHOWN] + "..")


def _value(word):
    return int(word) if len(word) <= MOST_DIGITS else BEYOND
