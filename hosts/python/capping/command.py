"""The command for people: checks and studies the files of a folder, or looks at one unit of theirs, keeps a day in a file, hands a
file back tidy, and tests one supplier on amounts that it is fed."""
import contextlib
import os
import sys

from . import columns, usage
from .amounts import Given
from .calls import tidy
from .day import Day
from .explain import explained
from .fed import FedTest
from .files import TooLong, Unreadable, naming, read_day, read_file, read_folder, replacing
from .refusal import Refused
from .row import HEADER

ANSWERED, REFUSED, UNUSABLE = 0, 1, 2
STANDARD_OUTPUT = 1


class Told(Exception):
    """A refusal, told in plain words."""


def main(arguments=None):
    """Runs the command, and answers its exit status."""
    asked = usage.read(arguments)
    try:
        COMMANDS[asked.command](asked)
    except (Told, TooLong) as refusal:
        return _say(REFUSED, refusal)
    except Unreadable as error:
        return _say(UNUSABLE, error)
    except OSError as error:
        return _say(UNUSABLE, f"{error.filename}: {error.strerror}" if error.strerror else error)
    return ANSWERED


def _say(status, words):
    print(words, file=sys.stderr)
    return status


def _check(asked):
    _studied(Day.fresh(), read_folder(asked.folder, columns.CHECKED))
    _print(b"nothing to refuse in constraint.csv, supply.csv and schedules.csv\n")


def _study(asked):
    day = _day_so_far(asked.day)
    answer = _studied(day, read_folder(asked.folder, columns.FILES))
    with contextlib.nullcontext() if asked.day is None else replacing(asked.day, day):
        _print(answer)


def _preview(asked):
    day = _day_so_far(asked.day)
    files = read_folder(asked.folder, columns.FILES)
    with _telling(explained, files, day):
        row = day.preview(**files, unit=asked.unit)
    _print(f"{HEADER}\r\n{row}\r\n".encode())


def _release(asked):
    day = read_day(asked.day)
    with _telling(explained, {}, day):
        day.release(asked.unit)
    with replacing(asked.day, day):
        pass


def _tidy(asked):
    content = read_file(asked.path)
    with _telling(explained, {asked.file: content}, Day.fresh()):
        tidied = tidy(asked.file, content)
    _print(tidied)


def _test(asked):
    fed, given = FedTest(asked.place, asked.need), Given()
    fed.extend(given)
    with _telling(given.explained, asked.place):
        left, verdict = fed.ask()
    _print(f"{left},{verdict}\n".encode())


COMMANDS = {"check": _check, "study": _study, "preview": _preview, "release": _release, "tidy": _tidy, "test": _test}


def _day_so_far(path):
    """The day in a file; a fresh one where no file is named, or it isn't there yet."""
    if path is None:
        return Day.fresh()
    try:
        return read_day(path)
    except FileNotFoundError:
        return Day.fresh()


def _studied(day, files):
    with _telling(explained, files, day):
        return day.study(**files)


@contextlib.contextmanager
def _telling(explanation, *given):
    """Lets a refusal be told in plain words: in the lines of an explanation of what was given."""
    try:
        yield
    except Refused as refused:
        raise Told("\n".join(explanation(refused, *given))) from refused


def _print(content):
    """Prints bytes as they are. That it went well is certain when it returns, which is before a day is replaced."""
    with naming("standard output"), os.fdopen(os.dup(STANDARD_OUTPUT), "wb") as out:
        out.write(content)
