"""The command's arguments, and what --help says of them."""
import argparse
import pathlib

from . import columns, numerals
from .engine import LONGEST_TIDY

FOLDER = """
FOLDER holds constraint.csv, supply.csv and schedules.csv, each of at most
64 KiB; one that isn't there counts as empty.
"""
BESIDE = """
A study and a preview read curves.csv and parents.csv too where FOLDER has them,
with the same limit: the points of offer curves, and the suppliers that are
affiliated. A check takes the three files alone.
"""
PREVIEW = """
A preview prints the header of the answer file and the row of UNIT, as a study
would now print them, and is refused where that study is. Nothing is moved: the
FILE of --day is only read.
"""
TIDY = """
A tidy file is as the engine understood it: no quotes, CR LF after each record,
the header, then the rows in their order. So diff shows where the engine reads
otherwise than a script wrote. The FILE to tidy has at most 64 KiB and is read
alone, as the constraint.csv, supply.csv or schedules.csv that its name or --as
says it is; a refusal calls it so.
"""
TEST = """
A test reads amounts from standard input, one numeral a line and one amount for
each supplier, and prints what is left without the supplier at PLACE and its two
largest others, and P where that is at least NEED, else F, as in 2,P. PLACE
counts from 0. Each amount is taken as it comes and none is kept, so totals can
be piped in, however many; above 32 of them the test is refused.
"""
DAY = """
The FILE of --day holds a day on one line: the hour of its last study (n for
none), a semicolon, and the running units with kind and schedule, as in
5;11:C:2,12:M:1. A fresh day is the line -. FILE is written whole or not at
all, and a refusal leaves it as it was. Use it from one command at a time.
"""
REFUSALS = """
A refusal is told on standard error: its number and what it means, the file,
the record and what should stand there. docs/REFUSALS.md says how to mend it.

exit status:
  0  there is an answer, or nothing to refuse
  1  refused
  2  wrong usage, or a file, a day or a line of amounts that can't be read
     or written
"""
DESCRIPTION = "Runs the offer capping engine on the files of a folder, on one of them, or on amounts."
BY_NAME = {columns.FILES[file].name: file for file in LONGEST_TIDY}
LAYOUT = {"formatter_class": argparse.RawDescriptionHelpFormatter, "allow_abbrev": False}


def read(arguments):
    """What is asked: the name of a command with its folder, day and unit, or with a path and which file it is, or with a place and
    a need. Wrong usage and --help end the program."""
    epilog = FOLDER + BESIDE + PREVIEW + DAY + TIDY + TEST + REFUSALS
    parser = argparse.ArgumentParser(prog="python3 -m capping", description=DESCRIPTION, epilog=epilog, **LAYOUT)
    commands = parser.add_subparsers(dest="command", metavar="COMMAND", required=True)
    _check(commands)
    _study(commands)
    _preview(commands)
    _release(commands)
    tidy = _tidy(commands)
    _test(commands)
    asked = parser.parse_args(arguments)
    if asked.command == "tidy" and asked.file is None:
        asked.file = _file_by_name(asked.path, tidy)
    return asked


def _check(commands):
    does = "check constraint, supply and schedules of a folder"
    command = commands.add_parser("check", help=does, description=does, epilog=FOLDER + BESIDE + REFUSALS, **LAYOUT)
    _takes_folder(command)


def _study(commands):
    does = "study the files of a folder, and print the answer file"
    epilog = FOLDER + BESIDE + DAY + REFUSALS
    command = commands.add_parser("study", help=does, description=does, epilog=epilog, **LAYOUT)
    _takes_folder(command)
    _takes_day(command, "the day to study on and to move on; fresh if FILE isn't there. Without it, a fresh day")


def _preview(commands):
    does = "look at the row that a study would answer for one unit"
    epilog = FOLDER + BESIDE + PREVIEW + DAY + REFUSALS
    command = commands.add_parser("preview", help=does, description=does, epilog=epilog, **LAYOUT)
    _takes_unit(command)
    _takes_folder(command)
    _takes_day(command, "the day that a study would be on; fresh if FILE isn't there. Without it, a fresh day")


def _release(commands):
    does = "release a running unit from a day"
    command = commands.add_parser("release", help=does, description=does, epilog=DAY + REFUSALS, **LAYOUT)
    _takes_unit(command)
    _takes_day(command, "the day that it runs in; FILE must be there", required=True)


def _tidy(commands):
    does = "print a constraint, supply or schedules file tidy"
    command = commands.add_parser("tidy", help=does, description=does, epilog=TIDY + REFUSALS, **LAYOUT)
    command.add_argument("path", metavar="FILE", type=pathlib.Path, help="the file to read")
    command.add_argument("--as", dest="file", choices=LONGEST_TIDY, help="which file it is, whatever its name")
    return command


def _test(commands):
    does = "test one supplier on amounts from standard input"
    command = commands.add_parser("test", help=does, description=does, epilog=TEST + REFUSALS, **LAYOUT)
    place = _by(numerals.any_number, "a place")
    command.add_argument("place", metavar="PLACE", type=place, help="which amount is the supplier's own, from 0")
    command.add_argument("need", metavar="NEED", type=_by(numerals.number, "a need"), help="what has to be left")


def _file_by_name(path, command):
    if path.name not in BY_NAME:
        command.error(f"{path} has none of the names {', '.join(BY_NAME)}: say with --as which file it is")
    return BY_NAME[path.name]


def _takes_folder(command):
    command.add_argument("folder", metavar="FOLDER", type=pathlib.Path, help="where the files are")


def _takes_unit(command):
    unit = _by(numerals.any_number, "a unit's number")
    command.add_argument("unit", metavar="UNIT", type=unit, help="the unit's number")


def _takes_day(command, words, required=False):
    command.add_argument("--day", metavar="FILE", type=pathlib.Path, required=required, help=words)


def _by(reading, what):
    """How an argument of a kind is read; wrong usage tells what is wrong with it."""

    def read_argument(word):
        try:
            return reading(word, what)
        except ValueError as error:
            raise argparse.ArgumentTypeError(str(error)) from error

    return read_argument
