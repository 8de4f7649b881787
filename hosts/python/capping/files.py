"""What the command reads and writes: the files of a folder or one of them, and a day in a file of its own."""
import contextlib
import os
import secrets
import shutil

from . import columns
from .day import Day

MOST_BYTES = 65536
NEW_FILE_MODE = 0o666


class TooLong(Exception):
    """A file has more bytes than it may have."""


class Unreadable(Exception):
    """A folder or a day that can't be made sense of."""


@contextlib.contextmanager
def naming(name):
    """Lets a failure tell of this file, whichever call it came from."""
    try:
        yield
    except OSError as error:
        raise OSError(error.errno, error.strerror, str(name)) from error


def read_folder(folder, files):
    """The bytes of these files of a folder, by what a study calls them; one that isn't there is empty."""
    if not folder.is_dir():
        raise Unreadable(f"{folder} isn't a folder")
    return {file: _read_or_empty(folder / columns.FILES[file].name) for file in files}


def _read_or_empty(path):
    try:
        return read_file(path)
    except FileNotFoundError:
        return b""


def read_file(path):
    """The bytes of a file of a study."""
    content = _read(path)
    if len(content) > MOST_BYTES:
        raise TooLong(f"refused: {path.name} is too long, a file may have {MOST_BYTES} bytes")
    return content


def _read(path):
    """The bytes of a file, or the first of them if it is too long."""
    with naming(path), path.open("rb") as file:
        return file.read(MOST_BYTES + 1)


def read_day(path):
    """The day whose words are the one line of a file. No day's words are too long for a file."""
    try:
        return Day.parse(without_end(_read(path)))
    except ValueError as error:
        raise Unreadable(f"{path} holds no day: {error}") from error


def without_end(line):
    """A line's text without its end, LF or CR LF, if it has one."""
    return line.decode("latin-1").removesuffix("\n").removesuffix("\r")


@contextlib.contextmanager
def replacing(path, day):
    """Puts a day into a file, whole, once the body has run through; if anything fails before, the file is as it was. A file
    that is replaced keeps its mode."""
    path = path.resolve()
    fresh = path.with_name(f".{path.name}.{secrets.token_hex(8)}")
    try:
        with naming(path):
            _write(fresh, f"{day}\n".encode())
            if path.exists():
                shutil.copymode(path, fresh)
        yield
        with naming(path):
            fresh.replace(path)
    except BaseException:
        fresh.unlink(missing_ok=True)
        raise
    _sync_folder(path.parent)


def _write(path, content):
    """Writes a new file, and waits until the disk has it."""
    with os.fdopen(os.open(path, os.O_WRONLY | os.O_CREAT | os.O_EXCL, NEW_FILE_MODE), "wb") as file:
        file.write(content)
        file.flush()
        os.fsync(file.fileno())


def _sync_folder(folder):
    """Waits until the disk has the folder's names. Not every file system can; the new file is in its place all the same."""
    with contextlib.suppress(OSError):
        opened = os.open(folder, os.O_RDONLY)
        try:
            os.fsync(opened)
        finally:
            os.close(opened)
