"""The records of a file, to be shown to people. What a file means is for the engine to say; here it is only cut up."""
import re
import typing

# A field of RFC 4180, quoted or not, with what ends it: text is printable ASCII without quote and comma.
FIELD = re.compile(rb'("(?:[ !#-~\r\n]|"")*"|[ !#-+\--~]*)(,|\r\n|\Z)')


class Record(typing.NamedTuple):
    """A record: its bytes as they stand in the file, without its line end, and its fields without their quotes."""

    raw: bytes
    fields: typing.Tuple[bytes, ...]


class NotCsv(Exception):
    """The first field that RFC 4180 doesn't allow: its record (the header is 0), its place in that (from 1), and the file
    from there on."""

    def __init__(self, record, field, rest):
        super().__init__(record, field, rest)
        self.record = record
        self.field = field
        self.rest = rest


def records(content):
    """The records of a file, its header first. A CR LF at the end starts no further one."""
    found, fields, start, at = [], [], 0, 0
    while True:
        match = FIELD.match(content, at)
        if match is None:
            raise NotCsv(len(found), len(fields) + 1, content[at:])
        fields.append(unquoted(match[1]))
        at = match.end()
        if match[2] == b",":
            continue
        found.append(Record(content[start : match.end(1)], tuple(fields)))
        if at == len(content):
            return found
        fields, start = [], at


def unquoted(field):
    return field[1:-1].replace(b'""', b'"') if field.startswith(b'"') else field
