"""Values and rows: how they are read from CSV, compared, printed, and sent by their keys. A part of `many.py`.

A value is an int or bytes, a row a tuple of values. A record that is no row is a `Fault`, whose text says why.
"""
import csv
import functools
import io
import operator
import re

LEAST, GREATEST = -(1 << 63), (1 << 63) - 1
HOLDS = {"=": operator.eq, "!=": operator.ne, "<": operator.lt, "<=": operator.le, ">": operator.gt, ">=": operator.ge}
ESCAPES = {b'"': b'\\"', b"\\": b"\\\\", b"\n": b"\\n", b"\r": b"\\r"}


class Fault(str):
    """Why a record is no row: `width`, `int C` or `utf8 C`."""


def fits(number):
    """Whether a number has 64 bits."""
    return LEAST <= number <= GREATEST


def is_text(data):
    """Whether bytes are UTF-8."""
    try:
        data.decode("utf-8")
    except UnicodeDecodeError:
        return False
    return True


def read_int(field):
    """The number that a field of an int column has, or None."""
    if re.fullmatch(rb"[+-]?[0-9]+", field) and fits(int(field)):
        return int(field)
    return None


def typed(fields, columns):
    """A record as a row under the columns, or its fault."""
    if len(fields) != len(columns):
        return Fault("width")
    row = []
    for place, (field, (_, kind)) in enumerate(zip(fields, columns), 1):
        value = read_int(field) if kind == "int" else field
        if value is None:
            return Fault(f"int {place}")
        if kind == "text" and not is_text(field):
            return Fault(f"utf8 {place}")
        row.append(value)
    return tuple(row)


def records(data, columns):
    """The records of a scan's file after its first, each a row or a fault."""
    text = data.removeprefix(b"\xef\xbb\xbf").decode("latin-1")
    lines = csv.reader(io.StringIO(text, newline=""))
    them = [[field.encode("latin-1") for field in fields] for fields in lines if fields]
    if them[0] != [name.encode() for name, _ in columns]:
        raise ValueError("the file does not begin with the names of its columns")
    return [typed(fields, columns) for fields in them[1:]]


def field_text(value):
    """A value as a field of CSV, in quotes where it needs them."""
    if isinstance(value, int):
        return b"%d" % value
    if any(sign in value for sign in b',"\r\n'):
        return b'"' + value.replace(b'"', b'""') + b'"'
    return value


def row_text(row):
    """A row as a record of CSV, with its line's end."""
    line = b",".join(map(field_text, row))
    return (line if line or len(row) != 1 else b'""') + b"\n"


def word(value):
    """A constant or a name as it stands in a script and in replies."""
    if isinstance(value, int):
        return b"%d" % value
    if value and value[:1] != b"#" and all(0x21 <= byte <= 0x7E and byte != 0x22 for byte in value):
        return value
    signs = [value[place:place + 1] for place in range(len(value))]
    return b'"' + b"".join(ESCAPES.get(sign, sign) for sign in signs) + b'"'


def value_key(value):
    return b"i%d;" % value if isinstance(value, int) else b"t%d:%s;" % (len(value), value)


@functools.lru_cache(maxsize=100_000)
def hashed(key):
    """FNV-1a of 64 bits."""
    number = 14695981039346656037
    for byte in key:
        number = (number ^ byte) * 1099511628211 % (1 << 64)
    return number


def route(row, places, workers):
    """The place of the worker to which a row goes by the values at these places."""
    return hashed(b"".join(value_key(row[place]) for place in places)) % workers
