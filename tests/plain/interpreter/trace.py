"""From the bytes of a trace to its firings, or its first fault (docs/TRACE.md)."""
import re
from typing import NamedTuple

from .refusals import Refused

COLUMNS = "number,cpu,thread,pid,execname,time,provider,module,function,name".split(",") + [
    f"arg{i}" for i in range(10)
]
HEADER = [name.encode() for name in COLUMNS]
BYTE_ORDER_MARK = b"\xef\xbb\xbf"
MAX_ROWS, MAX_TEXT, MAX_DIGITS = 1_000_000, 255, 20
NO_HEADER, BAD_COLUMNS, BAD_NUMBER, BAD_ORDER, BAD_TEXT, RESERVED, TOO_MANY = range(1, 8)

# a field that begins with a quote: its quoted part, and what is between that and its end
QUOTED = re.compile(rb'"((?:[^"]|"")*)(?:"([^,\r\n]*)|\Z)')
PLAIN = re.compile(rb"[^,\r\n]*")
LINE_ENDS = re.compile(rb"[\r\n]*")


class Firing(NamedTuple):
    number: int
    cpu: int
    thread: int
    pid: int
    execname: bytes
    time: int
    provider: bytes
    module: bytes
    function: bytes
    name: bytes
    arguments: tuple


def read(trace):
    """The firings of a trace's bytes: BEGIN, one for each row, END."""
    rest = records(trace.removeprefix(BYTE_ORDER_MARK))
    if next(rest, None) != HEADER:
        raise Refused("Trace", NO_HEADER)
    rows, before = [], 0
    for row, fields in enumerate(rest, 1):
        if row > MAX_ROWS:
            raise Refused("Trace", TOO_MANY)
        rows.append(firing(row, fields, before))
        before = rows[-1].number
    first, last = (rows[0].time, rows[-1].time) if rows else (0, 0)
    return [end_point(0, first, b"BEGIN"), *rows, end_point(before + 1, last, b"END")]


def end_point(number, time, name):
    """The firing BEGIN or END, which is in no row."""
    return Firing(number, 0, 0, 0, b"dtrace", time, b"dtrace", b"", b"", name, (0,) * 10)


def records(trace):
    """The records of CSV, each a list of fields. Empty lines are none."""
    if b'"' not in trace:
        yield from (line.split(b",") for line in re.split(rb"[\r\n]+", trace) if line)
        return
    at = LINE_ENDS.match(trace).end()
    while at < len(trace):
        fields, at = record(trace, at)
        yield fields


def record(trace, at):
    """The record that begins here, and where the next one does."""
    fields = []
    while True:
        field, at = quoted_or_plain(trace, at)
        fields.append(field)
        if trace[at : at + 1] != b",":
            return fields, LINE_ENDS.match(trace, at).end()
        at += 1


def quoted_or_plain(trace, at):
    """The field that begins here, and where it ends."""
    quoted = QUOTED.match(trace, at)
    if quoted:
        return quoted[1].replace(b'""', b'"') + (quoted[2] or b""), quoted.end()
    plain = PLAIN.match(trace, at)
    return plain[0], plain.end()


def firing(row, fields, before):
    """The firing of a row, after one of this number."""
    if len(fields) != len(COLUMNS):
        raise Refused("Trace", BAD_COLUMNS, row=row)
    values = [value(row, column, field) for column, field in enumerate(fields, 1)]
    made = Firing(*values[:10], tuple(values[10:]))
    if made.provider == b"dtrace":
        raise Refused("Trace", RESERVED, row=row)
    if made.number <= before:
        raise Refused("Trace", BAD_ORDER, row=row)
    return made


RANGES = {
    1: (1, 2**62),
    2: (0, 2**31 - 1),
    3: (1, 2**31 - 1),
    4: (0, 2**31 - 1),
    6: (0, 2**64 - 1),
}
RANGES |= dict.fromkeys(range(11, 21), (-(2**63), 2**63 - 1))


def value(row, column, field):
    """What a field holds."""
    if column in RANGES:
        least, greatest = RANGES[column]
        found = number(field, is_argument=column > 10)
        if found is None or not least <= found <= greatest:
            raise Refused("Trace", BAD_NUMBER, row=row, column=column)
        return found
    if len(field) > MAX_TEXT or b"\0" in field or not is_utf8(field):
        raise Refused("Trace", BAD_TEXT, row=row, column=column)
    return field


def number(field, is_argument):
    """The number that a field spells, or None. Only an argument may be empty or have a minus."""
    if is_argument and not field:
        return 0
    has_minus = is_argument and field.startswith(b"-")
    digits = field[has_minus:]
    if not digits.isdigit() or len(digits.lstrip(b"0")) > MAX_DIGITS:
        return None
    found = int(digits.lstrip(b"0") or b"0")
    return -found if has_minus else found


def is_utf8(field):
    try:
        field.decode()
    except UnicodeDecodeError:
        return False
    return True
