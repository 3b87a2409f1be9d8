"""The fields of an event as perf and ftrace print them. Each byte of a text is looked at a fixed
number of times.
"""
import re

from .trace import to_signed

DIGITS = 20  # of a number of 64 bits
NUMBER = re.compile(r"-?\d{1,20}|-?0x[0-9a-f]{1,16}", re.ASCII)
HEXADECIMAL = re.compile(r"(?:0x)?([0-9a-f]{1,16})", re.ASCII)
ASSIGNED = re.compile(r"(?:(?<=\s)|^)(\w{1,80})=", re.ASCII)
TEXT_OR_COMMA = re.compile(r'"(?:[^"\\]|\\.)*(?:"|\\?$)|,')
UNIT = re.compile(r"\[[A-Za-z]{1,10}\]")


class Unreadable(Exception):
    """Fields that can't be told from the text. The event is one all the same."""


class BadEvent(Exception):
    """A line that isn't an event, or whose event can't be told."""


def integer(shown):
    """An integer in decimal or hexadecimal, as a signed one of 64 bits; none for all else."""
    if not NUMBER.fullmatch(shown):
        return None
    return to_signed(int(shown, 16 if "x" in shown else 10))


def hexadecimal(shown):
    """An integer in hexadecimal; older kernels write no 0x."""
    found = HEXADECIMAL.fullmatch(shown)
    return to_signed(int(found[1], 16)) if found else None


def read_assigned(shown):
    """The fields of 'NAME=VALUE NAME=VALUE', in their order, with the values as texts."""
    found = list(ASSIGNED.finditer(shown))
    names = [name[1] for name in found]
    if len(set(names)) < len(names):
        raise Unreadable("a field is there twice, as a name of a thread may have a '='")
    ends = [name.start() for name in found[1:]] + [len(shown)]
    return {name[1]: value_of(shown[name.end() : end]) for name, end in zip(found, ends)}


def value_of(shown):
    """A value without what comes between it and the next field."""
    shown = shown.strip()
    if shown.endswith("==>"):
        shown = shown[:-3].rstrip()
    shown = shown.rstrip(",")
    unit = shown.rfind("[")
    if unit > 0 and UNIT.fullmatch(shown, unit):
        return shown[:unit].rstrip()
    return shown


def read_named(shown):
    """The values of 'NAME: VALUE, NAME: VALUE', which are hexadecimal. A text after a value is left
    out.
    """
    start, values = 0, []
    pieces = [mark.start() for mark in TEXT_OR_COMMA.finditer(shown) if mark[0] == ","] + [
        len(shown)
    ]
    for end in pieces if shown.strip() else []:
        name, mark, value = shown[start:end].strip().partition(": ")
        start = end + 1
        if mark and name.replace("_", "a").isalnum():
            words = value.split(None, 1)
            values.append(hexadecimal(words[0]) if words else None)
    return values
