"""Formats of printf: what they spell, and what they write (docs/LANGUAGE.md, "trace and
printf")."""
import re
from functools import lru_cache
from typing import NamedTuple

PIECE = re.compile(rb"%%|%([-0]*)([1-9][0-9]*)?(?:hh|h|ll|l)?([diuxos])|([^%]+)", re.DOTALL)
MAX_WIDTH = 255


class Conversion(NamedTuple):
    """A conversion: its letter, its width (0 for none), and what fills the width."""

    letter: str
    width: int
    is_left: bool
    has_zeros: bool

    @property
    def takes_text(self):
        return self.letter == "s"

    def write(self, value, of_type):
        """The bytes that it writes for a value of a type."""
        if self.takes_text:
            return self.fill(b"", value)
        if self.letter in "di":
            return self.fill(b"-" if value < 0 else b"", b"%d" % abs(value))
        unsigned = value % 2**of_type.width
        return self.fill(b"", format(unsigned, {"u": "d"}.get(self.letter, self.letter)).encode())

    def fill(self, sign, rest):
        lacking = self.width - len(sign) - len(rest)
        if self.is_left:
            return sign + rest + b" " * lacking
        if self.has_zeros and not self.takes_text:
            return sign + b"0" * lacking + rest
        return b" " * lacking + sign + rest


@lru_cache(maxsize=None)
def pieces(text):
    """The pieces that a format spells, bytes and conversions, or None if it spells none."""
    found, at = [], 0
    while at < len(text):
        piece = PIECE.match(text, at)
        if not piece:
            return None
        flags, width, letter, plain = piece.groups()
        if letter:
            found.append(conversion(flags, width, letter))
        else:
            found.append(plain or b"%")
        at = piece.end()
    return None if None in found else found


def conversion(flags, width, letter):
    """A conversion, or None if it is too wide."""
    if width and (len(width) > 3 or int(width) > MAX_WIDTH):
        return None
    return Conversion(letter.decode(), int(width or 0), b"-" in flags, b"0" in flags)


def conversions(found):
    """The conversions among a format's pieces."""
    return [piece for piece in found if isinstance(piece, Conversion)]


def write_format(text, arguments):
    """What a format writes for its arguments, each a value and its type."""
    rest = iter(arguments)
    return b"".join(
        piece.write(*next(rest)) if isinstance(piece, Conversion) else piece
        for piece in pieces(text)
    )
