"""Types and arithmetic (docs/LANGUAGE.md, "Types and arithmetic"). An integer is the whole number
that it stands for."""
from typing import NamedTuple

TEXT = "text"
MAX_TEXT = 255


class IntType(NamedTuple):
    """A type of integers: its width in bits, and whether it has a sign."""

    width: int
    is_signed: bool

    def wrap(self, number):
        """The one number of the type that equals a number modulo 2^width."""
        rest = number % 2**self.width
        return rest - 2**self.width if self.is_signed and rest >= 2 ** (self.width - 1) else rest

    def promote(self):
        return INT if self.width < 32 else self


INT, UNSIGNED = IntType(32, True), IntType(32, False)
LONG, UNSIGNED_LONG = IntType(64, True), IntType(64, False)
RANKS = [INT, UNSIGNED, LONG, UNSIGNED_LONG]


class DivideByZero(Exception):
    """A division or remainder by zero."""


def common(a, b):
    """The type in which an operator joins operands of two types."""
    return max(a.promote(), b.promote(), key=RANKS.index)


def constant_type(value, suffix):
    """The type of a constant by its value and suffix."""
    has_long = "l" in suffix
    if value < 2**31 and not has_long:
        plain = INT
    else:
        plain = LONG if value < 2**63 else UNSIGNED_LONG
    return IntType(plain.width, False) if "u" in suffix else plain


def quotient(a, b):
    """The quotient cut toward zero."""
    if b == 0:
        raise DivideByZero
    return abs(a) // abs(b) * (1 if (a < 0) == (b < 0) else -1)


ARITHMETIC = {
    "+": lambda a, b: a + b,
    "-": lambda a, b: a - b,
    "*": lambda a, b: a * b,
    "/": quotient,
    "%": lambda a, b: a - b * quotient(a, b),
    "&": lambda a, b: a & b,
    "|": lambda a, b: a | b,
    "^": lambda a, b: a ^ b,
}
SHIFTS = {"<<": lambda a, count: a << count, ">>": lambda a, count: a >> count}
COMPARISONS = {
    "==": lambda a, b: a == b,
    "!=": lambda a, b: a != b,
    "<": lambda a, b: a < b,
    "<=": lambda a, b: a <= b,
    ">": lambda a, b: a > b,
    ">=": lambda a, b: a >= b,
}


def result_type(operator, left, right):
    """The type of an arithmetic operator or shift between integers of two types."""
    return left.promote() if operator in SHIFTS else common(left, right)


def operate(operator, left, left_type, right, right_type):
    """The value of an arithmetic operator or shift."""
    to = result_type(operator, left_type, right_type)
    if operator in SHIFTS:
        return to.wrap(SHIFTS[operator](left, right % to.width))
    return to.wrap(ARITHMETIC[operator](to.wrap(left), to.wrap(right)))


def compare(operator, left, left_type, right, right_type):
    """1 if a comparison of two integers or two texts holds, else 0."""
    if left_type is not TEXT:
        to = common(left_type, right_type)
        left, right = to.wrap(left), to.wrap(right)
    return int(COMPARISONS[operator](left, right))
