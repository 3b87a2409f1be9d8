"""The tree of a script. Each construct has the line of its first token; an expression gets its type
from the checker."""
from dataclasses import dataclass

from .values import IntType


class Expression:
    """An expression. `of_type` is an IntType or TEXT, once it is checked."""

    of_type = None


@dataclass
class Number(Expression):
    line: int
    value: int
    suffix: str


@dataclass
class Text(Expression):
    line: int
    content: bytes


@dataclass
class Place(Expression):
    """What can be read or assigned: a plain word (space ""), or a variable of space "self" or
    "this".

    `keys` is None if there are no brackets."""

    line: int
    space: str
    name: str
    keys: list


@dataclass
class Unary(Expression):
    line: int
    operator: str
    operand: Expression


@dataclass
class Cast(Expression):
    line: int
    to: IntType
    operand: Expression


@dataclass
class Binary(Expression):
    line: int
    operator: str
    left: Expression
    right: Expression


@dataclass
class Choice(Expression):
    line: int
    condition: Expression
    yes: Expression
    no: Expression


@dataclass
class Assignment(Expression):
    """`operator` is the binary operator of `+=` and its kin, and "" for `=`."""

    line: int
    operator: str
    target: Place
    right: Expression


@dataclass
class Step(Expression):
    """`++` or `--`, by 1 or -1, before the target or after it."""

    line: int
    by: int
    is_before: bool
    target: Place


@dataclass
class Call(Expression):
    line: int
    name: str
    arguments: list


@dataclass
class Aggregation:
    """The statement `@name[keys] = function(arguments)`."""

    line: int
    name: bytes
    keys: list
    function: str
    arguments: list


@dataclass
class Declaration:
    """`keys` are the types between brackets, None if there are no brackets."""

    line: int
    space: str
    of_type: object
    name: str
    keys: list


@dataclass
class Clause:
    """A description is four patterns; `predicate` is None if there is none."""

    descriptions: list
    predicate: Expression
    statements: list
