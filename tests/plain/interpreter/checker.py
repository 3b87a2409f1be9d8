"""The types of a script, or its first fault (docs/LANGUAGE.md, "Well-typed scripts")."""
from dataclasses import dataclass
from typing import NamedTuple

from . import formats, registers, tree
from .refusals import Refused
from .values import COMPARISONS, INT, LONG, TEXT, UNSIGNED_LONG, common, constant_type, result_type

(
    GLOBAL_ASSIGNMENT,
    UNDECLARED,
    MISMATCH,
    KEYS,
    REDEFINED,
    BOUNDS,
    PRINTF,
    READ_ONLY,
    NO_REGISTER,
) = range(1, 10)

MAX_KEYS = 8
BUILT_INS = {f"arg{place}": LONG for place in range(10)} | {"timestamp": UNSIGNED_LONG}
BUILT_INS |= dict.fromkeys(["cpu", "pid", "tid"], INT)
BUILT_INS |= dict.fromkeys(["execname", "probeprov", "probemod", "probefunc", "probename"], TEXT)
FUNCTIONS = {"strlen": ([TEXT], UNSIGNED_LONG), "strjoin": ([TEXT, TEXT], TEXT)}
ACTIONS = ("trace", "printf", "exit")
# how many arguments an aggregating function takes
AGGREGATING = {"count": (0,), "lquantize": (3, 4)} | dict.fromkeys(
    ["sum", "min", "max", "avg", "quantize"], (1,)
)
LOGICAL = ("&&", "||", "^^")
BOUND = range(-(2**31), 2**31)
STEP = LEVELS = range(1, 65_536)


class LinearRange(NamedTuple):
    """The bounds and the step of lquantize's buckets."""

    lower: int
    upper: int
    step: int

    @property
    def levels(self):
        return (self.upper - self.lower) // self.step


@dataclass
class Variable:
    """What is known of a variable: the kinds of its keys (None for a scalar), and its type, None
    before it is known."""

    kinds: tuple
    of_type: object = None


class Aggregation(NamedTuple):
    """What is known of an aggregation: the kinds of its keys, its function, and the range of
    lquantize."""

    kinds: tuple
    function: str
    linear: LinearRange


@dataclass
class Script:
    """A well-typed script: its clauses, and its aggregations by name, in order of first
    appearance."""

    clauses: list
    aggregations: dict


def check(items):
    """The well-typed script that a tree is, or its first fault."""
    checker = Checker()
    for item in items:
        checker.item(item)
    clauses = [item for item in items if isinstance(item, tree.Clause)]
    return Script(clauses, checker.aggregations)


def refuse(number, construct):
    raise Refused("Type", number, line=construct.line)


def kinds_of(types):
    """For each type whether it is text: what keys have to agree in."""
    return tuple(found is TEXT for found in types)


def constant(expression):
    """The number that a constant spells, perhaps with a minus, or None."""
    if (
        isinstance(expression, tree.Unary)
        and expression.operator == "-"
        and isinstance(expression.operand, tree.Number)
    ):
        return -expression.operand.value
    return expression.value if isinstance(expression, tree.Number) else None


def linear_range(bounds):
    """The range that bounds and perhaps a step spell, or None if they spell none."""
    numbers = [constant(bound) for bound in bounds]
    if None in numbers:
        return None
    lower, upper, step = numbers if len(numbers) == 3 else [*numbers, 1]
    if lower not in BOUND or upper not in BOUND or step not in STEP:
        return None
    made = LinearRange(lower, upper, step)
    return made if lower < upper and made.levels in LEVELS else None


class Checker:
    """Goes once through a script, with what is known so far of its variables and aggregations."""

    def __init__(self):
        self.variables, self.aggregations = {}, {}

    def item(self, item):
        if isinstance(item, tree.Declaration):
            self.declaration(item)
            return
        if item.predicate:
            self.predicate(item.predicate)
        for statement in item.statements:
            self.statement(statement)

    def declaration(self, declaration):
        if (declaration.space, declaration.name) in self.variables:
            refuse(MISMATCH, declaration)
        if len(declaration.keys or []) > MAX_KEYS:
            refuse(KEYS, declaration)
        kinds = None if declaration.keys is None else kinds_of(declaration.keys)
        self.variables[declaration.space, declaration.name] = Variable(kinds, declaration.of_type)

    def predicate(self, predicate):
        if self.expression(predicate) is TEXT:
            refuse(MISMATCH, predicate)
        self.count_registers(predicate)

    def statement(self, statement):
        if isinstance(statement, tree.Aggregation):
            self.aggregation(statement)
        elif isinstance(statement, tree.Call) and statement.name in ACTIONS:
            self.action(statement)
        else:
            self.whole(statement)

    def whole(self, expression):
        """The type of an expression that isn't part of another."""
        found = self.expression(expression)
        self.count_registers(expression)
        return found

    def count_registers(self, expression):
        if registers.need(expression) > registers.MAX_NEED:
            refuse(NO_REGISTER, expression)

    def aggregation(self, statement):
        kinds = kinds_of([self.whole(key) for key in statement.keys])
        if statement.function not in AGGREGATING:
            refuse(UNDECLARED, statement)
        types = [self.whole(argument) for argument in statement.arguments]
        if len(types) not in AGGREGATING[statement.function] or TEXT in types:
            refuse(MISMATCH, statement)
        known = self.aggregations.get(statement.name)
        if len(kinds) > MAX_KEYS or (known and known.kinds != kinds):
            refuse(KEYS, statement)
        is_linear = statement.function == "lquantize"
        linear = linear_range(statement.arguments[1:]) if is_linear else None
        if known and (known.function, known.linear) != (statement.function, linear):
            refuse(REDEFINED, statement)
        if is_linear and not linear:
            refuse(BOUNDS, statement)
        self.aggregations[statement.name] = Aggregation(kinds, statement.function, linear)

    def action(self, call):
        types = [self.whole(argument) for argument in call.arguments]
        if call.name == "printf":
            self.printf(call, types)
        elif len(types) != 1 or (call.name == "exit" and types == [TEXT]):
            refuse(MISMATCH, call)

    def printf(self, call, types):
        first = call.arguments[0] if call.arguments else None
        pieces = formats.pieces(first.content) if isinstance(first, tree.Text) else None
        if pieces is None:
            refuse(PRINTF, call)
        if tuple(piece.takes_text for piece in formats.conversions(pieces)) != kinds_of(types[1:]):
            refuse(PRINTF, call)

    def expression(self, expression):
        """The type of an expression, which from now on has it. Each kind has a method of its
        name."""
        expression.of_type = getattr(self, type(expression).__name__.lower())(expression)
        return expression.of_type

    def number(self, number):
        return constant_type(number.value, number.suffix)

    def text(self, _):
        return TEXT

    def kinds_of_keys(self, place):
        return (
            None if place.keys is None else kinds_of([self.expression(key) for key in place.keys])
        )

    def place(self, place):
        """The type of what is read."""
        kinds = self.kinds_of_keys(place)
        if place.space:
            known = self.variables.get((place.space, place.name), Variable(None))
        else:
            known = Variable(None, BUILT_INS.get(place.name))
        if known.of_type is None:
            refuse(UNDECLARED, place)
        if known.kinds != kinds:
            refuse(KEYS, place)
        return known.of_type

    def target(self, place):
        """What is known of the variable that is assigned. Its first target fixes whether it has
        keys, and which."""
        kinds = self.kinds_of_keys(place)
        if not place.space:
            refuse(
                GLOBAL_ASSIGNMENT
                if place.name not in BUILT_INS
                else READ_ONLY
                if kinds is None
                else KEYS,
                place,
            )
        known = self.variables.setdefault((place.space, place.name), Variable(kinds))
        if known.kinds != kinds or len(kinds or ()) > MAX_KEYS:
            refuse(KEYS, place)
        return known

    def unary(self, unary):
        operand = self.expression(unary.operand)
        if operand is TEXT:
            refuse(MISMATCH, unary)
        return INT if unary.operator == "!" else operand.promote()

    def cast(self, cast):
        if self.expression(cast.operand) is TEXT:
            refuse(MISMATCH, cast)
        return cast.to

    def binary(self, binary):
        left, right = self.expression(binary.left), self.expression(binary.right)
        if binary.operator in COMPARISONS and left is right is TEXT:
            return INT
        if TEXT in (left, right):
            refuse(MISMATCH, binary)
        if binary.operator in COMPARISONS or binary.operator in LOGICAL:
            return INT
        return result_type(binary.operator, left, right)

    def choice(self, choice):
        condition, yes, no = (
            self.expression(part) for part in (choice.condition, choice.yes, choice.no)
        )
        if condition is TEXT or (yes is TEXT) != (no is TEXT):
            refuse(MISMATCH, choice)
        return TEXT if yes is TEXT else common(yes, no)

    def assignment(self, assignment):
        known = self.target(assignment.target)
        if assignment.operator and known.of_type is None:
            known.of_type = LONG
        right = self.expression(assignment.right)
        if known.of_type is None:
            known.of_type = right
        if (known.of_type is TEXT) != (right is TEXT) or (assignment.operator and right is TEXT):
            refuse(MISMATCH, assignment)
        assignment.target.of_type = known.of_type
        return known.of_type

    def step(self, step):
        known = self.target(step.target)
        if known.of_type is None:
            known.of_type = LONG
        if known.of_type is TEXT:
            refuse(MISMATCH, step)
        step.target.of_type = known.of_type
        return known.of_type

    def call(self, call):
        types = [self.expression(argument) for argument in call.arguments]
        if call.name in ACTIONS:
            refuse(MISMATCH, call)
        if call.name not in FUNCTIONS:
            refuse(UNDECLARED, call)
        parameters, result = FUNCTIONS[call.name]
        if types != parameters:
            refuse(MISMATCH, call)
        return result
