"""What a well-typed script does over a trace (docs/MEANING.md, and docs/LANGUAGE.md, "What a script
does")."""
from dataclasses import dataclass, field
from functools import lru_cache

from . import formats, tree
from .values import COMPARISONS, LONG, MAX_TEXT, TEXT, DivideByZero, compare, operate

BUILT_INS = {
    "timestamp": lambda firing: firing.time,
    "cpu": lambda firing: firing.cpu,
    "pid": lambda firing: firing.pid,
    "tid": lambda firing: firing.thread,
    "execname": lambda firing: firing.execname,
    "probeprov": lambda firing: firing.provider,
    "probemod": lambda firing: firing.module,
    "probefunc": lambda firing: firing.function,
    "probename": lambda firing: firing.name,
}
BUILT_INS |= {
    f"arg{place}": lambda firing, place=place: firing.arguments[place] for place in range(10)
}


@dataclass
class Shown:
    """What a run makes: its texts in order, each with its firing's number; for each aggregation the
    arguments by key; the number and the status of the first firing that exited, None before an
    exit; how many firings were run."""

    texts: list = field(default_factory=list)
    arguments: dict = field(default_factory=dict)
    exited: tuple = None
    firings: int = 0

    @property
    def status(self):
        return self.exited[1] if self.exited else 0


def run(script, firings):
    """What a script makes of BEGIN, the rows and END. After the first firing that exits only END is
    left."""
    shown, threads = Shown(), {}
    for firing in firings:
        if shown.exited is None or firing is firings[-1]:
            fire(script, firing, threads.setdefault(firing.thread, {}), shown)
    return shown


def fire(script, firing, own, shown):
    """Runs each clause once for each of its descriptions that the firing's probe matches."""
    shown.firings += 1
    evaluation = Evaluation(firing, own)
    probe = (firing.provider, firing.module, firing.function, firing.name)
    for index, clause in enumerate(script.clauses, 1):
        for description in clause.descriptions:
            if fits(description, probe):
                run_clause(evaluation, index, clause, shown)


def fits(description, probe):
    """Whether each field of a probe matches its pattern."""
    return all(map(matches, description, probe))


@lru_cache(maxsize=4096)
def matches(pattern, text):
    """Whether a pattern matches a whole text. Each star takes as few bytes as it can; only the
    latest takes more."""
    if not pattern:
        return True
    at = place = 0
    star = None
    while place < len(text):
        if pattern[at : at + 1] == b"*":
            star, at = (at, place), at + 1
        elif at < len(pattern) and pattern[at] in (text[place], ord("?")):
            at, place = at + 1, place + 1
        elif star:
            star = (star[0], star[1] + 1)
            at, place = star[0] + 1, star[1]
        else:
            return False
    return not pattern[at:].strip(b"*")


def run_clause(evaluation, place, clause, shown):
    """One run of a clause. A fault puts its line in the place of the run's texts."""
    texts = []
    try:
        if clause.predicate is None or evaluation.value(clause.predicate):
            for statement in clause.statements:
                perform(evaluation, statement, texts, shown)
    except DivideByZero:
        texts = [
            b"error: firing %d clause %d: divide-by-zero\n" % (evaluation.firing.number, place)
        ]
    shown.texts += [(evaluation.firing.number, text) for text in texts]


def perform(evaluation, statement, texts, shown):
    """Does what a statement says."""
    if isinstance(statement, tree.Aggregation):
        contribute(evaluation, statement, shown)
    elif not isinstance(statement, tree.Call) or statement.name not in ACTIONS:
        evaluation.value(statement)
    else:
        ACTIONS[statement.name](evaluation, statement, texts, shown)


def contribute(evaluation, statement, shown):
    key = evaluation.key(statement.keys)
    values = [evaluation.value(argument) for argument in statement.arguments]
    entries = shown.arguments.setdefault(statement.name, {})
    entries.setdefault(key, []).append(LONG.wrap(values[0]) if values else 0)


def perform_trace(evaluation, call, texts, _):
    value = evaluation.value(call.arguments[0])
    texts.append((value if call.arguments[0].of_type is TEXT else b"%d" % value) + b"\n")


def perform_printf(evaluation, call, texts, _):
    first, *rest = call.arguments
    texts.append(
        formats.write_format(
            first.content, [(evaluation.value(argument), argument.of_type) for argument in rest]
        )
    )


def perform_exit(evaluation, call, _, shown):
    status = evaluation.value(call.arguments[0]) % 256
    if shown.exited is None:
        shown.exited = evaluation.firing.number, status


ACTIONS = {"trace": perform_trace, "printf": perform_printf, "exit": perform_exit}


class Evaluation:
    """Evaluates the expressions of one firing, over its clauses' variables and those of its
    thread."""

    def __init__(self, firing, own):
        self.firing = firing
        self.variables = {"self": own, "this": {}}

    def value(self, expression):
        """The value of an expression: a whole number of its type, or a text."""
        match expression:
            case tree.Number():
                return expression.value
            case tree.Text():
                return expression.content[:MAX_TEXT]
            case tree.Place(space=""):
                return BUILT_INS[expression.name](self.firing)
            case tree.Place():
                return self.get(expression, self.key(expression.keys))
            case tree.Unary():
                return self.unary(expression)
            case tree.Cast():
                return expression.to.wrap(self.value(expression.operand))
            case tree.Binary():
                return self.binary(expression)
            case tree.Choice():
                chosen = expression.yes if self.value(expression.condition) else expression.no
                return convert(self.value(chosen), expression.of_type)
            case tree.Assignment():
                return self.assign(expression)
            case tree.Step():
                return self.step(expression)
            case tree.Call():
                return self.call(expression)

    def key(self, keys):
        """The values of keys, integers as signed numbers of 64 bits."""
        return tuple(
            self.value(key) if key.of_type is TEXT else LONG.wrap(self.value(key))
            for key in keys or []
        )

    def get(self, place, key):
        unset = b"" if place.of_type is TEXT else 0
        return self.variables[place.space].get((place.name, key), unset)

    def store(self, place, key, value):
        value = convert(value, place.of_type)
        self.variables[place.space][place.name, key] = value
        return value

    def unary(self, unary):
        value = self.value(unary.operand)
        return unary.of_type.wrap(
            {"!": int(not value), "~": ~value, "-": -value, "+": value}[unary.operator]
        )

    def binary(self, binary):
        left = self.value(binary.left)
        if binary.operator == "&&":
            return int(left != 0 and self.value(binary.right) != 0)
        if binary.operator == "||":
            return int(left != 0 or self.value(binary.right) != 0)
        right = self.value(binary.right)
        if binary.operator == "^^":
            return int((left != 0) != (right != 0))
        operation = compare if binary.operator in COMPARISONS else operate
        return operation(binary.operator, left, binary.left.of_type, right, binary.right.of_type)

    def assign(self, assignment):
        target = assignment.target
        key = self.key(target.keys)
        if not assignment.operator:
            return self.store(target, key, self.value(assignment.right))
        old = self.get(target, key)
        right = self.value(assignment.right)
        return self.store(
            target,
            key,
            operate(assignment.operator, old, target.of_type, right, assignment.right.of_type),
        )

    def step(self, step):
        key = self.key(step.target.keys)
        old = self.get(step.target, key)
        new = self.store(step.target, key, old + step.by)
        return new if step.is_before else old

    def call(self, call):
        values = [self.value(argument) for argument in call.arguments]
        return len(values[0]) if call.name == "strlen" else b"".join(values)[:MAX_TEXT]


def convert(value, of_type):
    return value if of_type is TEXT else of_type.wrap(value)
