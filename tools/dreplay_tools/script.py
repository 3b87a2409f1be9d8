"""What a script in D has: its clauses with their descriptions, its variables, its aggregations.
Read from its tokens.
"""
from dataclasses import dataclass, field

from .ends import Failure
from .tokens import ASSIGNING, MAX_BYTES, MAX_IN_A_ROW, PREDICATE, decode, join, tokens, value

TEXT_BUILTINS = {"execname", "probeprov", "probemod", "probefunc", "probename"}
HISTOGRAMS = {"quantize", "lquantize"}
FUNCTIONS = {"count", "sum", "min", "max", "avg"} | HISTOGRAMS
OPENS, CLOSES = {"(", "["}, {")", "]"}


@dataclass
class Aggregation:
    """An aggregation as a script has it: its name, its keys and its function with the arguments, as
    they are written.
    """

    name: str
    keys: list
    texts: tuple  # for each key whether it is a text
    function: str
    args: list

    @property
    def title(self):
        return "@" + self.name

    @property
    def value_name(self):
        return f"{self.function}({', '.join(self.args)})" if self.args else self.function

    @property
    def is_histogram(self):
        return self.function in HISTOGRAMS

    @property
    def range(self):
        """The lower bound, the upper one and the step of an lquantize."""
        numbers = [number(arg) for arg in self.args[1:4]]
        lower, upper, step = [*numbers, *[0, 0, 1][len(numbers) :]]
        return lower, upper, step


def number(shown):
    """A constant of a script with its sign, which a well-typed script has there."""
    sign, digits = (-1, shown[1:].strip()) if shown.startswith("-") else (1, shown)
    found = value(digits)
    return 0 if found is None else sign * found


@dataclass
class Clause:
    """A clause: the tokens of its descriptions, of its predicate and of each of its statements."""

    descriptions: list = field(default_factory=list)
    predicate: list = field(default_factory=list)
    statements: list = field(default_factory=list)

    @property
    def expressions(self):
        return [self.predicate, *self.statements]


class Script:
    """A script, whether dreplay takes it or not. What it has no tree for is left out."""

    def __init__(self, text):
        self.text, self.tokens = text, tokens(text)
        self.clauses, self.declarations = [], []
        self.divide()
        self.variables = variables(self)
        self.aggregations = list(aggregations(self).values())

    def divide(self):
        clause, some = Clause(), []
        for token in self.tokens:
            if token.kind == "run":
                clause.descriptions.append(token)
            elif token.place == "declaration":
                some.append(token)
                if token.text in (";", "{", "}"):
                    self.declarations.append(some[:-1])
                    some = []
            elif token.kind == "word" and token.place == "head":
                some = [token]
            elif token.place == PREDICATE and not token.closes:
                if token.text == "{":
                    clause.predicate, some = some[:MAX_IN_A_ROW], []
                else:
                    some.append(token)
            elif token.place == "body":
                if token.text in (";", "}"):
                    clause.statements += [some] if 0 < len(some) <= MAX_IN_A_ROW else []
                    some = []
                elif token.text != "{":
                    some.append(token)
                if token.text == "}":
                    self.clauses.append(clause)
                    clause = Clause()


def of_file(file):
    """The script that a file holds."""
    return of_bytes(file.read(MAX_BYTES + 1))


def of_bytes(data):
    """The script of some bytes."""
    if len(data) > MAX_BYTES:
        raise Failure("the script has more than 65,536 bytes, so dreplay refused it")
    return Script(decode(data))


# -- lists of tokens


def group_end(some, place):
    """The place after the brackets that open at a place; the end if they aren't closed."""
    depth = 0
    for at in range(place, len(some)):
        if some[at].text in OPENS:
            depth += 1
        elif some[at].text in CLOSES:
            depth -= 1
            if depth <= 0:
                return at + 1
    return len(some)


def parts(some):
    """What is between the commas of a list of tokens, outside of brackets."""
    found, depth, begins = [], 0, 0
    for at, token in enumerate(some):
        depth += (token.text in OPENS) - (token.text in CLOSES)
        if token.text == "," and depth == 0:
            found.append(some[begins:at])
            begins = at + 1
    return [part for part in [*found, some[begins:]] if part]


def target_end(some, place=0):
    """The place after a variable that begins at a place; the place itself if none does."""
    texts = [token.text for token in some[place : place + 4]]
    if len(texts) < 3 or texts[0] not in ("self", "this") or texts[1] != "->":
        return place
    return group_end(some, place + 3) if texts[3:] == ["["] else place + 3


def expression_end(some, place):
    """The place after the expression that begins at a place: before a comma, a closing bracket or a
    further colon.
    """
    depth = questions = 0
    for at in range(place, len(some)):
        mark = some[at].text
        if depth == 0 and (mark in CLOSES or mark == "," or (mark == ":" and not questions)):
            return at
        depth += (mark in OPENS) - (mark in CLOSES)
        if depth == 0:
            questions += (mark == "?") - (mark == ":")
    return len(some)


# -- which values are texts


def is_text(some, known):
    """Whether an expression is a text; none if that isn't known, as it is one of variables that
    aren't known.
    """
    while True:
        while some and some[0].text == "(" and group_end(some, 0) == len(some):
            some = some[1:-1]
        after = target_end(some)
        if after and after == len(some):
            return known.get((some[0].text, some[2].text))
        if after and some[after].text in ASSIGNING:
            if some[after].text != "=":
                return False
            if (some[0].text, some[2].text) in known:
                return known[some[0].text, some[2].text]
            some = some[after + 1 :]
            continue
        chosen = question(some)
        if chosen is None:
            return is_text_alone(some)
        some = some[chosen : expression_end(some, chosen)]


def question(some):
    """The place after the question mark of a condition, outside of brackets; none if there is
    none.
    """
    depth = 0
    for at, token in enumerate(some):
        depth += (token.text in OPENS) - (token.text in CLOSES)
        if token.text == "?" and depth == 0:
            return at + 1
    return None


def is_text_alone(some):
    if len(some) == 1:
        return some[0].kind == "text" or some[0].text in TEXT_BUILTINS
    return (
        len(some) > 2
        and some[0].text == "strjoin"
        and some[1].text == "("
        and group_end(some, 1) == len(some)
    )


def variables(script):
    """For each variable whether it holds texts. In a script that dreplay takes, one assignment
    decides as well as another.
    """
    known = {}
    for some in script.declarations:
        if len(some) > 2:
            name = next(
                (token for token in reversed(before_keys(some)) if token.kind == "word"), some[-1]
            )
            known.setdefault((some[0].text, name.text), some[1].text == "string")
    for clause in script.clauses:
        for some in clause.expressions:
            learn(some, known)
    return known


def before_keys(some):
    return some[: next((at for at, token in enumerate(some) if token.text == "["), len(some))]


def assignments(some):
    """The plain assignments in an expression: the names, and their right sides."""
    for at in range(len(some) - 2):
        after = target_end(some, at)
        if after > at and after < len(some) and some[after].text == "=":
            yield (some[at].text, some[at + 2].text), some[
                after + 1 : expression_end(some, after + 1)
            ]


def learn(some, known):
    """Takes what the assignments of an expression say. Inner ones come last in it and are known
    first, so it begins with the last, and goes on while one is learnt.
    """
    waiting = list(assignments(some))[::-1]
    while waiting:
        left = []
        for name, right in waiting:
            kind = is_text(right, known)
            if kind is None:
                left.append((name, right))
            else:
                known.setdefault(name, kind)
        if len(left) == len(waiting):
            return
        waiting = left


# -- aggregations


def aggregations(script):
    """The aggregations of a script by their names, in the order of their first appearance, which is
    that of the answer.
    """
    found = {}
    for clause in script.clauses:
        for some in clause.statements:
            if some[0].kind == "aggregation":
                aggregation = aggregation_of(some, script.variables)
                if aggregation:
                    found.setdefault(aggregation.name, aggregation)
    return found


def aggregation_of(some, known):
    """The aggregation of a statement, or none if it is none that dreplay takes."""
    after, keys = 1, []
    if len(some) > 1 and some[1].text == "[":
        after = group_end(some, 1)
        keys = parts(some[2 : after - 1])
    called = [token.text for token in some[after : after + 3]]
    if len(called) < 3 or called[0] != "=" or called[1] not in FUNCTIONS or called[2] != "(":
        return None
    args = parts(some[after + 3 : group_end(some, after + 2) - 1])
    name = some[0].text[1:]
    return Aggregation(
        "" if name == "_" else name,
        [join(key) for key in keys],
        tuple(bool(is_text(key, known)) for key in keys),
        called[1],
        [join(arg) for arg in args],
    )
