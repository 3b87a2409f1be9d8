"""From tokens to a script's tree (docs/LANGUAGE.md, "Grammar")."""
from itertools import product

from . import tree
from .refusals import Refused
from .values import TEXT, IntType

MAX_OPEN, MAX_IN_A_ROW, MAX_CLAUSES = 64, 1_024, 256
SYNTAX, TOO_DEEP, TOO_MANY_CLAUSES = 1, 2, 3

WIDTHS = {"": 32, "char": 8, "short": 16, "short int": 16, "int": 32}
WIDTHS |= dict.fromkeys(["long", "long int", "long long", "long long int"], 64)
TYPES = {
    tuple(f"{sign} {width}".split()): IntType(bits, sign != "unsigned")
    for sign, (width, bits) in product(["", "signed", "unsigned"], WIDTHS.items())
    if sign or width
}
TYPES |= {(f"int{bits}_t",): IntType(bits, True) for bits in (8, 16, 32, 64)}
TYPES |= {(f"uint{bits}_t",): IntType(bits, False) for bits in (8, 16, 32, 64)}
TYPE_WORDS = {word for spelling in TYPES for word in spelling}
TYPES_OF_DECLARATIONS = TYPES | {("string",): TEXT}
RESERVED = TYPE_WORDS | {"self", "this", "string"}

LEVELS = ["||", "^^", "&&", "|", "^", "&", "== !=", "< <= > >=", "<< >>", "+ -", "* / %"]
BINDING = {
    operator: level for level, operators in enumerate(LEVELS) for operator in operators.split()
}
ASSIGNMENTS = {"=": ""} | {f"{operator}=": operator for operator in "+ - * / % & | ^ << >>".split()}
STEPS = {"++": 1, "--": -1}
SIGNS = ("!", "~", "-", "+")


def parse(tokens):
    """The tree of a script's tokens, a list of declarations and clauses, or why they have none."""
    if is_too_deep(tokens):
        raise Refused("Parse", TOO_DEEP)
    if sum(is_mark(token, "{") for token in tokens) > MAX_CLAUSES:
        raise Refused("Parse", TOO_MANY_CLAUSES)
    return Parser(tokens).script()


def is_mark(token, spelling):
    return token.kind == "mark" and token.says == spelling


def is_too_deep(tokens):
    """Whether too many brackets are open at some token, or too many tokens follow one another."""
    opened = in_a_row = 0
    for token in tokens:
        says = token.says if token.kind == "mark" else None
        opened = max(0, opened + (says in ("(", "[")) - (says in (")", "]")))
        in_a_row = 0 if says in (";", "{", "}") else in_a_row + 1
        if opened > MAX_OPEN or in_a_row > MAX_IN_A_ROW:
            return True
    return False


class Parser:
    """Descends once, a method for each rule of the grammar."""

    def __init__(self, tokens):
        self.tokens, self.at = tokens, 0

    def refuse(self):
        """Refuses the token here; at the end of the tokens the line is that of the last one."""
        line = self.tokens[min(self.at, len(self.tokens) - 1)].line if self.tokens else 1
        raise Refused("Parse", SYNTAX, line=line)

    def looks_at(self, kind, *spellings, ahead=0):
        if self.at + ahead >= len(self.tokens):
            return False
        token = self.tokens[self.at + ahead]
        return token.kind == kind and (not spellings or token.says in spellings)

    def take(self, kind, *spellings):
        if not self.looks_at(kind, *spellings):
            self.refuse()
        self.at += 1
        return self.tokens[self.at - 1]

    def takes(self, *marks):
        """Goes over one of these marks, if one is here."""
        return self.take("mark", *marks) if self.looks_at("mark", *marks) else None

    def script(self):
        items = []
        while self.at < len(self.tokens):
            items.append(
                self.declaration() if self.looks_at("word", "self", "this") else self.clause()
            )
        return items

    def declaration(self):
        space = self.take("word")
        of_type, name = self.type_and_name()
        keys = None
        if space.says == "self" and self.takes("["):
            keys = [self.type_of_key()]
            while self.takes(","):
                keys.append(self.type_of_key())
            self.take("mark", "]")
        self.take("mark", ";")
        return tree.Declaration(space.line, space.says, of_type, name, keys)

    def type_and_name(self):
        """Words of which the last is the name, reserved or not, and those before it spell the
        type."""
        words = (self.take("word").says,)
        while self.looks_at("word") and (
            words in TYPES_OF_DECLARATIONS or self.begins_a_type(words)
        ):
            words += (self.take("word").says,)
        if words[:-1] not in TYPES_OF_DECLARATIONS:
            self.refuse()
        return TYPES_OF_DECLARATIONS[words[:-1]], words[-1]

    @staticmethod
    def begins_a_type(words):
        return any(spelling[: len(words)] == words for spelling in TYPES_OF_DECLARATIONS)

    def type_of_key(self):
        words = (self.take("word").says,)
        while self.looks_at("word"):
            words += (self.take("word").says,)
        if words not in TYPES_OF_DECLARATIONS:
            self.refuse()
        return TYPES_OF_DECLARATIONS[words]

    def clause(self):
        descriptions = [self.description()]
        while self.takes(","):
            descriptions.append(self.description())
        predicate = None
        if self.takes("/"):
            predicate = self.expression()
            self.take("closing slash")
        self.take("mark", "{")
        return tree.Clause(descriptions, predicate, self.statements())

    def description(self):
        """A description's four patterns: provider, module, function, name."""
        fields = self.take("run").says.split(b":")
        if len(fields) > 4 or (len(fields) == 1 and fields[0].isdigit()):
            self.at -= 1
            self.refuse()
        return [b""] * (4 - len(fields)) + fields

    def statements(self):
        found = []
        while not self.takes("}"):
            if not self.takes(";"):
                found.append(
                    self.aggregation() if self.looks_at("aggregation") else self.expression()
                )
                if not self.looks_at("mark", ";", "}"):
                    self.refuse()
        return found

    def aggregation(self):
        name = self.take("aggregation")
        keys = self.expressions("]") if self.takes("[") else []
        self.take("mark", "=")
        function = self.take("word").says
        self.take("mark", "(")
        return tree.Aggregation(name.line, name.says, keys, function, self.arguments())

    def expressions(self, closing):
        """One expression or more, separated by commas, and the closing mark."""
        found = [self.expression()]
        while self.takes(","):
            found.append(self.expression())
        self.take("mark", closing)
        return found

    def arguments(self):
        return [] if self.takes(")") else self.expressions(")")

    def expression(self):
        start = self.at
        made = self.condition()
        is_target = isinstance(made, tree.Place) and not is_mark(self.tokens[start], "(")
        operator = self.takes(*ASSIGNMENTS) if is_target else None
        if not operator:
            return made
        return tree.Assignment(made.line, ASSIGNMENTS[operator.says], made, self.expression())

    def condition(self):
        condition = self.binary(0)
        if not self.takes("?"):
            return condition
        yes = self.expression()
        self.take("mark", ":")
        return tree.Choice(condition.line, condition, yes, self.condition())

    def binary(self, level):
        """Unary parts and the operators that bind at least as tightly as a level."""
        left = self.unary()
        while self.looks_at("mark", *BINDING) and BINDING[self.tokens[self.at].says] >= level:
            operator = self.take("mark").says
            left = tree.Binary(left.line, operator, left, self.binary(BINDING[operator] + 1))
        return left

    def unary(self):
        sign = self.takes(*SIGNS)
        if sign:
            return tree.Unary(sign.line, sign.says, self.unary())
        step = self.takes(*STEPS)
        if step:
            return tree.Step(step.line, STEPS[step.says], True, self.target())
        if self.looks_at("mark", "(") and self.looks_at("word", *TYPE_WORDS, ahead=1):
            return self.cast()
        return self.post()

    def cast(self):
        line = self.take("mark", "(").line
        words = ()
        while not self.takes(")"):
            words += (self.take("word", *TYPE_WORDS).says,)
            if not self.begins_a_type(words):
                self.at -= 1
                self.refuse()
        return tree.Cast(line, TYPES[words], self.unary())

    def post(self):
        if self.takes("("):
            made = self.expression()
            self.take("mark", ")")
            return made
        if self.looks_at("number"):
            token = self.take("number")
            return tree.Number(token.line, *token.says)
        if self.looks_at("text"):
            token = self.take("text")
            return tree.Text(token.line, token.says)
        if self.looks_at("word") and self.looks_at("mark", "(", ahead=1):
            return self.call()
        return self.target_or_step()

    def target_or_step(self):
        target = self.target()
        step = self.takes(*STEPS)
        return tree.Step(target.line, STEPS[step.says], False, target) if step else target

    def call(self):
        name = self.name()
        self.take("mark", "(")
        return tree.Call(name.line, name.says, self.arguments())

    def name(self):
        """A word that isn't reserved."""
        if self.looks_at("word", *RESERVED):
            self.refuse()
        return self.take("word")

    def target(self):
        space = self.take("word") if self.looks_at("word", "self", "this") else None
        if space:
            self.take("mark", "->")
        name = self.name()
        has_keys = not (space and space.says == "this") and self.takes("[")
        keys = self.expressions("]") if has_keys else None
        return tree.Place((space or name).line, space.says if space else "", name.says, keys)
