"""DIF's objects as text, and their runs, written from docs/DIF.md and not from the program.

An integer in a register is the word that it is modulo 2^64, a text is a string of ASCII letters.
`n` and `t` are the two kinds, as in the names of variables.
"""
from typing import NamedTuple

WORDS = 2**64
REGISTERS = range(8)
MAX_PARTS = 8
MAX_JOINED = 255


def to_signed(word):
    return word - WORDS if word >= WORDS // 2 else word


def quotient(a, b):
    """The quotient of two signed integers, cut toward zero."""
    a, b = to_signed(a), to_signed(b)
    return abs(a) // abs(b) * (1 if (a < 0) == (b < 0) else -1)


OPERATORS = {
    "or": lambda a, b: a | b,
    "xor": lambda a, b: a ^ b,
    "and": lambda a, b: a & b,
    "sll": lambda a, b: a << b % 64,
    "srl": lambda a, b: a >> b % 64,
    "sra": lambda a, b: to_signed(a) >> b % 64,
    "sub": lambda a, b: a - b,
    "add": lambda a, b: a + b,
    "mul": lambda a, b: a * b,
    "sdiv": quotient,
    "srem": lambda a, b: to_signed(a) - to_signed(b) * quotient(a, b),
    "udiv": lambda a, b: a // b,
    "urem": lambda a, b: a % b,
}
DIVISIONS = ("sdiv", "srem", "udiv", "urem")
# of the comparison as signed integers, and as unsigned ones: -1, 0 or 1
CONDITIONS = {
    "be": lambda as_signed, as_unsigned: as_signed == 0,
    "bne": lambda as_signed, as_unsigned: as_signed != 0,
    "bg": lambda as_signed, as_unsigned: as_signed > 0,
    "bge": lambda as_signed, as_unsigned: as_signed >= 0,
    "bl": lambda as_signed, as_unsigned: as_signed < 0,
    "ble": lambda as_signed, as_unsigned: as_signed <= 0,
    "bgu": lambda as_signed, as_unsigned: as_unsigned > 0,
    "bgeu": lambda as_signed, as_unsigned: as_unsigned >= 0,
    "blu": lambda as_signed, as_unsigned: as_unsigned < 0,
    "bleu": lambda as_signed, as_unsigned: as_unsigned <= 0,
}
BUILT_INS = ["time", "cpu", "pid", "thread", "execname", "provider", "module", "function", "name"]
FUNCTIONS = {"strlen": len, "strjoin": lambda one, other: (one + other)[:MAX_JOINED]}

# The operands of each instruction, as they print: registers, a place in the code or a table, a
# variable, a function.
FORMS = {name: ("a", "b", "d") for name in OPERATORS} | {
    name: ("number",) for name in ("ba", *CONDITIONS)
}
FORMS |= {
    "not": ("a", "d"),
    "mov": ("a", "d"),
    "cmp": ("a", "b"),
    "tst": ("a",),
    "scmp": ("a", "b"),
}
FORMS |= {
    "setx": ("number", "d"),
    "sets": ("number", "d"),
    "ldgs": ("number", "d"),
    "ldga": ("number", "a", "d"),
}
FORMS |= {name: ("variable", "d") for name in ("ldts", "ldls", "ldtaa")}
FORMS |= {name: ("variable", "a") for name in ("stts", "stls", "sttaa")}
FORMS |= {
    "pushtr": ("a",),
    "pushtv": ("a",),
    "flushts": (),
    "call": ("function", "d"),
    "ret": ("a",),
    "nop": (),
}


class Instruction(NamedTuple):
    """An instruction: its name, and the operands that its form has."""

    name: str
    a: int = None
    b: int = None
    d: int = None
    number: int = None
    variable: str = None
    function: str = None

    def __str__(self):
        operands = (getattr(self, role) for role in FORMS[self.name])
        roles = zip(FORMS[self.name], operands)
        return " ".join(
            [
                self.name,
                *(f"r{operand}" if role in "abd" else f"{operand}" for role, operand in roles),
            ]
        )


def instruction(text):
    """The instruction that a text is, with commas or without."""
    name, *words = text.replace(",", "").split()
    roles = dict(zip(FORMS[name], words, strict=True))
    roles |= {
        role: int(word.removeprefix("r"))
        for role, word in roles.items()
        if role not in ("variable", "function")
    }
    return Instruction(name, **roles)


class Object(NamedTuple):
    """An object: its code and its tables."""

    code: list
    numbers: list
    texts: list

    def lines(self):
        """The lines that stand for it."""
        numbers = [f"number {number}" for number in self.numbers]
        texts = [f"text {text}" for text in self.texts]
        return [*map(str, self.code), *numbers, *texts, "end"]


def object_of(lines):
    """The object that lines stand for."""
    made = Object([], [], [])
    for line in lines:
        name, _, rest = line.partition(" ")
        if name == "number":
            made.numbers.append(int(rest))
        elif name == "text":
            made.texts.append(rest)
        elif name != "end":
            made.code.append(instruction(line))
    return made


def sign(a, b):
    return (a > b) - (a < b)


class Run:
    """A run of a valid object over a firing, which has its texts and integers by BUILT_INS and its
    `arguments`.

    `this` holds what clause-local variables hold, and `own` what thread-local ones do, by name and
    tuple.
    """

    def __init__(self, difo, firing, this, own):
        self.difo, self.firing, self.this, self.own = difo, firing, this, own
        self.registers = {0: 0}
        self.compared = None
        self.parts = ()

    def value(self):
        """The value that the run ends with, None if it ends with a division by zero."""
        pc = 0
        for _ in self.difo.code:
            it = self.difo.code[pc]
            if it.name == "ret":
                return self.registers[it.a]
            if it.name in DIVISIONS and self.registers[it.b] == 0:
                return None
            if it.name == "ba" or (it.name in CONDITIONS and CONDITIONS[it.name](*self.compared)):
                pc = it.number
            else:
                self.step(it)
                pc += 1
        raise AssertionError("a run of more steps than there are instructions")

    def step(self, it):
        """What an instruction changes, if the next one follows."""
        made = self.compute(it)
        if made is not None and it.d:
            self.registers[it.d] = made % WORDS if isinstance(made, int) else made
        if it.name in ("stts", "stls", "sttaa"):
            self.store(it)
        elif it.name in ("pushtr", "pushtv"):
            part = self.registers[it.a]
            self.parts += (to_signed(part) if it.name == "pushtv" else part,)
        elif it.name == "flushts":
            self.parts = ()
        elif it.name in ("cmp", "tst", "scmp"):
            self.compare(it)

    def compute(self, it):
        """What an instruction writes to a register, None if it writes to none."""
        if it.name in OPERATORS:
            return OPERATORS[it.name](self.registers[it.a], self.registers[it.b])
        if it.name == "not":
            return ~self.registers[it.a]
        if it.name == "mov":
            return self.registers[it.a]
        if it.name == "setx":
            return self.difo.numbers[it.number]
        if it.name == "sets":
            return self.difo.texts[it.number]
        if it.name == "call":
            return FUNCTIONS[it.function](*self.parts)
        return self.load(it)

    def load(self, it):
        """What an instruction loads from the firing or a variable, None if it loads nothing."""
        if it.name == "ldgs":
            return self.firing[BUILT_INS[it.number]]
        if it.name == "ldga":
            return dict(enumerate(self.firing["arguments"])).get(self.registers[it.a], 0)
        if it.name == "ldls":
            return self.this.get(it.variable, blank(it.variable))
        if it.name in ("ldts", "ldtaa"):
            return self.own.get(self.element(it), blank(it.variable))
        return None

    def element(self, it):
        return it.variable, self.parts if it.name.endswith("aa") else ()

    def store(self, it):
        variables, place = (
            (self.this, it.variable) if it.name == "stls" else (self.own, self.element(it))
        )
        variables[place] = self.registers[it.a]
        if variables[place] == blank(it.variable):
            del variables[place]

    def compare(self, it):
        a, b = self.registers[it.a], 0 if it.name == "tst" else self.registers[it.b]
        as_unsigned = sign(a, b)
        self.compared = (
            as_unsigned if it.name == "scmp" else sign(to_signed(a), to_signed(b)),
            as_unsigned,
        )


def blank(variable):
    """What a variable reads as that isn't set."""
    return 0 if variable[0] == "n" else ""
