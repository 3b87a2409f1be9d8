"""Draws random objects of DIF: over half of them valid, the others with a fault or several.

Most instructions are drawn until one has no fault at its place. Then some are changed.
"""
import random
from functools import reduce
from typing import NamedTuple

from plain.objects_machine import (
    BUILT_INS,
    CONDITIONS,
    FORMS,
    FUNCTIONS,
    OPERATORS,
    REGISTERS,
    Instruction,
    Object,
)
from plain.objects_validity import START, Known, after, faults_anywhere, faults_on_ways, leads, meet

NUMBERS = [0, 1, 2, 3, 5, 63, 64, 255, 2**63 - 1, 2**63, 2**64 - 8, 2**64 - 1]
TEXTS = ["", "a", "b", "ab", "cat", "x" * 200, "y" * 255]
SLOTS = range(3)
VARIABLES = [f"{kind}{slot}" for slot in SLOTS for kind in "nt"]
LENGTHS = [1, 2, 3, 4, *range(6, 33, 2)]
PUSH = Instruction("pushtv", a=0)
NAMES_TRIED, OPERANDS_TRIED = 6, 12
# How likely an instruction is drawn that needn't fit, in general and where ways meet.
ANY, ANY_AT_MEETINGS = 0.005, 0.2
# How often the groups of instructions are drawn, and the last one within a group as often as each
# other.
GROUPS = [
    (8, ["setx", "sets", "ldgs", "ldga"]),
    (6, [*OPERATORS, "not", "mov", "mov"]),
    (6, ["ldts", "stts", "ldls", "stls"]),
    (5, ["pushtr", "pushtr", "pushtv", "flushts"]),
    (9, ["ldtaa", "sttaa", "sttaa", "call", "call"]),
    (5, ["cmp", "tst", "scmp"]),
    (6, [*CONDITIONS, "ba"]),
    (1, ["ret", "nop"]),
]
NUMBERED = ["setx", "sets", "ldgs", "ldga", "ba"]
SHARES = [share for share, _ in GROUPS]


def draw(seed, place):
    """The object at a place in the list that a seed fixes."""
    chance = random.Random(f"{seed} {place} object")
    numbers = chance.choices(NUMBERS, k=chance.choice([0, 1, 3, 5]))
    texts = chance.choices(TEXTS, k=chance.choice([0, 1, 2, 4]))
    length = chance.choice(LENGTHS)
    difo = Object([], numbers, texts)
    if chance.random() < 0.1:
        difo.code.extend(
            with_operands(chance, any_name(chance), difo, pc, length, 0.1) for pc in range(length)
        )
        return difo
    draw_code(chance, difo, length)
    for _ in range(chance.choice([0, 0, 0, 1, 1, 2])):
        change(chance, difo)
    return difo


def draw_code(chance, difo, length):
    """Draws code in which, as far as tries go, few instructions have a fault."""
    arriving, returned = {0: [START]}, chance.choice("nt")
    for pc in range(length):
        known = reduce(meet, arriving[pc]) if pc in arriving else None
        drawn = Place(difo, pc, length, known, arriving, returned)
        is_any = chance.random() < (ANY_AT_MEETINGS if len(arriving.get(pc, [])) > 1 else ANY)
        it = next(
            filter(lambda it: is_any or drawn.fits(it), drawn.tries(chance)),
            Instruction("ret", a=0),
        )
        difo.code.append(it)
        for to in leads(pc, it) if known else []:
            arriving.setdefault(to, []).append(after(it, known))


class Place(NamedTuple):
    """A place that code is drawn for: what is known before it, and what arrives at places after it
    by branches."""

    difo: Object
    pc: int
    length: int
    known: Known
    arriving: dict
    returned: str

    def tries(self, chance):
        """Instructions that may come here, each name with several operands."""
        for _ in range(NAMES_TRIED):
            name = "ret" if self.pc == self.length - 1 else any_name(chance)
            for _ in range(OPERANDS_TRIED):
                yield with_operands(chance, name, self.difo, self.pc, self.length, 0.01)

    def fits(self, it):
        """Whether an instruction has no fault here, and leads nowhere where another tuple is
        known."""
        if any(faults_anywhere(it, self.pc, self.length, self.difo)):
            return False
        if not self.known:
            return True
        if any(faults_on_ways(it, self.known, self.returned)):
            return False
        parts = after(it, self.known).parts
        return all(
            way.parts == parts for to in leads(self.pc, it) for way in self.arriving.get(to, [])
        )


def any_name(chance):
    [(_, names)] = chance.choices(GROUPS, SHARES)
    return chance.choice(names)


def with_operands(chance, name, difo, pc, length, beyond):
    """An instruction with any operands. With the chance `beyond` a number is out of its bounds, or
    perhaps so."""
    operands = {role: chance.choice(REGISTERS) for role in "abd"}
    operands |= {"variable": chance.choice(VARIABLES), "function": chance.choice([*FUNCTIONS])}
    if "number" in FORMS[name]:
        within = numbers_within(chance, name, difo, pc, length)
        outside = [0, pc, within.stop, within.stop + 7]
        operands["number"] = chance.choice(
            outside if not within or chance.random() < beyond else within
        )
    return Instruction(name, **{role: operands[role] for role in FORMS[name]})


def numbers_within(chance, name, difo, pc, length):
    """The numbers that are in the bounds of an instruction: places of the code, of a table or of
    the built-in variables."""
    ends = {
        "setx": len(difo.numbers),
        "sets": len(difo.texts),
        "ldgs": len(BUILT_INS),
        "ldga": 1,
    }
    if name in ends:
        return range(ends[name])
    return range(pc + 1, min(length, pc + chance.choice([2, 4, 8])))


def change(chance, difo):
    """Drops an instruction, doubles it, exchanges it with the next one, or puts others in its place
    or before it."""
    if not difo.code:
        return
    pc = chance.randrange(len(difo.code))
    there = difo.code[pc : pc + 2]
    name = chance.choice([any_name(chance), chance.choice(NUMBERED)])
    other = with_operands(chance, name, difo, pc, len(difo.code), 0.5)
    pushes = [PUSH] * chance.randint(1, 9)
    difo.code[pc : pc + 2] = chance.choice(
        [
            there[1:],
            there[:1] + there,
            there[::-1],
            [other, *there[1:]],
            [other, *there],
            [*pushes, *there],
        ]
    )
