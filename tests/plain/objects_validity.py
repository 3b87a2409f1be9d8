"""Which of DIF's objects are valid, else their first fault, retold from docs/DIF.md and not from
the program.

What is known before an instruction is defined by recursion: it is what all reached instructions
that lead to it agree on.
"""
import functools
from typing import NamedTuple

from plain.objects_machine import BUILT_INS, CONDITIONS, MAX_PARTS, OPERATORS, REGISTERS

# in the order of their numbers
FAULTS = [
    "Empty",
    "NoReturn",
    "Backward",
    "OutOfCode",
    "RegisterKind",
    "Unset",
    "TupleShape",
    "TableIndex",
    "Variable",
]
KINDS = {"n": "Number", "t": "Text"}
PARAMETERS = {"strlen": "t", "strjoin": "tt"}
RESULTS = {"strlen": "n", "strjoin": "t"}

# The kinds that the registers `a` and `b` of an instruction may have. Those that store take a
# variable's kind.
READ = {name: "n" for name in (*OPERATORS, "not", "cmp", "tst", "ldga", "pushtv")}
READ |= {"scmp": "t", "pushtr": "t", "mov": "nt", "ret": "nt"}
WRITTEN = {name: "n" for name in (*OPERATORS, "not", "setx", "ldga")} | {"sets": "t"}


class Known(NamedTuple):
    """What is known before an instruction, whichever way led there."""

    # of each register its kind, None if it is unset
    registers: tuple
    is_compared: bool
    # the kinds of the tuple, None if they aren't known
    parts: str


START = Known(("n", *[None] * (len(REGISTERS) - 1)), False, "")


def meet(one, other):
    """What two ways agree on."""
    registers = tuple(a if a == b else None for a, b in zip(one.registers, other.registers))
    return Known(
        registers,
        one.is_compared and other.is_compared,
        one.parts if one.parts == other.parts else None,
    )


def leads(pc, it):
    """The indices that an instruction at an index leads to."""
    if it.name == "ret":
        return []
    if it.name in CONDITIONS:
        return [pc + 1, it.number]
    return [it.number if it.name == "ba" else pc + 1]


def read(it):
    """The registers that an instruction reads, and which kinds they may have."""
    kinds = READ.get(it.name) or (it.variable[0] if it.variable else "")
    return [(register, kinds) for register in (it.a, it.b) if register is not None]


def kind_written(it, known):
    if it.name == "mov":
        return known.registers[it.a]
    if it.name == "ldgs":
        return "n" if it.number < BUILT_INS.index("execname") else "t"
    if it.name == "call":
        return RESULTS[it.function]
    return WRITTEN.get(it.name) or it.variable[0]


def after(it, known):
    """What is known after an instruction."""
    registers, is_compared, parts = known
    if it.d:
        registers = (*registers[: it.d], kind_written(it, known), *registers[it.d + 1 :])
    if it.name in ("cmp", "tst", "scmp"):
        is_compared = True
    if it.name == "flushts":
        parts = ""
    elif it.name.startswith("pusht") and parts is not None:
        parts += "t" if it.name == "pushtr" else "n"
    return Known(registers, is_compared, parts)


def faults_anywhere(it, pc, length, difo):
    """The faults that an instruction at an index of so much code has also where no way reaches
    it."""
    if it.name == "ba" or it.name in CONDITIONS:
        if it.number <= pc:
            yield "Backward"
        if it.number >= length:
            yield "OutOfCode"
    if (it.name == "setx" and it.number >= len(difo.numbers)) or (
        it.name == "sets" and it.number >= len(difo.texts)
    ):
        yield "TableIndex"
    if (it.name == "ldgs" and it.number >= len(BUILT_INS)) or (
        it.name == "ldga" and it.number != 0
    ):
        yield "Variable"


def faults_on_ways(it, known, returned):
    """The further faults of a reached instruction. The first reached `ret` returns a kind, None
    where it is unset."""
    kinds = [(known.registers[register], kinds) for register, kinds in read(it)]
    if any(kind and kind not in kinds for kind, kinds in kinds):
        yield "RegisterKind"
    if it.name == "ret" and known.registers[it.a] not in (None, returned):
        yield "RegisterKind"
    if any(kind is None for kind, _ in kinds) or (it.name in CONDITIONS and not known.is_compared):
        yield "Unset"
    if known.parts is None or not takes(it, known.parts):
        yield "TupleShape"


def takes(it, parts):
    """Whether an instruction may come where the tuple has these kinds."""
    if it.name.startswith("pusht"):
        return len(parts) < MAX_PARTS
    if it.name in ("ldtaa", "sttaa"):
        return parts != ""
    return it.name != "call" or parts == PARAMETERS[it.function]


class Validity:
    """What is known of an object, instruction by instruction."""

    def __init__(self, difo):
        self.difo = difo
        self.leading = [[] for _ in difo.code]
        for pc, it in enumerate(difo.code):
            for to in leads(pc, it):
                if pc < to < len(difo.code):
                    self.leading[to].append(pc)
        self.known = {0: START}

    def before(self, pc):
        """What is known before an instruction, None if no way leads there."""
        if pc not in self.known:
            ways = [
                after(self.difo.code[index], self.before(index))
                for index in self.leading[pc]
                if self.before(index)
            ]
            self.known[pc] = functools.reduce(meet, ways) if ways else None
        return self.known[pc]

    @functools.cached_property
    def returned_kind(self):
        """The kind that the first reached `ret` returns."""
        returns = (
            (pc, it) for pc, it in enumerate(self.difo.code) if it.name == "ret" and self.before(pc)
        )
        return next((self.before(pc).registers[it.a] for pc, it in returns), None)

    def faults(self, pc):
        """The faults of an instruction."""
        it = self.difo.code[pc]
        yield from faults_anywhere(it, pc, len(self.difo.code), self.difo)
        if self.before(pc):
            yield from faults_on_ways(it, self.before(pc), self.returned_kind)


def first_fault(difo):
    """The first fault of an object and its index, None if it is valid."""
    if not difo.code:
        return "Empty", None
    if difo.code[-1].name != "ret":
        return "NoReturn", None
    validity = Validity(difo)
    for pc in range(len(difo.code)):
        faults = [*validity.faults(pc)]
        if faults:
            return min(faults, key=FAULTS.index), pc
    return None


def kind(difo):
    """The kind of a valid object."""
    return KINDS[Validity(difo).returned_kind]
