"""Draws scripts: clauses and declarations that are well typed as they are drawn, and then perhaps
changed in a place or two."""
from dataclasses import dataclass

INTEGER, TEXT = "integer", "text"

NUMBERS = """
0 1 2 3 5 7 10 31 32 33 63 64 100 127 128 200 255 256 300 32767 32768 65535 65536
2147483647 2147483648 4294967295 4294967296 9223372036854775807 9223372036854775808
18446744073709551615 1u 1l 1ul 2ULL 4294967295u 2147483648u 0x7f 0XffuL 010 00
0x8000000000000000
""".split()
CONSTANTS = [
    '""',
    '"a"',
    '"b"',
    '"ab"',
    '"cat"',
    '"é"',
    r'"a\tb"',
    r'"\\\""',
    f'"{"x" * 254}"',
    f'"{"y" * 256}"',
]
INTEGERS = [f"arg{place}" for place in (0, 0, 0, 1, 1, 2, 9)] + "timestamp cpu pid tid".split()
TEXTS = "execname execname probeprov probemod probefunc probename".split()
TYPES = """char,short,int,long,signed,unsigned,
int8_t,uint8_t,int16_t,uint16_t,int32_t,uint32_t,int64_t,uint64_t,
unsigned char,unsigned short,long long,unsigned long long int,short int,signed char"""
TYPES = TYPES.replace("\n", "").split(",")
OPERATORS = "+ - * & | ^ << >> < <= > >= == != && || ^^ + - * / %".split()
COMPARISONS = "< <= > >= == !=".split()
ASSIGNMENTS = "+= -= *= &= |= ^= <<= >>= += -= /= %=".split()
DESCRIPTIONS = """
:::hit hit p::: ::f: ::f*:hit :::h?t *:::entry ::: :::return :m:: ::read:entry q*:::
p*::f?*: :::*t ::*:*i* BEGIN END dtrace:::BEGIN dtrace:::END dtrace::: dtrace:::ERROR
""".split()
FUNCTIONS = ["count", "sum", "min", "max", "avg", "quantize", "lquantize"]
OPERANDS_DRAWN = {*NUMBERS, *CONSTANTS, *INTEGERS, *TEXTS}
RANGES = [
    "0 , 10",
    "0 , 10 , 3",
    "- 5 , 5 , 2",
    "0 , 100 , 10",
    "- 2147483648 , 2147418177 , 65535",
    "0x0 , 65535",
    "3 , 4 , 1",
]
LITERALS = ["", "a", " ", "|", r"\n", "%%", "[", r"\t%%é", "x" * 300]
# what is put in the place of any token, of an operand, and before a statement
STRANGERS = """
( ) [ ] { } , ; = + - ++ / : ? ~ ! << || -> @ 08 0x 1uu 18446744073709551616 "\\q" "open
$ # ' \\ /* */ int self 7
""".split()
OPERANDS = """
x self->unknown this->unknown arg10 execname "a" 1 -1 stack() sum(1) trace(1) strlen(1)
strlen("a","b") strjoin("a",1) (1+"a") (self->v0) self->v0[1] self->v0["a"] this->v0
arg0[1] execname[0] (x=1) (pid=1) (self->v0="a") (self->v0+=1) self->v0++ -"a" !execname
(1?1:"a") ("a"?1:2) (1<"a") (char)"a" (arg0+(arg1+(arg2+(arg3+(arg4+(arg5+arg6))))))
""".split()
STATEMENTS = """
x=1; x++; pid=1; arg0++; pid[1]=1; self->v0=1; self->v0="a"; self->v0[1]=1;
self->v0["a"]+=1; @=sum("a"); @=count(1); @=sum(); @=foo(1); @a0=count();
@a0[1]=count(); @a0["a",1]=sum(1); @[1,2,3,4,5,6,7,8,9]=count(); @q=lquantize(1,0,arg0);
@q=lquantize(1,10,10); @q=lquantize(1,0,65536); @a0=lquantize(1,0,10,4); printf();
printf(execname); printf("%d"); printf("%q",1); printf("%d","a"); printf("%s",1);
printf("%256d",1); printf("%d",1,2); trace(); trace(1,2); exit(); exit("a");
trace(exit(1)); stack(); sum(1); 1+"a"; self->v9[1,2]=1; self->v9=self->v9+1;
self->a[1,2,3,4,5,6]=1; self->a[1,2,3,4,5,6,7,8,9]=1; (trace(1)); ; 5; exit(7);
""".split()


@dataclass
class Variable:
    """What is known of a variable: the kinds of its keys, None for a scalar, and the kind of its
    values."""

    keys: list
    kind: str


@dataclass
class Aggregation:
    keys: list
    function: str
    linear: str


def draw(chance):
    """The bytes of a script. One in three is changed in a place or two."""
    tokens = Drawer(chance).script()
    for _ in range(chance.choices([0, 1, 2], [65, 30, 5])[0]):
        change(chance, tokens)
    first = chance.choices(
        [
            "",
            "#!/usr/sbin/dtrace -s\n",
            "#pragma D option quiet\n",
            "#pragma D option bufsize=4k\n",
        ],
        [89, 5, 5, 1],
    )[0]
    return (
        first + "".join(token + blank(chance, token) for token in tokens)
    ).rstrip().encode() + b"\n"


def blank(chance, token):
    """What separates a token from the next one."""
    if token in ("{", ";", "}"):
        return "\n"
    return chance.choices([" ", "\n", " /* a\ncomment */ "], [97, 2, 1])[0]


def change(chance, tokens):
    """Puts a stranger in the place of an operand, or before a statement, or changes any token."""
    way = chance.choice([change_token, change_operand, insert_statement])
    way(chance, tokens)


def change_token(chance, tokens):
    """Drops a token, doubles it, exchanges it with the next one, or puts another in its place."""
    place = chance.randrange(len(tokens))
    there = tokens[place : place + 2]
    tokens[place : place + 2] = chance.choice(
        [
            there[1:],
            there[:1] + there,
            there[::-1],
            [chance.choice(STRANGERS), *there[1:]],
            [chance.choice(tokens), *there[1:]],
        ]
    )


def change_operand(chance, tokens):
    places = [
        index for index, token in enumerate(tokens) if token in OPERANDS_DRAWN or "->" in token
    ]
    if places:
        tokens[chance.choice(places)] = chance.choice(OPERANDS)


def insert_statement(chance, tokens):
    places = [index for index, token in enumerate(tokens, 1) if token == "{"]
    if places:
        tokens.insert(chance.choice(places), chance.choice(STATEMENTS))


class Drawer:
    """Draws one script from the left, and knows of each name what the script has said of it so
    far."""

    def __init__(self, chance):
        self.chance = chance
        self.variables, self.aggregations = {}, {}

    def likely(self, share):
        return self.chance.random() < share

    def script(self):
        tokens = []
        for _ in range(self.chance.choice([0, 0, 1, 2, 3])):
            tokens += self.declaration()
        for _ in range(self.chance.choice([1, 1, 2, 2, 3, 4])):
            tokens += self.clause()
            if self.likely(0.1):
                tokens += self.declaration()
        return tokens

    def new_name(self, space):
        return f"{space}->v{len(self.variables)}"

    def kinds(self):
        """The kinds of the keys of something new."""
        return self.chance.choices([INTEGER, TEXT], k=self.chance.choice([1, 1, 2, 3]))

    def words_of(self, kind):
        return self.chance.choice(TYPES).split() if kind == INTEGER else ["string"]

    def declaration(self):
        space, kind = self.chance.choice(["self", "self", "this"]), self.chance.choice(
            [INTEGER, INTEGER, TEXT]
        )
        keys = self.kinds() if space == "self" and self.likely(0.3) else None
        name = self.new_name(space)
        self.variables[name] = Variable(keys, kind)
        tokens = [space, *self.words_of(kind), name.split("->")[1]]
        return (
            tokens + (self.bracket([self.words_of(key) for key in keys]) if keys else []) + [";"]
        )

    def clause(self):
        tokens = [self.chance.choice(DESCRIPTIONS)]
        while self.likely(0.2):
            tokens += [",", self.chance.choice(DESCRIPTIONS)]
        if self.likely(0.35):
            tokens += ["/", *self.integer(2), "/"]
        tokens.append("{")
        for _ in range(self.chance.choice([0, 1, 2, 3, 4, 5])):
            tokens += [*self.statement(), ";"]
        return tokens + ["}"]

    def statement(self):
        ways = [
            self.trace,
            self.printf,
            self.aggregation,
            self.assignment,
            self.exit_action,
            self.action_in_brackets,
        ]
        return self.chance.choices(ways, [25, 20, 30, 25, 2, 1])[0]()

    def trace(self):
        return ["trace", "(", *self.value(self.chance.choice([INTEGER, INTEGER, TEXT]), 3), ")"]

    def action_in_brackets(self):
        return ["(", *self.trace(), ")"]

    def exit_action(self):
        return ["exit", "(", *self.integer(1), ")"]

    def printf(self):
        kinds = self.chance.choices([INTEGER, INTEGER, TEXT], k=self.chance.choice([0, 1, 1, 2, 3]))
        text = self.chance.choice(LITERALS)
        for kind in kinds:
            text += self.conversion(kind) + self.chance.choice(LITERALS)
        tokens = ["printf", "(", f'"{text}"']
        for kind in kinds:
            tokens += [",", *self.value(kind, 2)]
        return tokens + [")"]

    def conversion(self, kind):
        flags = self.chance.choice(["", "", "", "-", "0", "-0", "00", "0-"])
        width = self.chance.choice(["", "", "1", "5", "12", "30", "255"])
        length = self.chance.choice(["", "", "", "h", "hh", "l", "ll"])
        return f"%{flags}{width}{length}{self.chance.choice('diuxo') if kind == INTEGER else 's'}"

    def aggregation(self):
        if self.aggregations and self.likely(0.3):
            name = self.chance.choice(list(self.aggregations))
        else:
            name = (
                "@"
                if self.likely(0.2) and "@" not in self.aggregations
                else f"@a{len(self.aggregations)}"
            )
            keys = [] if self.likely(0.3) else self.kinds()
            self.aggregations[name] = Aggregation(
                keys, self.chance.choice(FUNCTIONS), self.chance.choice(RANGES)
            )
        known = self.aggregations[name]
        tokens = [name] + (
            self.bracket([self.value(kind, 2) for kind in known.keys]) if known.keys else []
        )
        tokens += ["=", known.function, "("]
        if known.function != "count":
            tokens += self.integer(2)
        if known.function == "lquantize":
            tokens += [",", *known.linear.split()]
        return tokens + [")"]

    def bracket(self, parts):
        """The parts between brackets, separated by commas."""
        tokens = ["["]
        for part in parts:
            tokens += [*part, ","]
        return tokens[:-1] + ["]"]

    def value(self, kind, depth):
        return self.integer(depth) if kind == INTEGER else self.text(depth)

    def integer(self, depth):
        """An expression of integers, at most `depth` operations deep."""
        if depth == 0 or self.likely(0.2):
            return self.leaf(INTEGER, INTEGERS, NUMBERS)
        ways = [
            self.chain,
            self.comparison,
            self.sign,
            self.cast,
            self.choice,
            self.length,
            self.step,
            self.change,
            self.element,
        ]
        return self.chance.choices(ways, [36, 6, 8, 10, 8, 6, 8, 6, 12])[0](depth - 1)

    def text(self, depth):
        """An expression of texts."""
        if depth == 0 or self.likely(0.5):
            return self.leaf(TEXT, TEXTS, CONSTANTS)
        way = self.chance.choice(["strjoin", "choice", "change"])
        if way == "strjoin":
            return ["strjoin", "(", *self.text(depth - 1), ",", *self.text(depth - 1), ")"]
        if way == "choice":
            return [
                "(",
                *self.operand(depth - 1),
                "?",
                *self.text(depth - 1),
                ":",
                *self.text(depth - 1),
                ")",
            ]
        return ["(", *self.assign(TEXT, depth - 1), ")"]

    def leaf(self, kind, built_ins, constants):
        scalars = [
            name
            for name, known in self.variables.items()
            if known.keys is None and known.kind == kind
        ]
        ways = [built_ins, constants] + ([scalars] * 2 if scalars else [])
        return [self.chance.choice(self.chance.choice(ways))]

    def operand(self, depth):
        """An integer that may be beside any operator."""
        tokens = self.integer(depth)
        return tokens if len(tokens) == 1 else ["(", *tokens, ")"]

    def chain(self, depth):
        tokens = self.operand(depth)
        for _ in range(self.chance.choice([1, 1, 1, 2, 3])):
            tokens += [self.chance.choice(OPERATORS), *self.operand(depth)]
        return tokens

    def comparison(self, depth):
        return [*self.text(depth), self.chance.choice(COMPARISONS), *self.text(depth)]

    def sign(self, depth):
        return [self.chance.choice(["-", "~", "!", "+"]), *self.operand(depth)]

    def cast(self, depth):
        return ["(", *self.words_of(INTEGER), ")", *self.operand(depth)]

    def choice(self, depth):
        return [*self.operand(depth), "?", *self.integer(depth), ":", *self.operand(depth)]

    def length(self, depth):
        return ["strlen", "(", *self.text(depth), ")"]

    def element(self, depth):
        arrays = [
            name for name, known in self.variables.items() if known.keys and known.kind == INTEGER
        ]
        return self.place(self.chance.choice(arrays), depth) if arrays else self.chain(depth)

    def place(self, name, depth):
        keys = self.variables[name].keys
        return [name] + (
            self.bracket([self.value(kind, min(depth, 1)) for kind in keys]) if keys else []
        )

    def step(self, depth):
        target = self.integer_target(depth)
        sign = self.chance.choice(["++", "--"])
        return [sign, *target] if self.likely(0.5) else [*target, sign]

    def change(self, depth):
        if self.likely(0.5):
            return self.assign(INTEGER, depth)
        return [*self.integer_target(depth), self.chance.choice(ASSIGNMENTS), *self.integer(depth)]

    def integer_target(self, depth):
        """What an operator assigns: a variable that is known, or a new one, which is known at
        once."""
        known = [name for name, known in self.variables.items() if known.kind == INTEGER]
        if known and self.likely(0.8):
            return self.place(self.chance.choice(known), depth)
        name, tokens, keys = self.new_target(depth)
        self.variables[name] = Variable(keys, INTEGER)
        return tokens

    def new_target(self, depth):
        """A new variable with its keys, its name, and the keys' kinds. It isn't known yet."""
        space = self.chance.choice(["self", "self", "this"])
        keys = self.kinds() if space == "self" and self.likely(0.3) else None
        written = self.bracket([self.value(kind, min(depth, 1)) for kind in keys]) if keys else []
        name = self.new_name(space)
        return name, [name, *written], keys

    def assign(self, kind, depth):
        """An assignment by `=`. A new variable is known after it."""
        known = [name for name, known in self.variables.items() if known.kind == kind]
        if known and self.likely(0.7):
            return [*self.place(self.chance.choice(known), depth), "=", *self.value(kind, depth)]
        name, tokens, keys = self.new_target(depth)
        self.variables[name] = Variable(None, "unknown")
        tokens += ["=", *self.value(kind, depth)]
        self.variables[name] = Variable(keys, kind)
        return tokens

    def assignment(self):
        if self.likely(0.3):
            return self.step(2)
        return self.change(3) if self.likely(0.7) else self.assign(TEXT, 2)
