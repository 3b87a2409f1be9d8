"""Draws traces: a few rows of a few threads, and perhaps a fault in one of them."""
HEADER = b"number,cpu,thread,pid,execname,time,provider,module,function,name," + b",".join(
    b"arg%d" % i for i in range(10)
)
NAMES = [
    b"a",
    b"b",
    b"cat",
    b"",
    "é".encode(),
    b"x" * 60,
    b'"a,b"',
    b'"a""b"',
    b'"a\nb"',
    b"y" * 255,
]
ARGUMENTS = [
    0,
    0,
    0,
    0,
    1,
    1,
    2,
    3,
    4,
    5,
    7,
    8,
    9,
    10,
    31,
    32,
    100,
    127,
    128,
    255,
    1000,
    65536,
    2**31 - 1,
    2**31,
    2**62,
    2**63 - 1,
]
ARGUMENTS += [-1, -1, -2, -3, -4, -8, -128, -(2**31), -(2**62), -(2**63)]
TIMES = [0, 1, 100, 2**63, 2**64 - 1]
BAD = [
    b"",
    b"-",
    b"-1",
    b"+1",
    b" 1",
    b"x",
    b"1.5",
    b"0x1",
    b"\xff",
    b"z" * 256,
    b"a\0b",
    b"dtrace",
    b'"open',
    b"18446744073709551616",
]


def draw(chance):
    """The bytes of a trace. One in ten has a fault."""
    drawn = rows(chance)
    if drawn and chance.random() < 0.1:
        spoil(chance, drawn)
    return write_trace(chance, drawn)


def rows(chance):
    """The rows of a trace without a fault, each a list of fields."""
    drawn, number, time = [], 0, chance.choice(TIMES[:3])
    for _ in range(chance.choice([0, 1, 2, 3, 5, 8, 12, 20, 60])):
        number += chance.choice([1, 1, 1, 2, 10, 1_000_000])
        time = (
            chance.choice(TIMES)
            if chance.random() < 0.1
            else (time + chance.randrange(1000)) % 2**64
        )
        drawn.append(row(chance, number, time))
    return drawn


def write_trace(chance, drawn):
    """The bytes of a trace that has these rows."""
    lines = [HEADER, *(b",".join(fields) for fields in drawn)]
    return b"".join(line + line_end(chance) for line in lines)


def line_end(chance):
    return chance.choices([b"\n", b"\r\n", b"\n\n", b"\r"], [97, 1, 1, 1])[0]


def row(chance, number, time):
    name = chance.choice(NAMES if chance.random() < 0.3 else NAMES[:3])
    probe = [
        chance.choice([b"p", b"p", b"q"]),
        chance.choice([b"", b"", b"m"]),
        chance.choice([b"f", b"foo", b"read"]),
    ]
    event = chance.choice([b"hit", b"hit", b"entry", b"return"])
    fields = [
        b"%d" % number,
        b"%d" % chance.randrange(4),
        b"%d" % chance.choice([1, 1, 2, 3]),
        b"%d" % chance.choice([1, 7, 700]),
    ]
    return fields + [name, b"%d" % time, *probe, event, *(argument(chance) for _ in range(10))]


def argument(chance):
    return b"" if chance.random() < 0.1 else b"%d" % chance.choice(ARGUMENTS)


def spoil(chance, rows):
    """Puts a bad field, a field too many or too few, or the number of the row before into a row."""
    place = chance.randrange(len(rows))
    way = chance.randrange(5)
    if way == 0:
        rows[place].pop()
    elif way == 1:
        rows[place].append(b"0")
    elif way == 2:
        rows[place][0] = rows[place - 1][0]
    else:
        rows[place][chance.randrange(len(rows[place]))] = chance.choice(BAD)
