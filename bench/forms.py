"""Forms of input that are costly, each of any size: bench/worst_cases measures them at their
largest, tests/growth compares what they take at a small size and at twice that, and
bench/memory_fuzz draws statements of these kinds."""
from collections.abc import Callable
from dataclasses import dataclass

COLUMNS = "number cpu thread pid execname time provider module function name".split()
HEADER = ",".join(COLUMNS + [f"arg{place}" for place in range(10)]) + "\n"
# A row, and what its fields have if nothing else is said.
ROW = "{{0}},0,{thread},{pid},{program},{time},p,,{function},{name},{arg},,,,,,,,,{last}{end}"
FIELDS = {
    "thread": "1",
    "pid": "1",
    "program": "a",
    "time": "0",
    "function": "f",
    "name": "hit",
    "arg": "0",
    "last": "",
    "end": "\n",
}


# Kinds of statements. {0} is a name of its own, {1} the clause's keys, {2} its width, {3} as many
# of the keys as an array may have: more need too many registers.
STATEMENTS = {
    "count": "@c{0} = count();",
    "keyed": "@k{0}[{1}] = sum(arg0);",
    "powers": "@h{0}[{1}] = quantize(arg0);",
    "steps": "@l{0}[{1}] = lquantize(arg0, 0, 1000, 1);",
    "integer": "self->i{0} = arg0 + 1;",
    "text": "self->t{0} = execname;",
    "element": "self->e{0}[{3}] = 1;",
    "named": "self->n{0}[{3}] = execname;",
    "removed": "self->r{0}[{3}] = 1; self->r{0}[{3}] = 0;",
    "local": "this->l{0} = arg0 + 1;",
    "local text": "this->s{0} = execname;",
    "line": 'printf("%{2}s\\n", execname);',
    "fault": "1 / (arg9 - arg9);",
}
# What a clause that no row runs may consist of. {0} is a name of its own.
FILLINGS = [
    "1;",
    "arg0;",
    "~1;",
    "trace(1);",
    'trace("a");',
    "self->x = 1;",
    "this->y{0} = 1;",
    "self->z{0} = 1;",
    "@ = count();",
    "@f{0} = count();",
    '1 ? "a" : "b";',
]


@dataclass
class Form:
    """A script and a trace of a size; the size at which bench/worst_cases measures them, and the
    one with which tests/growth begins. The plan, and how much there is of the terms of the formula
    of memory that the script comes to."""

    size: int
    small: int
    trace: Callable
    script: Callable = lambda size: ""
    plan: str = "-w 1 -g 1"
    more: Callable = lambda size: {}


def rows(count, first=1, **fields):
    """This many rows, with these fields in place of those of FIELDS. {0} in a field is the row's
    number."""
    row = ROW.format(**{**FIELDS, **fields})
    return "".join(row.format(number) for number in range(first, first + count))


def trace_of(count, **fields):
    return HEADER + rows(count, **fields)


def each(count, form):
    """This many copies of a text. {0} in it is the copy's number."""
    return "".join(form.format(number) for number in range(count))


def describe(one, clauses=256, descriptions=120):
    """Clauses without statements, of equal descriptions."""
    return (",".join([one] * descriptions) + "{}") * clauses


def repeat_clause(one, body):
    """One clause of 512 equal descriptions."""
    return f"{','.join([one] * 512)}{{{body}}}"


def of_hit(body):
    return f":::hit{{{body}}}"


def bit(place):
    """A description of the probes whose function has a 1 at this place."""
    return f"::{'?' * place}1*:z"


def descriptions_by_bit(bits):
    """256 clauses of 120 descriptions. Each of the first has one more, which asks for a bit."""
    plain = ["z"] * 120
    return "".join(
        ",".join(plain + [bit(place) for place in [clause] if place < bits]) + "{}"
        for clause in range(256)
    )


def clauses_by_bit(clauses, bits):
    """Clauses of one description, of which the last ones ask for a bit each."""
    return "z{}" * (clauses - bits) + "".join(f"{bit(index)}{{}}" for index in range(bits))


def number_probes(count, bits):
    """A trace of probes whose functions are their numbers in binary."""
    return HEADER + "".join(
        f"{number},0,1,1,a,0,p,,{number - 1:0{bits}b},z,,,,,,,,,,\n"
        for number in range(1, count + 1)
    )


def spell(count):
    """A trace of one owner, whose thread and pid have other numbers of zeros before them in each
    row."""
    row = "{0},0,{1:0{2}},{1:0{3}},a,0,p,,f,hit,,,,,,,,,,\n"
    return HEADER + "".join(
        row.format(number, 1, number % 316 + 1, number // 316 + 1)
        for number in range(1, count + 1)
    )


def by_turns(count, names):
    """A trace whose rows have this many names of two letters by turns: each piece that a worker
    reads has all of them."""
    letters = [chr(code) for code in range(33, 127) if chr(code) not in '",']
    row = "{},0,1,1,{}{},0,p,,f,hit,,,,,,,,,,\n"
    return HEADER + "".join(
        row.format(number, *(letters[at % names // 91 % 91], letters[at % names % 91]))
        for number, at in enumerate(range(count), 1)
    )


def after_a_long_row(size):
    """A trace of a row of this many bytes, and of about as many bytes of new names after it."""
    new = dict.fromkeys(["thread", "program", "function"], "{0}")
    return trace_of(1, time="0" * size) + rows(size // 44, 2, name="", **new)


def with_entries(aggregations, groups, entries, more=()):
    """The terms of aggregations with this many entries each in each group."""
    both, share = aggregations * groups, 2 if groups > 1 else 1
    return {
        "aggregation in a group": both,
        "aggregation with entries in a group": both,
        "entry": both * entries * share,
        **dict(more),
    }


def with_variables(threads, many, more=()):
    """The terms of threads with this many variables each."""
    return {
        "thread with tables": threads,
        "variable": threads * min(many, 9),
        "further variable": threads * max(0, many - 9),
        **dict(more),
    }


LEVELS = "@a{0}=lquantize(-1,0,65533,1);@a{0}=lquantize(65533,0,65533,1);"
WIDTHS = 'printf("' + "%255d" * 170 + '"' + ",1" * 170 + ");"
COUNTING = "@a{0:04}=count();"
NEW = {"thread": "{0}", "program": "{0:07}", "function": "{0:07}", "name": ""}
# A row of some 480 bytes.
WIDE = {"function": "f" * 210, "name": "n" * 210}
MILLION = 1_000_000
# More bytes than several workers read at a time, and as many rows of WIDE.
SHARED, WIDE_ROWS = 9 << 19, 10_000
# Traces, of which no clause asks anything.
TRACES = {
    "run": Form(1, 0, trace_of, plan="-w 16 -g 4096"),
    "block": Form(72_000, 8_000, lambda size: trace_of(size, **NEW), plan="-w 16 -g 1"),
    "names in each piece": Form(
        262_000, 16_500, lambda size: by_turns(size, 8_250), plan="-w 16 -g 1"
    ),
    "rows": Form(MILLION, 75_000, lambda size: trace_of(size, last="1")),
    "wide rows": Form(250_000, WIDE_ROWS, lambda size: trace_of(size, **WIDE)),
    "carriage returns": Form(
        100_000, WIDE_ROWS, lambda size: trace_of(size, end="\r", **WIDE), plan="-w 2 -g 1"
    ),
    "both ends of a row": Form(
        100_000, WIDE_ROWS, lambda size: trace_of(size, end="\r\n", **WIDE)
    ),
    "quoted rows": Form(
        100_000, WIDE_ROWS, lambda size: trace_of(size, **{**WIDE, "program": '"a"'})
    ),
    "quoted line feeds": Form(
        100_000, WIDE_ROWS, lambda size: trace_of(size, **{**WIDE, "program": '"\n"'})
    ),
    "blank lines": Form(32 << 20, SHARED, lambda size: HEADER + "\n" * size + rows(1)),
    "blank carriage returns": Form(
        32 << 20, SHARED, lambda size: HEADER + "\r" * size + rows(1)
    ),
    "rows after an error": Form(
        100_000, WIDE_ROWS, lambda size: HEADER + "\0\n" + rows(size, **WIDE)
    ),
    "long row": Form(
        95 << 20, SHARED, lambda size: trace_of(1, program='"a"', time="0" * size)
    ),
    "long plain row": Form(95 << 20, SHARED, lambda size: trace_of(1, time="0" * size)),
    "long row, others": Form(33 << 20, SHARED, after_a_long_row, plan="-w 16 -g 1"),
    "row of commas": Form(32 << 20, SHARED, lambda size: f"{HEADER}1{',' * size}\n"),
    "row of quotes": Form(
        32 << 20, SHARED, lambda size: trace_of(1, program='"' + '""' * (size // 2) + '"')
    ),
    "open quote": Form(32 << 20, SHARED, lambda size: f'{HEADER}1,0,1,1,"{"a" * size}'),
    "first line": Form(191 << 20, SHARED, lambda size: "0" * size),
    "first line of commas": Form(32 << 20, SHARED, lambda size: "," * size),
    "names": Form(MILLION, 20_000, lambda size: trace_of(size, program="{0:08}")),
    "owners": Form(300_000, 20_000, lambda size: trace_of(size, thread="{0}")),
    "spellings of an owner": Form(100_000, 20_000, spell),
    "probes": Form(300_000, 20_000, lambda size: trace_of(size, function="{0:0230}")),
}
# Scripts that are costly to read, and answers that are costly to write.
SCRIPTS = {
    "script": Form(32_000, 8_000, lambda size: trace_of(1), lambda size: of_hit("1;" * size)),
    "answer": Form(
        100,
        1,
        lambda size: trace_of(1),
        lambda size: of_hit(each(size, LEVELS)),
        more=lambda size: with_entries(size, 1, 1, {"bucket": 2 * size}),
    ),
    "texts": Form(
        5_860,
        40,
        lambda size: HEADER,
        lambda size: repeat_clause("*", 'printf("");' * size),
        more=lambda size: {"text": 2 * 512 * size},
    ),
    "widths": Form(
        51,
        1,
        lambda size: HEADER,
        lambda size: repeat_clause("BEGIN", WIDTHS * size),
        more=lambda size: {"text": 512 * size, "byte of a text": 512 * size * 170 * 255},
    ),
    "traced rows": Form(
        MILLION,
        5_000,
        trace_of,
        lambda size: of_hit("trace(1);"),
        more=lambda size: {"text": size, "byte of a text": 2 * size},
    ),
    "statements by the tree": Form(
        31_700,
        5,
        lambda size: trace_of(100),
        lambda size: repeat_clause("hit", "1;" * size),
        "-w 1 -g 1 -e tree",
    ),
    "compiled statements": Form(
        31_700,
        5,
        lambda size: trace_of(100),
        lambda size: repeat_clause("hit", "1;" * size),
        "-w 1 -g 1 -e dif",
    ),
}
# Descriptions, and the lists of clauses that they make.
DESCRIPTIONS = {
    "lists": Form(
        10_000,
        20,
        lambda size: number_probes(size, 14),
        lambda size: descriptions_by_bit(14),
        more=lambda size: {"list of clauses": size + 2, "clause in a list": 256 * size},
    ),
    "longer lists": Form(
        100_000,
        1_000,
        lambda size: number_probes(size, 17),
        lambda size: clauses_by_bit(140, 17),
        more=lambda size: {"list of clauses": size + 2, "clause in a list": 131 * size},
    ),
    "matching descriptions": Form(
        10_000,
        20,
        lambda size: number_probes(size, 14),
        lambda size: describe("z"),
        more=lambda size: {"list of clauses": 3, "clause in a list": 256},
    ),
    "other descriptions": Form(
        100_000, 15_000, lambda size: number_probes(size, 17), lambda size: describe("y")
    ),
    "other patterns": Form(
        100_000, 20, lambda size: trace_of(size, function="{0}"), lambda size: describe("?")
    ),
    "slow patterns": Form(
        10_000,
        5,
        lambda size: trace_of(size, function="a" * 247 + "{0:08}"),
        lambda size: ("::*" + "a" * 126 + "b*:{}") * 250,
    ),
}
# Aggregations and their entries.
AGGREGATIONS = {
    "threads": Form(
        300_000,
        3_000,
        lambda size: trace_of(size, thread="{0}"),
        lambda size: of_hit("@=count();"),
        more=lambda size: with_entries(1, 1, 1, {"thread with tables": size}),
    ),
    "aggregations": Form(
        3_638,
        150,
        lambda size: trace_of(1),
        lambda size: of_hit(each(size, COUNTING)),
        "-w 4 -g 4096",
        lambda size: {**with_entries(size, 1, 1), "aggregation in a group": size * 4_096},
    ),
    "aggregations without entries": Form(
        3_638,
        150,
        lambda size: trace_of(4_096, thread="{0}"),
        lambda size: f"none{{{each(size, COUNTING)}}}",
        "-w 4 -g 4096",
        lambda size: {"aggregation in a group": size * 4_096},
    ),
    "aggregations with entries": Form(
        3_638,
        5,
        lambda size: trace_of(4_096, thread="{0}"),
        lambda size: of_hit(each(size, COUNTING)),
        "-w 4 -g 4096",
        lambda size: with_entries(size, 4_096, 1),
    ),
    "the same in 16 groups": Form(
        3_638,
        20,
        lambda size: trace_of(4_096, thread="{0}"),
        lambda size: of_hit(each(size, COUNTING)),
        "-w 4 -g 16",
        lambda size: with_entries(size, 16, 1),
    ),
    "fewer aggregations with entries": Form(
        1_000,
        20,
        lambda size: trace_of(512, thread="{0}"),
        lambda size: of_hit(each(size, COUNTING)),
        "-w 4 -g 512",
        lambda size: with_entries(size, 512, 1),
    ),
    "entries": Form(
        MILLION,
        3_000,
        lambda size: trace_of(size, arg="{0}"),
        lambda size: of_hit("@[arg0]=count();"),
        more=lambda size: with_entries(1, 1, size),
    ),
    "entries in 2 groups": Form(
        MILLION,
        3_000,
        lambda size: trace_of(size, thread="{0}", arg="{0}"),
        lambda size: of_hit("@[arg0]=count();"),
        "-w 2 -g 2",
        lambda size: with_entries(1, 2, size / 2),
    ),
    "entries and an exit": Form(
        MILLION,
        3_000,
        lambda size: trace_of(size, arg="{0}"),
        lambda size: of_hit("@[arg0]=count();") + "END{exit(0);}",
        more=lambda size: {term: 2 * many for term, many in with_entries(1, 1, size).items()},
    ),
    "cached entries": Form(
        200,
        4,
        lambda size: trace_of(64 * 17, thread="{0}", arg="{0}"),
        lambda size: of_hit(each(size, "@a{0}[arg0]=count();")),
        "-w 4 -g 64",
        lambda size: with_entries(size, 64, 17),
    ),
    "short texts in keys": Form(
        57_345,
        500,
        lambda size: trace_of(size, arg="{0}"),
        lambda size: of_hit(each(10, "@a{0}[arg0" + ",execname" * 7 + "]=count();")),
        more=lambda size: with_entries(
            10,
            1,
            size,
            {"further part of an entry's key": 70 * size, "text of an entry's key": 70 * size}
            | {"byte of an entry's key": 70 * size},
        ),
    ),
    "histograms": Form(
        120_000,
        2_000,
        lambda size: trace_of(size, thread="{0}", arg="{0}"),
        lambda size: of_hit("@[arg0]=quantize(arg0);"),
        "-w 2 -g 2",
        lambda size: with_entries(
            1, 2, size / 2, {"entry of a histogram": 2 * size, "bucket": size}
        ),
    ),
}
# Variables and elements.
VARIABLES = {
    "1 variable": Form(
        20_000,
        3_000,
        lambda size: trace_of(size, thread="{0}"),
        lambda size: of_hit("self->a=1;"),
        more=lambda size: with_variables(size, 1),
    ),
    "4 variables": Form(
        20_000,
        2_000,
        lambda size: trace_of(size, thread="{0}"),
        lambda size: of_hit(each(4, "self->a{0}=1;")),
        more=lambda size: with_variables(size, 4),
    ),
    "30 variables": Form(
        20_000,
        500,
        lambda size: trace_of(size, thread="{0}"),
        lambda size: of_hit(each(30, "self->a{0}=1;")),
        more=lambda size: with_variables(size, 30),
    ),
    "clause-local variables": Form(
        20_000,
        500,
        lambda size: trace_of(size, thread="{0}"),
        lambda size: of_hit(each(33, "this->a{0}=1;")),
        more=lambda size: with_variables(size, 0, {"clause-local variable": 33 * size}),
    ),
    "1 clause-local text": Form(
        229_377,
        3_000,
        lambda size: trace_of(size, thread="{0}"),
        lambda size: of_hit('this->a="x";'),
        more=lambda size: with_variables(
            size, 0, {"clause-local variable": size, "kept text": size, "byte of a kept text": size}
        ),
    ),
    "elements": Form(
        MILLION,
        3_000,
        lambda size: trace_of(size, arg="{0}"),
        lambda size: of_hit("self->a[arg0]=1;"),
        more=lambda size: {"variable": 1, "thread's array": 1, "element": size},
    ),
    "short texts in elements": Form(
        57_345,
        500,
        lambda size: trace_of(size, arg="{0}"),
        lambda size: of_hit(each(10, "self->a{0}[arg0" + ",execname" * 3 + "]=1;")),
        more=lambda size: {
            "variable": 10,
            "thread's array": 10,
            "element": 10 * size,
            "further part of an element's key": 30 * size,
            "kept text": 30 * size,
            "byte of a kept text": 30 * size,
        },
    ),
    "kept texts": Form(
        20_000,
        500,
        lambda size: trace_of(size, thread="{0}", program="{0:0255}"),
        lambda size: of_hit(each(4, "self->a{0}=execname;")),
        more=lambda size: with_variables(
            size,
            4,
            {
                "kept text": 4 * size,
                "byte of a kept text": 4 * size * 255,
                "numbered text": size,
                "byte of a numbered text": size * 255,
            },
        ),
    ),
    "removed elements": Form(
        MILLION,
        3_000,
        lambda size: trace_of(size, arg="{0}"),
        lambda size: of_hit("self->a[arg0]=1;self->a[arg0]=0;"),
        more=lambda size: {"variable": 1, "thread's array": 1, "element": 65},
    ),
    "made texts": Form(
        30_000,
        100,
        lambda size: trace_of(size, program="{0:08}"),
        lambda size: of_hit(each(64, 'strjoin(execname,"{0:02}");')),
        more=lambda size: {"numbered text": 65 * size, "byte of a numbered text": 648 * size},
    ),
    "joined texts": Form(
        30_000,
        100,
        lambda size: trace_of(size, program="{0:08}"),
        lambda size: of_hit(each(64, 'strlen(strjoin(execname,"{0:02}"));')),
        more=lambda size: {"numbered text": size, "byte of a numbered text": 8 * size},
    ),
}
FORMS = {**TRACES, **SCRIPTS, **DESCRIPTIONS, **AGGREGATIONS, **VARIABLES}
