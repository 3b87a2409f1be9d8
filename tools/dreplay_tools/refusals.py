"""Every line that dreplay writes to standard error: its cause, what to do, and examples.

The one source of what dreplay-explain prints, of docs/ERRORS.md and of DIAGNOSTICS in
man/dreplay.1; `tools/make-pages` writes the two pages. Code is in backticks.
"""
import re
from collections import namedtuple

# `place` is what follows the number: "", " line L", " row R" or " row R column C".
# `examples` are pairs: what is refused, and what to write instead.
Refusal = namedtuple("Refusal", "kind number name place cause remedy examples")
Group = namedtuple("Group", "title status before refusals")


def script(kind, number, name, place, cause, remedy, *examples):
    return Refusal(kind, number, name, place, cause, remedy, examples)


LINE, ROW, FIELD = " line L", " row R", " row R column C"

LEX = [
    script(
        "Lex",
        1,
        "TooLong",
        "",
        "The script has more than 65,536 bytes.",
        (
            "Shorten it; comments count too. If it is the trace that is so long, the line `---`"
            " before it is missing, or `-s`."
        ),
    ),
    script(
        "Lex",
        2,
        "BadByte",
        LINE,
        "A byte that begins no token at its place.",
        (
            "There are no macro arguments such as `$1`, no character constants, no brackets in"
            " probe descriptions, no `=` outside of a body, and `#` only begins an option line."
            " Byte order marks, UTF-16 and compressed scripts are refused for this, too."
        ),
        (
            "`:::hit { trace($1); }`",
            "the value itself, as there are no macro arguments: `trace(1)`",
        ),
        ("`:::hit { trace('a'); }`", "the byte's number: `trace(97)`"),
        (
            "`syscall::[rw]*:entry { }`",
            "two descriptions: `syscall::r*:entry, syscall::w*:entry { }`",
        ),
    ),
    script(
        "Lex",
        3,
        "Unclosed",
        LINE,
        "A comment or a text constant has no end.",
        'Write the missing `*/` or `"`. A text constant ends on its line.',
        (
            '`:::hit { trace("a` and a line feed',
            'the text on one line, with `\\n` for a line feed: `trace("a\\n")`',
        ),
        ("`/* to do`", "`/* to do */`"),
    ),
    script(
        "Lex",
        4,
        "Constant",
        LINE,
        "An invalid number, or one above 2^64 - 1.",
        "A leading 0 makes a number octal. There is one suffix: `u`, `l`, `ul`, `ll` or `ull`.",
        ("`:::hit { trace(08); }`", "`trace(8)`, or `trace(010)` for octal"),
        ("`:::hit { trace(18446744073709551616); }`", "a value of at most 18446744073709551615"),
        ("`:::hit { trace(1uu); }`", "one suffix: `trace(1u)`"),
    ),
    script(
        "Lex",
        5,
        "Escape",
        LINE,
        "An unknown escape in a text constant.",
        "The escapes are `\\a \\b \\t \\n \\v \\f \\r \\\" \\' \\? \\\\`.",
        ('`:::hit { trace("a\\q"); }`', 'the byte alone, `"aq"`, or a backslash, `"a\\\\q"`'),
    ),
    script(
        "Lex",
        6,
        "OptionLine",
        LINE,
        "An option line other than `#pragma D option quiet`.",
        "Leave it out: dreplay has no other options of D.",
    ),
]

PARSE = [
    script(
        "Parse",
        1,
        "Syntax",
        LINE,
        "The script doesn't follow the grammar.",
        (
            "The line has the first token that can't follow those before it; if the script ends too"
            " soon, its last token. Look for a missing `;`, an unmatched bracket or brace, a"
            " description with more than three colons or of digits alone, a clause without a body,"
            " or a trace that isn't separated by a line `---`."
        ),
        ("`:::hit { trace(1 }`", "`:::hit { trace(1) }`"),
        ("`int x;`", "`self int64_t x;` or `this int64_t x;`: there are no global variables"),
        (
            "`a:b:c:d:e {}`, `123 {}`",
            "four fields at most: `a:b:c:d {}`; names and not probe numbers",
        ),
        (
            "`:::hit`, `:::hit { };`",
            "each clause with a body, and no semicolon after it: `:::hit { }`",
        ),
        ("`:::hit { this->a[1] = 1; }`", "`self->a[1] = 1;`: clause-local variables have no keys"),
        ("`:::hit { self->int = 1; }`", "a name that isn't a reserved word: `self->n = 1;`"),
        (
            "`:::hit { trace((string)arg0); }`",
            '`printf("%d\\n", arg0);`: casts are to types of integers',
        ),
        ("`:::hit { @n = count() + 1; }`", "`@n = count();`: one function and nothing after it"),
        ("`:::hit { if (arg0) trace(1); }`", "a predicate: `:::hit / arg0 / { trace(1); }`"),
        ("`:::hit { printa(@n); }`", "nothing: aggregations are shown at the end"),
    ),
    script(
        "Parse",
        2,
        "TooDeep",
        "",
        (
            "More than 64 brackets `(` and `[` are open at once, or there are more than 1,024"
            " tokens in a row without `;`, `{` or `}`."
        ),
        (
            "Split the expression. If the script is short, it is the trace that is so long: the"
            " line `---` before it is missing, or `-s`."
        ),
    ),
    script(
        "Parse",
        3,
        "TooManyClauses",
        "",
        "More than 256 clauses.",
        "Join some, as descriptions of one clause, or run two scripts.",
    ),
]

TYPE = [
    script(
        "Type",
        1,
        "GlobalAssignment",
        LINE,
        "A word that isn't a variable is assigned.",
        "There are no global variables: write `self->x` or `this->x` for `x`.",
        ("`x = 1;`, `x++;`, `x[pid] += 1;`", "`self->x = 1;` or `this->x = 1;`"),
    ),
    script(
        "Type",
        2,
        "Undeclared",
        LINE,
        (
            "An unknown word or function, a variable that is read before it is assigned or"
            " declared, or a function that isn't allowed there."
        ),
        (
            "Look for a misspelt built-in variable. Declare a variable at the top, as in `self"
            " int64_t x;`, or `self uint64_t x;` for a time: `int` has 32 bits. `sum` and the other"
            " aggregating functions only make aggregations, and only they do."
        ),
        ("`trace(x);`, `trace(arg10);`", "a built-in variable: `trace(arg9);`"),
        (
            "`trace(self->x);` with no assignment before it",
            (
                "a declaration above, `self int64_t x;` (for a time `uint64_t`, as `int` has 32"
                " bits), or the assignment first"
            ),
        ),
        ("`self->n = self->n + 1;` as the first assignment", "`self->n += 1;` or `self->n++;`"),
        ("`stack();`", "a known function: `strlen`, `strjoin`, `trace`, `printf` or `exit`"),
        (
            "`sum(arg0);`, `@ = strlen(execname);`",
            "an aggregating function in an aggregation statement: `@ = sum(strlen(execname));`",
        ),
    ),
    script(
        "Type",
        3,
        "Mismatch",
        LINE,
        (
            "Operands or arguments of a kind that the construct doesn't take, such as a number and"
            " a text, or too many or too few of them."
        ),
        (
            "A text as predicate is this fault too, and so is an action inside an expression, and a"
            " second declaration of a variable, or one after its assignment."
        ),
        (
            '`1 + execname`, `pid == "sh"`',
            'operands of one kind: `1 + strlen(execname)`, `execname == "sh"`',
        ),
        ("`self->s = execname; self->s = 1;`", "two variables, one of each kind"),
        ("`hit /execname/ { }`", 'an integer as predicate: `/execname != ""/`'),
        (
            "`@ = sum(execname);`, `exit(execname);`",
            "an integer: `@ = sum(strlen(execname));`, `exit(1);`",
        ),
        (
            "`trace(1, 2);`, `strlen()`, `@ = count(1);`",
            "as many arguments as the function takes: `trace(1); trace(2);`",
        ),
        ("`self->x = trace(1);`", "an action as a statement of its own: `self->x = 1; trace(1);`"),
        (
            "`self int x;` twice, or after `self->x = 1;`",
            "one declaration, before the first assignment",
        ),
    ),
    script(
        "Type",
        4,
        "Keys",
        LINE,
        (
            "Keys that differ in number or kind from earlier uses, more than eight keys, or keys"
            " where none are allowed."
        ),
        "Use the same keys everywhere, or two names.",
        (
            '`self->a[1] = 1; self->a["x"] = 1;`, `@[1] = count(); @[1, 2] = count();`',
            "the same number and kinds of keys everywhere",
        ),
        (
            "`self->a[1] = 1; self->a = 2;`, `self->b = 1; self->b[1] = 2;`",
            "two names, one with keys and one without",
        ),
        ("`@[1, 2, 3, 4, 5, 6, 7, 8, 9] = count();`", "eight keys at most"),
        ("`pid[1]`", "`pid`"),
    ),
    script(
        "Type",
        5,
        "AggregationRedefined",
        LINE,
        (
            "An aggregation that had another function before, or other bounds or another step "
            "of `lquantize`."
        ),
        "Give the two different names. All aggregations without a name are one.",
        ("`@ = count(); @ = sum(1);`", "two names: `@n = count(); @total = sum(1);`"),
        (
            "`@ = lquantize(arg0, 0, 100); @ = lquantize(arg1, 0, 200);`",
            "the same bounds and step, or two names",
        ),
    ),
    script(
        "Type",
        6,
        "LquantizeBounds",
        LINE,
        "The bounds or the step of `lquantize` aren't constants, or out of range.",
        (
            "The lower bound comes first; both are from -2^31 to 2^31 - 1, the step is from 1 to"
            " 65535, and between the bounds are 1 to 65,535 steps."
        ),
        (
            "`@ = lquantize(arg0, 0, arg1);`, `@ = lquantize(arg0, 0, 10 * 10);`",
            "constants: `@ = lquantize(arg0, 0, 100, 10);`",
        ),
        (
            "`@ = lquantize(arg0, 0, 0);`, `@ = lquantize(arg0, 0, 10, 11);`",
            "the lower bound below the upper one, with room for a step between them",
        ),
        (
            "`@ = lquantize(arg0, 0, 1000000);`",
            "at most 65,535 steps: `@ = lquantize(arg0, 0, 1000000, 1000);`",
        ),
    ),
    script(
        "Type",
        7,
        "PrintfArguments",
        LINE,
        (
            "A `printf` whose format isn't a text constant, has an unknown conversion or a width "
            "over 255, or doesn't fit its arguments."
        ),
        "`%d`, `%i`, `%u`, `%x` and `%o` take an integer, `%s` takes a text.",
        ("`printf(execname);`", 'a text constant as format: `printf("%s", execname);`'),
        (
            '`printf("%q", 1);`, `printf("%+d", 1);`, `printf("%256d", 1);`',
            "a known conversion, with a width of 255 at most",
        ),
        (
            '`printf("%d", execname);`, `printf("%s", 1);`',
            '`printf("%s", execname);`, `printf("%d", 1);`',
        ),
        (
            '`printf("%d");`, `printf("%d", 1, 2);`',
            'an argument for each conversion: `printf("%d %d", 1, 2);`',
        ),
    ),
    script(
        "Type",
        8,
        "ReadOnly",
        LINE,
        "A built-in variable is assigned.",
        "Use a variable of your own.",
        ("`pid = 1;`, `arg0++;`", "`self->pid = 1;`"),
    ),
    script(
        "Type",
        9,
        "NoRegister",
        LINE,
        "An expression that needs more than six registers.",
        "Put a part of it into a variable first.",
        (
            "`trace(arg0+(arg1+(arg2+(arg3+(arg4+(arg5+arg6))))));`",
            "`this->t = arg4+(arg5+arg6); trace(arg0+(arg1+(arg2+(arg3+this->t))));`",
        ),
    ),
]

TRACE = [
    script(
        "Trace",
        1,
        "Header",
        "",
        "The trace has no header, or a different one.",
        (
            "Put the header first: its twenty names in their order. In a bundle a line `---` comes"
            " before it; with `-s` there is none. The trace has to be plain CSV in UTF-8, with"
            " commas: not compressed, not UTF-16, no `;`."
        ),
    ),
    script(
        "Trace",
        2,
        "Columns",
        ROW,
        "A row with fewer or more than 20 fields.",
        "Look for a cut row, a comma outside quotes, a quote that is never closed.",
        (
            "`1,0,7,700,cat,1000,syscall,,read,entry`",
            "all twenty fields; those after the last argument may be empty",
        ),
    ),
    script(
        "Trace",
        3,
        "Number",
        FIELD,
        "A field that isn't a number, or is out of its column's range.",
        (
            "A number is decimal digits; an argument may have one minus in front, and may be empty."
            " Look for a sign, a space, a decimal point, an exponent, an empty field, a number too"
            " large, or a second header where two traces were joined."
        ),
        (
            "`3.0`, `1.79E+18`, `0x1f`, `+3`, `1,000`",
            "`3`, `1790000000000000000`, `31`, `3`, `1000`",
        ),
    ),
    script(
        "Trace",
        4,
        "Order",
        ROW,
        "A number that isn't above that of the row before.",
        "Sort the rows by `number`, or number them anew.",
    ),
    script(
        "Trace",
        5,
        "Text",
        FIELD,
        "A text of more than 255 bytes, with a zero byte, or not in UTF-8.",
        "Shorten it, or recode it: `iconv -f LATIN1 -t UTF-8`.",
    ),
    script(
        "Trace",
        6,
        "Reserved",
        ROW,
        "The provider is `dtrace`.",
        "Leave these rows out: every run has a `BEGIN` and an `END` of its own.",
    ),
    script(
        "Trace",
        7,
        "TooMany",
        "",
        "More than 1,000,000 rows.",
        (
            "Cut it by thread, by `--split` of the converters, and add the answers up by"
            " `dreplay-show`: no firing depends on another thread. Or record fewer calls:"
            " `dreplay-from-strace` has `--only`, `--since` and `--rows`."
        ),
    ),
]

SYSTEM = [
    Refusal(
        "",
        0,
        "out of memory",
        "",
        "Memory ran out.",
        (
            "Take a part of the trace, or a machine with more memory. A trace takes up to three"
            " times the size of its file where its names repeat, up to 20 times where they all"
            " differ, and more with variables on very many threads."
        ),
        (),
    ),
    Refusal(
        "",
        0,
        "read failed",
        "",
        "The file of `-s` or standard input can't be read.",
        "Check that the file exists, is a regular file and is readable.",
        (),
    ),
    Refusal(
        "",
        0,
        "write failed",
        "",
        "Standard output can't be written: a full disk, or a closed pipe.",
        "A beginning of the answer may have gone out. With `| head` that is fine.",
        (),
    ),
]

USAGE = Refusal(
    "error",
    0,
    "error:",
    "",
    (
        "The command line is wrong: an argument that isn't an option, an option without its value"
        " or given twice, a number of workers outside 1 to 16 or of groups outside 1 to 4096, an"
        " engine other than `dif` and `tree`, or an argument that isn't UTF-8 (`a word is not"
        " UTF-8`)."
    ),
    "`dreplay --help` lists the options. The trace comes by `<`: `dreplay -s SCRIPT < TRACE`.",
    (),
)

GROUPS = [
    Group("The command line", 2, "", [USAGE]),
    Group("The system", 1, "dreplay: ", SYSTEM),
    Group("The script's tokens", 3, "dreplay: script refused: ", LEX),
    Group("The script's grammar", 3, "dreplay: script refused: ", PARSE),
    Group("The script's types", 3, "dreplay: script refused: ", TYPE),
    Group("The trace", 4, "dreplay: trace refused: ", TRACE),
]


def line_of(group, refusal):
    """The line on standard error, with letters for the numbers of a place."""
    if refusal.number:
        return f"{group.before}{refusal.kind} {refusal.number}{refusal.place}"
    return group.before + refusal.name


def find(line):
    """The refusal that a line tells, with its place as numbers: line, row, column. None if it is
    no such line.
    """
    for group in GROUPS:
        for refusal in group.refusals:
            pattern = (
                re.escape(line_of(group, refusal).replace(refusal.place, ""))
                if refusal.number
                else re.escape(line_of(group, refusal))
            )
            match = re.match(
                pattern
                + r"(?: line (?P<line>\d{1,9})"
                r"| row (?P<row>\d{1,9})(?: column (?P<column>\d{1,9}))?)?(?!\d)",
                line,
            )
            if match and (refusal is USAGE or match.end() == len(line)):
                return refusal, {
                    part: int(value) for part, value in match.groupdict().items() if value
                }
    return None
