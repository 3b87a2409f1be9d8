"""Common mistakes in a script that is refused, as its tokens show them, and what to write instead.
"""
import re

from .descriptions import advice
from .ends import shorten
from .script import FUNCTIONS, TEXT_BUILTINS, group_end, parts
from .tokens import ASSIGNING, BODY, HEAD, PREDICATE, join

NUMBER_BUILTINS = {"timestamp", "cpu", "pid", "tid", *(f"arg{place}" for place in range(10))}
BUILTINS = TEXT_BUILTINS | NUMBER_BUILTINS
ACTIONS = {"trace", "printf", "exit"}
CALLED = FUNCTIONS | ACTIONS | {"strlen", "strjoin"}
TYPES = (
    "string char short int long signed unsigned int8_t int16_t int32_t int64_t uint8_t uint16_t"
    " uint32_t uint64_t"
).split()
LOGIC = {"and": "&&", "or": "||", "not": "!", "xor": "^^"}
CONVERSION = re.compile(
    r"%(?:%|[-0]*(?:[1-9]\d*)?(?:hh|h|ll|l)?[diuxos])|(%[-0-9.+# '*]*[a-zA-Z@]{0,2})"
)

# Words of D, of bpftrace and of C that dreplay doesn't have, and what to write instead.
PATHS = (
    "with `--paths` a call's first path is in `probemod`: `dreplay-record --paths`, or `dreplay-ask"
    " --with=--paths`"
)
NO_MEMORY = f"a trace has no memory of processes: {PATHS}"
NO_STACKS = "a trace has no stacks"
SHARED = 'for what threads share see "State that threads share" in docs/COMING_FROM.md'
NO_LOOPS = "D has no loops"
NO_PARTS = "texts are compared and joined, and have no parts: `==`, `strlen`, `strjoin`"
NO_IF = "D has no `if`: use clauses with predicates, `/ condition /`, or `condition ? a : b`"
CONTROLS = {
    **dict.fromkeys(("if", "else"), NO_IF),
    **dict.fromkeys(("for", "while", "unroll"), NO_LOOPS),
}
NOT_RECORDED = "cwd root epid id ipl lgrp pset chip uid gid username cgroup uregs reg zonename jid"
MACROS = "target pid ppid uid gid euid egid pgid sid projid taskid".split()
MAX_SHOWN = 60  # letters of a token in a guess
MAX_JOINED = 20  # tokens without a blank between them, and blocks, that are looked at
WORDS = {
    "comm": "`comm` is bpftrace's; in D it is `execname`",
    "nsecs": "`nsecs` is bpftrace's; in D it is `timestamp`",
    "elapsed": (
        "`elapsed` is bpftrace's: make the trace by `--from-zero`, and `timestamp` begins at 0"
    ),
    "walltimestamp": "a trace has one time: use `timestamp`",
    "vtimestamp": "a trace has one time: use `timestamp`",
    "hist": "`hist` is bpftrace's; in D it is `quantize`",
    "lhist": "`lhist` is bpftrace's; in D it is `lquantize(value, lower, upper, step)`",
    "llquantize": (
        "there is no `llquantize`: use `quantize`, or an `lquantize` for each power of ten, as in"
        " docs/COMING_FROM.md"
    ),
    "stddev": "there is no `stddev`: docs/COMING_FROM.md makes it of sums",
    "stats": "`stats` is bpftrace's; use `count`, `avg` and `sum` under three names",
    "printa": (
        "there is no `printa`: aggregations are shown at the end, and dreplay-show lays them out"
    ),
    "print": (
        "there is no `print`: aggregations are shown at the end; of a value write `trace(value)`"
    ),
    "trunc": "there is no `trunc`: `dreplay-show --top N` keeps the largest entries",
    "clear": (
        "there is no `clear`: with `timestamp / 1000000000` as a key each second has entries of"
        " its own"
    ),
    "normalize": "there is no `normalize`: divide before, as in `sum(arg0 / 1024)`",
    "denormalize": "there is no `denormalize`",
    "delete": "assign 0: `self->x = 0;` gives the storage back",
    **CONTROLS,
    **dict.fromkeys(("copyinstr", "copyin", "str", "stringof", "uptr", "buf"), NO_MEMORY),
    **dict.fromkeys(("stack", "ustack", "jstack", "kstack", "caller", "ucaller"), NO_STACKS),
    **dict.fromkeys(("stackdepth", "ustackdepth", "usym", "ksym", "sym", "umod"), NO_STACKS),
    **dict.fromkeys(
        ("substr", "strstr", "index", "rindex", "strchr", "strtok", "strcontains"), NO_PARTS
    ),
    "fds": f"there is no `fds`: {PATHS}",
    "progenyof": "there is no `progenyof`: a trace is of a command and all that it starts",
    **{word: f"a trace has no `{word}`" for word in NOT_RECORDED.split()},
    "ppid": (
        "with `--ppid` the parent is in `arg9`: `dreplay-record --ppid`, or `dreplay-ask"
        " --with=--ppid`"
    ),
    "errno": (
        "of a call that failed, `arg0` of the return is -1 and `arg1` the error's number below 0,"
        " as in `@[arg1]`"
    ),
    "retval": "`retval` is bpftrace's; in D it is `arg0` or `arg1` of a probe `return`",
    "args": "there is no `args`: the arguments are `arg0` to `arg9`, all integers",
    "curpsinfo": "there is no `curpsinfo`: use `pid` and `execname`",
    **{word: f"there is no `{word}`: use `tid`" for word in ("curthread", "curlwpsinfo")},
    "curcpu": "there is no `curcpu`: use `cpu`",
    "strftime": "times are nanoseconds since 1970: write `timestamp`",
    "basename": "there is no `basename`",
    "dirname": "there is no `dirname`",
    "inline": "there is no `inline`: write the constant where it is used",
    "typedef": "there are no types of your own",
    "struct": "there are no structures",
    **dict.fromkeys(("speculate", "speculation", "commit", "discard"), "there are no speculations"),
    **dict.fromkeys(
        ("system", "panic", "stop", "raise", "copyout"),
        "nothing runs any more that an action could change",
    ),
    "func": "use `probefunc`",
    "probe": "use `probefunc` and `probename`",
    "interval": (
        "timers never fire in a trace: `timestamp / 1000000000` as a key gives an entry for each"
        " second"
    ),
    "nil": 'write 0 or ""',
    "NULL": "write 0",
    "true": "there is no `true`: write 1",
    "false": "there is no `false`: write 0",
}


class Near:
    """A token of a refused script, with those before and after it. What is shown of their texts
    is shortened, as a name or a text constant may fill the script.
    """

    def __init__(self, tokens, at):
        self.tokens, self.at = tokens, at
        self.token = tokens[at]

    def text(self, offset):
        """The text of the token `offset` places further on; empty if there is none."""
        at = self.at + offset
        return self.tokens[at].text if 0 <= at < len(self.tokens) else ""

    def show(self, offset):
        return shorten(self.text(offset))

    def kind(self, offset):
        at = self.at + offset
        return self.tokens[at].kind if 0 <= at < len(self.tokens) else ""

    def is_near(self, offset):
        """Whether there is no blank between the token and the next one."""
        at = self.at + offset
        return at < len(self.tokens) and self.tokens[at].start == self.tokens[at - 1].end

    def after_keys(self):
        """The text after a name with its keys in brackets."""
        end = group_end(self.tokens, self.at + 1) if self.text(1) == "[" else self.at + 1
        return self.tokens[end].text if end < len(self.tokens) else ""


def of_tokens(script, places):
    """What is mistaken about the tokens at some places of a line, each mistake once."""
    nears, found = [Near(script.tokens, place) for place in places], []
    comment = min((near.at for near in nears if begins_comment(near)), default=len(script.tokens))
    for near in nears:
        if near.at <= comment:
            found += [guess for rule in RULES for guess in rule(near) if guess]
    return list(dict.fromkeys(found))


# -- bytes that begin no token


def bad_bytes(near):
    token = near.token
    if token.kind == "bad":
        yield OF_BYTES.get(token.text, lambda _: None)(near)
    elif token.kind == "unclosed":
        yield (
            "a text constant ends on its line"
            if token.text[0] == '"'
            else "the comment has no `*/`"
        )


def quote(near):
    if (
        sum(token.text == "'" and token.line == near.token.line for token in near.tokens[: near.at])
        % 2
    ):
        return None  # that which closes
    closing = next(
        (at for at in range(near.at + 1, len(near.tokens)) if near.tokens[at].text == "'"), None
    )
    if closing is None or near.token.line != near.tokens[closing].line:
        return "texts are in double quotes, and there are no character constants"
    inside = shorten(join(near.tokens[near.at + 1 : closing]))
    return f'texts are in double quotes: `"{inside}"`; of one character write the byte\'s number'


def hash_mark(near):
    if near.text(1) in ("include", "define", "ifdef", "if", "endif", "undef"):
        return "there is no preprocessor: write the value itself"
    if near.text(1) == "pragma":
        return "`#pragma D option quiet` is before a clause, on a line of its own"
    return "`#` begins no comment: write `/* .. */`"


def dollar(near):
    name = near.text(1)
    if near.token.place == HEAD and name.isdigit():
        return '`$` is of awk: "From awk" in docs/COMING_FROM.md says what to write here'
    if near.text(-1) == "pid" and near.token.place == HEAD:
        return None  # the description is translated
    if near.kind(1) == "word" and name not in MACROS and len(name) <= MAX_SHOWN:
        return f"`${name}` is bpftrace's; in D it is `this->{name}`"
    return "there are no macro arguments: write the value itself" if near.kind(1) else None


def in_head(near):
    if near.token.place != HEAD:
        return None
    if near.text(0) in ("[", "]"):
        return "there are no brackets in descriptions: write `syscall::r*:entry, syscall::w*:entry`"
    if near.text(0) == near.text(-1) == "=" or near.text(0) in ("<", ">", "!", "&", "|"):
        return "a predicate is between slashes: `/ pid == 700 /`"
    return None


def dot(near):
    scope = near.text(-1)
    return f"write `{scope}->{near.show(1)}`" if scope in ("this", "self") else None


OF_BYTES = {
    "'": quote,
    "#": hash_mark,
    "$": dollar,
    ".": dot,
    "`": lambda _: "there are no kernel variables",
    "\ufeff": lambda _: "it begins with a byte order mark: `sed -i '1s/^\\xef\\xbb\\xbf//' FILE`",
    **dict.fromkeys('[]=<>!&|()~^%"', in_head),
    "\\": lambda _: "a statement may go over several lines without a backslash",
}


# -- words


def words_of_others(near):
    token = near.token
    if token.kind == "word" and near.text(-1) != "->":
        if token.text in WORDS:
            yield WORDS[token.text]
        elif token.text in LOGIC:
            yield f"`{token.text}` is written `{LOGIC[token.text]}` in D"
        elif re.fullmatch(r"arg\d+", token.text) and token.text not in BUILTINS:
            yield "the arguments are `arg0` to `arg9`"
    elif token.kind == "run":
        first = token.text.split(":")[0]
        if first in WORDS and first not in ("str", "index"):
            yield WORDS[first]
        yield advice(find_description(near))


def find_description(near):
    """A description of another tool, which may have marks: uprobe:/bin/sh:main, pid$target:..."""
    text, end = near.text(0), near.at + 1
    if not (near.text(1) == "$" or (text.endswith(":") and near.text(1) == "/")):
        return text
    while near.is_near(end - near.at) and near.tokens[end].text not in ("{", ","):
        text += near.tokens[end].text
        end += 1
        if end > near.at + MAX_JOINED:
            break
    return text


def queries(near):
    if near.at == 0 and near.text(0).lower() == "select":
        yield 'this is SQL: "From SQL" in docs/COMING_FROM.md says what to write here'


def brackets(near):
    word, after = near.text(0), near.text(1)
    if near.token.kind != "word" or near.text(-1) in ("->", "self", "this"):
        return
    if word in CALLED and after != "(":
        yield f"`{word}` is a function: `{word}({'' if word == 'count' else '..'})`"
    elif word in BUILTINS and after == "(":
        yield f"`{word}` is a variable: it has no brackets"
    elif word == "exit" and near.text(2) == ")":
        yield "`exit` takes a status: `exit(0)`"
    elif word == "lquantize" and arguments(near) == 3:
        yield "`lquantize` takes a step, too: `lquantize(value, lower, upper, step)`"
    elif word == "count" and near.text(2) not in (")", ""):
        yield "`count()` takes no argument; of a value take `sum`"
    elif word in FUNCTIONS - {"count"} and near.text(2) == ")":
        yield f"`{word}` takes a value: `{word}(arg0)`"


def arguments(near):
    """How many arguments a function has that is called here."""
    end = group_end(near.tokens, near.at + 1)
    return len(parts(near.tokens[near.at + 2 : end - 1]))


def unquote(near):
    if (
        near.text(-1) in ("==", "!=")
        and near.token.kind == "word"
        and near.text(1) not in ("(", "->")
    ):
        if near.text(0) not in BUILTINS | {"self", "this"}:
            yield f'a text is in double quotes: `"{near.show(0)}"`'


def declarations(near):
    """Words of types that declare something where that can't be."""
    kind, name = near.text(0), near.text(1)
    before = ("self", "this", "inline", "->", "(", "[", ",", *TYPES)
    if kind not in TYPES or near.text(-1) in before:
        return
    while name in TYPES:
        near = Near(near.tokens, near.at + 1)
        name = near.text(1)
    if near.kind(1) in ("word", "run") and re.fullmatch(r"\w+", name):
        name = shorten(name)
        yield (
            f"there are no global variables: declare `self {kind} {name};` or `this {kind} {name};`"
            " before the first clause"
        )


def globals_(near):
    """A word that is assigned, or has keys, and isn't a variable."""
    token, word = near.token, near.text(0)
    before = ("->", ".", "$", "self", "this")
    if token.kind != "word" or token.place != BODY or near.text(-1) in before:
        return
    if word in BUILTINS | set(CALLED) | set(WORDS) | set(TYPES):
        return
    word = near.show(0)
    if near.text(1) == "[":
        yield (
            f"there are no global arrays: `self->{word}[..]` is the thread's, and `@{word}[..]` an"
            f" aggregation; {SHARED}"
        )
    elif near.text(1) in ASSIGNING | {"++", "--"} or near.text(-1) in ("++", "--"):
        yield (
            f"there are no global variables: `self->{word}` is the thread's, and `@{word} ="
            f" count();` is all threads'; {SHARED}"
        )
        if near.text(2) == "timestamp":
            yield (
                "for the time since the start make the trace by `--from-zero`: then `timestamp`"
                " begins at 0"
            )


# -- marks


def equals(near):
    if near.text(0) == "=" and near.token.place == PREDICATE:
        yield "`=` assigns; `==` compares"


def aggregations(near):
    if near.token.kind == "aggregation":
        after = near.after_keys()
        if after in ASSIGNING - {"="} or after in ("++", "--"):
            yield (
                f"an aggregation takes a function: `{near.show(0)}[keys] = count();` or `="
                " sum(value);`"
            )


def begins_comment(near):
    return near.text(0) == near.text(1) == "/" and near.is_near(1) and not near.token.closes


def comments(near):
    if begins_comment(near):
        yield "there are no comments after `//`: write `/* .. */`"


def semicolons(near):
    if near.text(0) == ";" and near.text(-1) == "}" and near.token.place == HEAD:
        yield "no semicolon follows a clause"


def descriptions(near):
    shown = near.text(0)
    if near.token.kind != "run":
        return
    if shown.count(":") > 3:
        yield "a description has four fields at most"
    elif shown.isdigit() and near.text(1) in ("{", ","):
        yield "a description has names and no number"
    elif re.match(r"(?:tick|profile)-", shown):
        yield WORDS["interval"]
    elif re.match(r"(?:self|this)\W", shown) and near.text(1) != "{":
        yield "statements are between braces: `probe { statement; }`"


def formats(near):
    """Conversions of printf that there are none of."""
    if near.token.kind != "text" or near.text(-2) != "printf":
        return
    for found in CONVERSION.finditer(near.text(0)):
        if found[1] is None:
            continue
        shown, end = shorten(found[1]), found[1][-1:]
        if "@" in found[1]:
            yield (
                "`%@` is of printa: aggregations are shown at the end, and dreplay-show lays"
                " them out"
            )
        elif end == "p":
            yield "`%p`: of an address write `%x`"
        elif end in "feg" or "." in found[1]:
            yield f"`{shown}`: there are no fractions: `%d`, and a width such as `%8d`"
        else:
            yield (
                f"`{shown}` isn't a conversion here: there are `%d %i %u %x %o %s`, with a width"
                " and `-` or `0`"
            )


RULES = [
    bad_bytes,
    equals,
    aggregations,
    unquote,
    words_of_others,
    queries,
    brackets,
    declarations,
    globals_,
    comments,
    semicolons,
    descriptions,
    formats,
]


# -- what the place of a refusal alone shows


def of_place(script, at):
    """What may be missing before a token that the grammar doesn't take there."""
    near = Near(script.tokens, at)
    before = near.text(-1)
    if near.kind(0) == "run" and at == len(script.tokens) - 1:
        shown = near.text(0) if len(near.text(0)) <= MAX_SHOWN else "provider:::name"
        yield f"a clause has a body: `{shown} {{ @[probefunc] = count(); }}`"
    elif near.token.place == PREDICATE and near.text(0) == "{" and not script.tokens[at - 1].closes:
        yield "the slash that ends the predicate is missing: `/ condition / {`"
    elif at == len(script.tokens) - 1 and near.text(0) != "}" and near.token.place == BODY:
        yield "a brace `}` is missing at the end"
    elif (
        near.token.place == BODY
        and near.kind(0) in ("word", "aggregation")
        and ends_statement(near, before)
    ):
        line = script.tokens[at - 1].line
        yield f"a semicolon may be missing after `{near.show(-1)}` in line {line}"
    elif near.text(0) in (";", "}", "{") and (open_one := find_unclosed(script.tokens, at)):
        yield f"`{open_one.text}` in line {open_one.line}, column {open_one.column} isn't closed"
    elif near.text(0) in (")", "]") and find_unclosed(script.tokens, at) is None:
        yield f"nothing is open that `{near.text(0)}` could close"


def of_control(tokens, at):
    """What to write for an `if` or a loop that leads the statement or the block of a token.

    dreplay refuses what follows it: the statement, or what stands after the block, as the brace
    that ends the block ends the clause.
    """
    blocks = open_blocks(tokens[:at]) if tokens[at].place == HEAD else []
    leading = [leader(tokens, place) for place in (at, *reversed(blocks))]
    return [CONTROLS[word] for word in leading if word in CONTROLS][:1]


def open_blocks(tokens):
    """The places of the last braces that open blocks in a clause whose own brace isn't closed."""
    depth, blocks = 0, []
    for index, token in enumerate(tokens):
        if token.text == "}":
            depth = max(depth - 1, 0)
        elif token.text == "{":
            depth += 1
            if depth == 1:
                blocks.clear()
            else:
                blocks.append(index)
    return blocks[-MAX_JOINED:] if depth else []


def leader(tokens, at):
    """The word before a place, or before the parentheses that end there."""
    depth = 0
    for index in range(at - 1, -1, -1):
        text = tokens[index].text
        depth += (text == ")") - (text == "(")
        if depth == 0 and text != "(":
            return text
    return ""


def ends_statement(near, before):
    return (
        before in (")", "]", "++", "--")
        or near.kind(-1) in ("word", "number", "text")
        and before not in TYPES
    )


def find_unclosed(tokens, at):
    """The last bracket that is open before a token of the same statement."""
    depth = 0
    for token in reversed(tokens[:at]):
        if token.text in (";", "{", "}"):
            return None
        if token.text in (")", "]"):
            depth += 1
        elif token.text in ("(", "["):
            if depth == 0:
                return token
            depth -= 1
    return None


# -- variables that are read before they are known


def of_variable(script, at):
    """The declaration that a variable needs that is read further up than it is assigned."""
    near = Near(script.tokens, at)
    scope, name = near.text(0), near.text(2)
    if scope not in ("self", "this") or near.text(1) != "->":
        return
    keys = near.text(3) == "["
    assigned = [
        place
        for place in range(len(script.tokens))
        if is_assigned(script.tokens, place, scope, name)
    ]
    if not assigned:
        yield f"nothing assigns `{near.show(2)}`"
        return
    is_time = any("timestamp" in right_side(script.tokens, place) for place in assigned)
    kind = "uint64_t" if is_time else "int64_t"
    kind = "string" if script.variables.get((scope, name)) else kind
    name, line = near.show(2), script.tokens[assigned[0]].line
    yield (
        f"`{name}` is assigned in line {line}, and not before: declare"
        f" `{scope} {kind} {name}{'[..]' if keys else ''};` on top"
    )


def is_assigned(tokens, at, scope, name):
    if tokens[at].text != scope:  # most tokens end here, at the least price
        return False
    if [token.text for token in tokens[at + 1 : at + 3]] != ["->", name]:
        return False
    end = (
        group_end(tokens, at + 3)
        if tokens[at + 3 : at + 4] and tokens[at + 3].text == "["
        else at + 3
    )
    return end < len(tokens) and tokens[end].text in ASSIGNING


def right_side(tokens, at):
    texts = []
    for token in tokens[at + 3 :]:
        if token.text in (";", "}"):
            break
        texts.append(token.text)
    return texts
