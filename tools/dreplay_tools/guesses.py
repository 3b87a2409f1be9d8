"""What may have led to a refusal: signs in the bytes of a script or a trace that a person would
look for.
"""
import csv
import difflib
import io
import itertools
import re

from . import mistakes, script, strangers, tokens
from .ends import shorten
from .trace import ARGS, COLUMNS, HEADER

NAMES = sorted(mistakes.BUILTINS | mistakes.CALLED)
KNOWN = (
    mistakes.BUILTINS
    | mistakes.CALLED
    | set(mistakes.WORDS)
    | set(mistakes.TYPES)
    | {"self", "this"}
)
MAX_TOKENS = 100  # of a line that are looked at

RANGES = {
    "number": (1, 2**62),
    "cpu": (0, 2**31 - 1),
    "thread": (1, 2**31 - 1),
    "pid": (0, 2**31 - 1),
    "time": (0, 2**64 - 1),
    **{f"arg{place}": (-(2**63), 2**63 - 1) for place in range(ARGS)},
}

ENCODINGS = [
    (b"\x1f\x8b", "it is compressed by gzip: `gzip -dc FILE | dreplay ..`"),
    (b"\xfd7zXZ", "it is compressed by xz: `xz -dc FILE | dreplay ..`"),
    (b"\x28\xb5\x2f\xfd", "it is compressed by zstd: `zstd -dc FILE | dreplay ..`"),
    (b"BZh", "it is compressed by bzip2: `bzip2 -dc FILE | dreplay ..`"),
    (b"PK\x03\x04", "it is a zip archive, or a spreadsheet: save it as CSV"),
    (b"\xff\xfe", "it is in UTF-16: `iconv -f UTF-16 -t UTF-8`"),
    (b"\xfe\xff", "it is in UTF-16: `iconv -f UTF-16 -t UTF-8`"),
    (b"PERFILE2", "it is a recording of perf: make a trace of it by dreplay-from-perf"),
    (b"\x7fELF", "it is a program"),
]

RECORDED = {
    "strace": "it is a recording of strace: make a trace of it by dreplay-from-strace",
    "perf": "it is of `perf script`: make a trace of it by dreplay-from-perf",
    "ftrace": "it is of the kernel's tracer: make a trace of it by dreplay-from-ftrace",
    "trace.dat": "it is a recording of trace-cmd: make a trace of it by dreplay-from-ftrace",
    "chrome": "it is of trace events in JSON: make a trace of it by dreplay-from-chrome",
    "ctf file": "it is a file of CTF: make a trace of its folder by dreplay-from-ctf",
    "babeltrace": "it is of babeltrace2: make a trace of it by dreplay-from-ctf",
}


def of_encoding(data):
    """What the first bytes say about a file that should be text."""
    for magic, meaning in ENCODINGS:
        if data.startswith(magic):
            return meaning
    if b"\0" in data[:4096]:
        return (
            "it has zero bytes, so it isn't text, or is UTF-16 without a mark: `iconv -f UTF-16 -t"
            " UTF-8`"
        )
    return None


def nearest(word):
    """The word of D that a word may be meant as."""
    if re.fullmatch(r"arg\d+", word):
        return None
    near = (
        difflib.get_close_matches(word, NAMES, 1, 0.75)
        if len(word) <= 40 and word not in KNOWN
        else []
    )
    return near[0] if near else None


def of_script(refusal, place, data, bundle):
    """Guesses on a refused script whose bytes alone say what is wrong."""
    encoding = of_encoding(data)
    if encoding:
        return [encoding]
    if data.startswith(b"\xef\xbb\xbf"):
        return ["it begins with a byte order mark: `sed -i '1s/^\\xef\\xbb\\xbf//' FILE`"]
    if HEADER.encode() in data or b"number,cpu,thread" in data[:100_000].lower():
        return [of_trace_in_script(data, bundle)]
    if refusal.name == "TooLong":
        return []
    if refusal.name == "OptionLine":
        return of_option_line(data.decode("latin-1").split("\n"), place.get("line", 0))
    return of_mistakes(refusal, place, script.Script(tokens.decode(data)))


def of_option_line(lines, line):
    """Guesses on a line that begins with `#`."""
    shown = lines[line - 1].strip() if 0 < line <= len(lines) else ""
    if re.match(r"#\s*(?:include|define|undef|if|endif|else|import)", shown):
        return ["there is no preprocessor: write the value itself"]
    if shown.startswith("#") and not re.match(r"#\s*pragma", shown):
        return ["`#` begins no comment: write `/* .. */`"]
    return []


def of_trace_in_script(data, bundle):
    near = re.search(rb"^[ \t]*-{2,}[ \t]*\r?$", data, re.MULTILINE)
    if bundle and near:
        return (
            "the dividing line isn't exactly three minuses: it is `"
            + shorten(near[0].decode("latin-1").rstrip("\r"))
            + "`"
        )
    if bundle and data.lstrip().lower().startswith(b"number,"):
        return "this is a trace without a script: `dreplay -s SCRIPT < TRACE`"
    if bundle:
        return "the trace is in the script: a line `---` has to separate them"
    return "the file of -s has a trace in it: were script and trace exchanged?"


def of_mistakes(refusal, place, refused):
    """Guesses on the token that is refused, and on the others of its line."""
    line, at = place.get("line"), place.get("token")
    if at is not None and (control := mistakes.of_control(refused.tokens, at)):
        return control
    there, found = looked_at(refused.tokens, line, at), []
    if at is not None and refusal.kind == "Type" and refusal.number == 2:
        found += mistakes.of_variable(refused, at)
    found += mistakes.of_tokens(refused, there)
    if at is not None and refusal.kind == "Parse" and not found:
        found += mistakes.of_place(refused, at)
    if refusal.kind == "Type" and refusal.number == 2:
        # Of a function that isn't known, dreplay refuses the aggregation that it would make.
        is_exact = at is not None and refused.tokens[at].kind != "aggregation"
        found += misspelt(refused.tokens, [at] if is_exact else there)
        if at is None:
            starts = [place for place in there if refused.tokens[place].text in ("self", "this")]
            found += [
                guess
                for place in starts
                for guess in mistakes.of_variable(refused, place)
                if "nothing" in guess
            ]
    return list(dict.fromkeys(found))[:3]


def looked_at(tokens, line, at):
    """The places of the tokens of a line: those from the refused one on first, and of a long line
    those near it alone.
    """
    there = [place for place, token in enumerate(tokens) if line is None or token.line == line]
    if at is None:
        return there[:MAX_TOKENS]
    near = sorted(sorted(there, key=lambda place: abs(place - at))[:MAX_TOKENS])
    return sorted(near, key=lambda place: not at <= place < at + 3)


def misspelt(tokens, there):
    """Words that may be meant as one of D."""
    for place in there:
        token, before = tokens[place], tokens[place - 1].text
        if token.kind == "word" and before != "->" and (near := nearest(token.text)):
            yield f"`{token.text}` may be meant as `{near}`"


def of_header(data):
    """Guesses on a trace whose header isn't the one that dreplay knows."""
    encoding = RECORDED.get(strangers.kind_of_start(data[:4096])) or of_encoding(data)
    if encoding:
        return [encoding]
    text = data[:100_000].decode("utf-8", "replace").lstrip("\ufeff")
    first = next((line for line in text.splitlines() if line), "")
    csv.field_size_limit(2**31 - 1)
    if not first:
        return ["it is empty"]
    if first == "---":
        return ["it begins with `---`: with -s the trace has no such line"]
    if first.lower().startswith("sep="):
        return ["the first line, `sep=`, is a spreadsheet's: leave it out"]
    for mark, name in ((";", "semicolons"), ("\t", "tabs"), ("|", "bars")):
        if first.count(mark) == len(COLUMNS) - 1:
            return [f"the fields are separated by {name}: dreplay takes commas"]
    names = next(csv.reader([first]))
    if names == COLUMNS:
        return ["the header is right; a line before it, or a second byte order mark, isn't"]
    if [name.strip().lower() for name in names] == COLUMNS:
        return ["the names in the header have capitals or spaces"]
    if sorted(names) == sorted(COLUMNS):
        return ["the columns are in another order"]
    if len(names) > 3 and len(set(names) & set(COLUMNS)) > 3:
        return of_columns(names)
    if kind := of_recording(first):
        return [kind]
    if re.match(r"[\d\"]", first) and len(names) == len(COLUMNS):
        return ["the header is missing, and the first line is a row"]
    if re.search(r"[{}@]|::", first):
        return [
            "it begins like a script: in a bundle the script comes first and a line `---` after it"
        ]
    return []


def of_columns(names):
    """How a header differs from that of a trace."""
    lacks = [name for name in COLUMNS if name not in names]
    others = [shorten(name, 40) for name in names if name not in COLUMNS]
    said = ["the header lacks " + ", ".join(f"`{name}`" for name in lacks)] if lacks else []
    if others:
        said.append(
            "it has "
            + ", ".join(f"`{name}`" for name in others[:5])
            + ", which isn't a column of a trace"
        )
    return said or ["a column is in the header twice"]


def of_recording(line):
    """Which tool makes a trace of a recording, by its first line."""
    return RECORDED.get(strangers.kind_of(line[: strangers.BYTES]))


def of_number(name, shown):
    """Why a field isn't a number of its column."""
    low, high = RANGES[name]
    if shown == name:
        return (
            "a second header: leave out the header of each further trace that is joined, and number"
            " the rows anew"
        )
    if shown == "":
        return "it is empty; only arguments may be"
    if shown != shown.strip():
        return "it has a space: take the spaces out"
    if re.fullmatch(r"[+-]?\d+\.0*", shown):
        return f"it was written as a fraction: `{shorten(shown.split('.')[0])}` is meant"
    if re.fullmatch(r"[+-]?\d+(\.\d+)?[eE][+-]?\d+", shown):
        return (
            "a spreadsheet has rounded it to an exponent: format the column as a whole number and"
            " export again"
        )
    if re.fullmatch(r"[+-]?\d+\.\d+", shown):
        whole = (
            "times are whole nanoseconds, so multiply seconds by 1000000000"
            if name == "time"
            else "only whole numbers are taken"
        )
        return f"it is a fraction: {whole}"
    if re.fullmatch(r"0[xX][0-9a-fA-F]{1,16}", shown):
        return f"it is hexadecimal: `{int(shown, 16)}` is meant"
    if shown.lower().startswith("0x"):
        return "it is hexadecimal"
    if shown.startswith("+"):
        return "no plus may be in front"
    if re.fullmatch(r"\d{1,3}([,.' _]\d{3})+", shown):
        return "it has separators of thousands"
    if re.fullmatch(r"-?\d+", shown):
        return f"`{name}` is from {low} to {high}"
    return "it isn't a number"


def of_columns_of_row(fields, is_last):
    """Why a row has another number of fields."""
    if any("\n" in field for field in fields):
        return ["a quote is never closed: a field goes over several lines"]
    if is_last and len(fields) < len(COLUMNS):
        return ["it is the last row, and was cut"]
    if len(fields) > len(COLUMNS):
        return ["a name has a comma: a field with one has to be in quotes"]
    return []


def of_usage(line):
    """What was meant by a word that isn't an option."""
    found = re.search(r"unexpected argument '(.{1,200})' found", line)
    if not found:
        return []
    word = found[1]
    if word in ("-n", "-e", "-i", "-f"):
        return [
            "a script on the command line is `dreplay -s <(echo 'SCRIPT') < TRACE`, in bash and zsh"
        ]
    if word in ("-V", "--version"):
        return ["`dreplay-show --version` writes the version"]
    if word in ("-q", "-x", "-o", "-p", "-c", "-l", "-Z"):
        return [f"`{word}` is dtrace's: dreplay has `-s`, `-w`, `-g` and `-e`"]
    if word.startswith("--script"):
        return ["the script is `-s SCRIPT`"]
    if not word.startswith("-"):
        return ["dreplay takes the trace from standard input: `dreplay -s SCRIPT < TRACE`"]
    return []


def records(data):
    """The rows of a trace without its header: for each the line of the file that it begins on, and
    its fields.

    The fields are bytes, each read as one letter.
    """
    csv.field_size_limit(2**31 - 1)
    rows = csv.reader(io.StringIO(data.decode("latin-1"), newline=""))
    try:
        yield from itertools.islice((row for row in with_number(rows) if row[1]), 1, None)
    except csv.Error:
        return


def with_number(rows):
    line = 1
    for row in rows:
        yield line, row
        line = rows.line_num + 1
