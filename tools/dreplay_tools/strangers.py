"""What a recording is, by its first lines, so that no tool takes another one's."""
import itertools
import re

from .ends import Failure
from .trace import HEADER

NOTHING_CONVERTED = 3
LINES, BYTES = 200, 400  # that are looked at, and of each line
STRACE = re.compile(
    r"(?:\[pid +\d+\] |\d{1,10} +)?(?:\d\d:\d\d:\d\d|\d{1,10})\.\d{3,9} "
    r"(?:\(\+ {1,20}\d{1,10}\.\d{1,9}\) )?"
    r"(?:[a-z_0-9]+\(|<\.\.\. |--- |\+\+\+ )"
)
PERF = re.compile(
    r"(?:\[\d{3,}\]|\d)\s{1,40}\d{1,10}\.\d{6,9}: +(?:\d{1,20} +)?[\w-]{1,80}:[\w:.-]{1,80}: "
)
FTRACE = re.compile(r"-\d{1,10} +(?:\( *[\d-]+\) +)?\[\d{3,}\] +(?:\S{4,8} +)?\d{1,10}\.\d{6,9}: ")
CHROME = re.compile(rb"\s{0,100}[\[{]\s{0,100}(?:[{\]]|\")")
CHROME_MEMBER = re.compile(rb'"(?:traceEvents|displayTimeUnit|ph)"\s{0,100}:')
BABELTRACE = re.compile(
    r"\[(?:(?:\d{4}-\d\d-\d\d )?\d\d:\d\d:\d\d|\d{1,11})\.\d{9}\] \([+?.\d]{1,40}\) "
)
PERF_TRACE = re.compile(
    r" {0,20}[\d.?]{1,20} \( {0,20}[\d.]{0,20}(?: ms)? {0,20}\): [^ ]{1,80}/\d{1,10} "
)
ROW = re.compile(
    r"\d{1,19}(?:,\d{1,10}){3},[^,]{0,80},\d{1,20}(?:,[^,]{0,80}){4}(?:,-?\d{0,20}){10}$"
)
CTF_MAGIC = b"\xc1\x1f\xfc\xc1", b"\xc1\xfc\x1f\xc1"  # of a stream, in either order of its bytes
UTF_16 = b"\xff\xfe", b"\xfe\xff"
# What each kind of recording is refused with by the tools that it isn't for.
KINDS = {
    "trace": "it is a trace already: give it to dreplay",
    "perf.data": "it is a recording of perf: give it to dreplay-from-perf",
    "trace.dat": "it is a recording of trace-cmd: give it to dreplay-from-ftrace",
    "chrome": "it is of trace events in JSON: give it to dreplay-from-chrome",
    "ctf file": "it is a file of CTF: give the folder that it is in to dreplay-from-ctf",
    "answer": "it is an answer of dreplay-data: give it to dreplay-show",
    "utf-16": "it is in UTF-16: recode it by 'iconv -f UTF-16 -t UTF-8'",
    "binary": "it isn't text",
    "strace": "it is a recording of strace: give it to dreplay-from-strace",
    "perf": "it is of 'perf script': give it to dreplay-from-perf",
    "ftrace": "it is of the kernel's tracer: give it to dreplay-from-ftrace",
    "babeltrace": "it is of babeltrace2: give it to dreplay-from-ctf",
    "perf trace": (
        "it is what 'perf trace' prints: record by 'perf trace record', whose file perf.data is"
        " taken"
    ),
    "rows": "it has rows of a trace, and no header before them: docs/TRACE.md has that",
}


def kind_of_start(begins):
    """What a file is by its first bytes; none if its lines have to tell."""
    if begins.startswith(HEADER[:30].encode()):
        return "trace"
    if begins.startswith((b"PERFILE2", b"PERFFILE")):
        return "perf.data"
    if begins.startswith((b"\x17\x08\x44tracing", b"tracing")):
        return "trace.dat"
    if begins.startswith(CTF_MAGIC):
        return "ctf file"
    if begins.startswith(b'{"format":"dreplay-data"'):
        return "answer"
    if CHROME.match(begins) and CHROME_MEMBER.search(begins):
        return "chrome"
    if begins[:2] in UTF_16:
        return "utf-16"
    return "binary" if b"\0" in begins else None


def kind_of(line):
    """Which program wrote a line; none if it can't be told."""
    if STRACE.match(line):
        return "strace"
    if BABELTRACE.match(line):
        return "babeltrace"
    if PERF.search(line):
        return "perf"
    if FTRACE.search(line) or line.startswith("# tracer: "):
        return "ftrace"
    if PERF_TRACE.match(line):
        return "perf trace"
    return "rows" if ROW.match(line.rstrip("\r\n")) else None


def kinds_of_lines(recording):
    """Which programs wrote the first lines of a recording. It is read from its start again."""
    start, found = recording.tell(), set()
    for line in itertools.islice(iter(lambda: recording.readline(1 << 16), b""), LINES):
        found.add(kind_of(line[:BYTES].decode("utf-8", "replace")))
    recording.seek(start)
    return found


def refuse_strangers(recording, own):
    """Refuses what isn't text, or the text of another program. The recording is read from its start
    again.
    """
    start = recording.tell()
    begins = recording.read(4096)
    recording.seek(start)
    kind = kind_of_start(begins)
    if kind is None:
        found = kinds_of_lines(recording)
        kind = None if own in found else next((it for it in KINDS if it in found), None)
    why = KINDS[kind] if kind else None if begins else "the recording is empty"
    if why and kind != own:
        raise Failure(f"nothing was converted: {why}", NOTHING_CONVERTED)
