"""What dreplay-data has to answer to a bundle that dreplay answers as it does."""
import json
import signal

from lib import harness
from plain import interpreter

# Each line's first member, in the order of the lines of a run.
KINDS = [("format", "dreplay-data"), ("kind", "text"), ("kind", "entry"), ("kind", "end")]


def fault_of(result, of_dreplay, wanted):
    """Says how an answer ends otherwise than dreplay's, but for the program's name, or how it isn't
    the one that is wanted if there is one; or nothing."""
    has, wants = (
        harness.Result(it.status, b"", it.stderr.replace(b"dreplay-data", b"dreplay"))
        for it in (result, of_dreplay)
    )
    other_end = harness.differences(has, wants)
    return other_end or wanted and harness.differences(harness.without_syntax_line(result), wanted)


def lines_fault(output):
    """Says what keeps bytes from being the lines of a run by docs/DATA.md, or nothing."""
    *lines, end = output.split(b"\n")
    try:
        kinds = [next(iter(json.loads(line.decode()).items())) for line in lines]
    except (ValueError, AttributeError, StopIteration) as why:
        return f"a line is no object of JSON: {why}"
    if any(kind not in KINDS for kind in kinds) or kinds != sorted(kinds, key=KINDS.index):
        return f"other lines than those of a run, or in another order: {kinds[:20]}"
    if end or [kinds.count(KINDS[place]) for place in (0, 3)] != [1, 1]:
        return "the first or the last line isn't there once, or something follows"
    return ""


def interpret(bundle, seconds):
    """What the plain interpreter makes of a bundle as dreplay-data, but for the line of a syntax
    fault, or nothing if it takes longer by the processor."""
    signal.signal(signal.SIGPROF, give_up)
    signal.setitimer(signal.ITIMER_PROF, seconds)
    try:
        answer = interpreter.answer(*interpreter.divide(bundle), interpreter.data.render)
    except TimeoutError:
        return None
    finally:
        signal.setitimer(signal.ITIMER_PROF, 0)
    return harness.without_syntax_line(harness.Result(answer.status, answer.stdout, answer.stderr))


def give_up(*_):
    raise TimeoutError
