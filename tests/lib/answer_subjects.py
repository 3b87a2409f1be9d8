"""The tools that read scripts and answers as subjects of tests/fuzz_tools: dreplay-show,
dreplay-explain, dreplay-many and dreplay-ask.
"""
import gzip
import json
import os
import re
import xml.dom.minidom
import xml.parsers.expat

from lib import case_files, converter_subjects
from lib.tool_fuzzing import CONTROLS, Round, Subject
from plain import interpreter

ROWS = 60  # of a trace that a round begins with
LINES = 80  # of an answer
REFUSED = [
    "script refused: Lex 2 line 1",
    "script refused: Parse 1 line 1",
    "script refused: Parse 2",
    "script refused: Type 2 line 1",
    "script refused: Type 7 line 2",
    "trace refused: Trace 1",
    "trace refused: Trace 2 row 3",
    "trace refused: Trace 3 row 2 column 11",
    "trace refused: Trace 5 row 4 column 5",
    "read failed",
    "out of memory",
]
FAULTS = b"error: firing 12 clause 1: divide-by-zero\nerror: firing 14 clause 2: divide-by-zero\n"
USAGE = b"error: unexpected argument 'run.csv' found\n\nUsage: dreplay [OPTIONS]\n"
FORMS = "table csv json markdown bars svg heat html folded".split()


def first_lines(text, most):
    return b"".join(text.splitlines(keepends=True)[:most])


def trace_of(folder):
    return first_lines(case_files.read(f"{case_files.EXAMPLES}/{folder}/trace.csv"), ROWS)


def scripts():
    """Scripts with an answer of dreplay and a trace: those of the examples."""
    found = []
    for name in case_files.examples():
        path = f"{case_files.EXAMPLES}/{name}"
        answer = first_lines(case_files.read(f"{path}.expected"), LINES)
        found.append((case_files.read(f"{path}.d"), answer, trace_of(os.path.dirname(name))))
    return found


def in_lines():
    """Scripts with an answer of dreplay-data and a trace: those of the examples, as the interpreter
    answers over a few rows, and one that has every function and kind of text.
    """
    texts = [(script, trace) for script, _, trace in SCRIPTS]
    texts.append((EVERY_FUNCTION, trace_of("counts")))
    render = interpreter.data.render
    return [
        (script, interpreter.answer(script, trace, render).stdout, trace) for script, trace in texts
    ]


EVERY_FUNCTION = b"""BEGIN { printf("a\\tb"); }
::: { @n[execname, pid] = count(); @s = sum(arg0); @["a"] = min(arg1); @m[probefunc] = max(arg1);
    @avg[execname] = avg(arg0); @q[cpu] = quantize(arg0); @l = lquantize(arg1, 0, 100, 7);
    printf("\xff%s\\n", execname); @h["\xff"] = count(); }
"""
SCRIPTS = scripts()
ANSWERS = in_lines()


def form_of(words):
    """The form that the words of a dreplay-show ask for, which may be one that it refuses."""
    places = [place for place, word in enumerate(words[:-1]) if word == "-f"]
    return words[places[-1] + 1] if places else "table"


def show_fault(result, trial):
    """Says what is wrong with what dreplay-show wrote, or nothing."""
    form = form_of(trial.words)
    if result.status or form == "table" or re.search(r"-o|-h|--[hv]", " ".join(trial.words)):
        return ""
    if form in ("csv", "svg", "heat", "html", "folded") and CONTROLS.search(result.stdout):
        return f"{form} has control characters: {CONTROLS.search(result.stdout)[0]!r}"
    try:
        if form == "json":
            json.loads(result.stdout.decode("utf-8"))
        elif form in ("svg", "heat"):
            xml.dom.minidom.parseString(result.stdout)
        elif form == "html":
            result.stdout.decode("utf-8")
    except (ValueError, xml.parsers.expat.ExpatError) as why:
        return f"what is written is no {form}: {why}"
    return ""


def explain_fault(result, trial):
    """Says what is wrong with an explanation, or nothing. What is passed on may hold anything."""
    if result.status == 0 and "" not in trial.texts and CONTROLS.search(result.stdout):
        return f"the explanation has control characters: {result.stdout[:300]!r}"
    return ""


def many_fault(result, trial):
    """Says what is wrong with a run over several traces, or nothing."""
    if result.status in (3, 4) and not result.stderr:
        return f"status {result.status} without a line on standard error"
    return ""


def rounds_of_show():
    named = [({"script.d": script, "answer": answer}, trace) for script, answer, trace in ANSWERS]
    rounds = [Round(["-s", "script.d", "answer"], texts) for texts, _ in named]
    rounds += [Round(["answer"], texts) for texts, _ in named]
    rounds += [Round(["-s", "script.d", "answer", "answer"], texts) for texts, _ in named]
    lines = [answer for _, answer, _ in ANSWERS]
    rounds += [Round([], {"": answer + other}) for answer, other in zip(lines, lines[1:])]
    rounds += [
        Round(["-s", "script.d", "-t", "trace.csv", "answer"], {**texts, "trace.csv": trace})
        for texts, trace in named
    ]
    against = ["-s", "script.d", "--against", "answer", "answer"]
    rounds += [Round(against, texts) for texts, _ in named]
    traces = {trace for _, trace in named}
    return rounds + [
        Round(["-f", "timeline", "-t", "trace.csv"], {"trace.csv": trace}) for trace in traces
    ]


def rounds_of_explain():
    rounds = []
    for place, (script, answer, trace) in enumerate(SCRIPTS):
        line = "dreplay: " + REFUSED[place % len(REFUSED)]
        texts = {"script.d": script, "trace.csv": trace}
        words = ["-s", "script.d", "-t", "trace.csv"]
        rounds += [
            Round([*words, line], texts),
            Round(words, {**texts, "": line.encode() + b"\n"}),
            Round(words, {**texts, "": answer + FAULTS}),
            Round(["--clauses", *words], texts),
            Round(["--short", "--check", "script.d"], texts),
            Round(["-b", "bundle"], {"bundle": script + b"---\n" + trace, "": USAGE}),
        ]
    return rounds


def rounds_of_many():
    rounds = []
    for script, _, trace in SCRIPTS:
        texts = {"script.d": script, "a.csv": trace, "b.csv": trace, "c.gz": gzip.compress(trace)}
        rounds.append(Round(["-s", "script.d", "-j", "2", "a.csv", "b.csv", "c.gz"], texts))
    return rounds


def ask_fault(result, trial):
    """Says what is wrong with a question asked of a recording, or nothing."""
    if result.status in (3, 4) and not result.stderr:
        return f"status {result.status} without a line on standard error"
    return ""


def rounds_of_ask():
    """Questions of traces, and of recordings of each kind."""
    rounds = []
    for script, _, trace in SCRIPTS:
        texts = {"script.d": script, "run.csv": trace, "run.gz": gzip.compress(trace)}
        rounds.append(Round(["-s", "script.d", "run.csv", "run.gz"], texts))
        rounds.append(Round(["-", "{ @[probefunc] = count(); }"], {"": trace}))
    for subject in converter_subjects.SUBJECTS:
        if "-from-" in subject.tool:
            question = ":::entry { @[execname, probefunc] = count(); }"
            rounds += [Round(["-", question], trial.texts) for trial in subject.rounds[::9]]
    return rounds


SUBJECTS = [
    Subject(
        "dreplay-show",
        rounds_of_show(),
        [["-f", form] for form in FORMS]
        + [
            ["--top", "3"],
            ["--sort", "key"],
            ["--unit", "us"],
            ["--value-unit", "%"],
            ["--columns", 'a,"b'],
            ["--only", "_"],
            ["--guard"],
            ["--width", "9"],
            ["--title", "<b>&\t"],
            ["-o", "shown"],
            ["--percentiles", "50,99.9"],
            ["--fail-if", "value > 1 || @q.p99 > 5"],
            ["--against", "answer"],
        ],
        {0, 1, 2, 5},
        show_fault,
    ),
    Subject(
        "dreplay-explain",
        rounds_of_explain(),
        [["--short"], ["--check", "script.d"], ["--clauses"]],
        {0, 1, 2, 3, 4},
        explain_fault,
    ),
    Subject(
        "dreplay-many",
        rounds_of_many(),
        [["--top", "2"], ["--part", "1/2"], ["-o", "more"], ["--list", "a.csv"]],
        {0, 1, 2, 3, 4},
        many_fault,
        program="dreplay-data",
    ),
    Subject(
        "dreplay-ask",
        rounds_of_ask(),
        [["--no-cache"], ["-f", "html"], ["--with", "x y"], ["-f", "timeline"], ["-c", "true"]],
        {0, 1, 2, 3, 4, 125},
        ask_fault,
        program="dreplay-data",
        speakers=(
            "dreplay-show",
            "dreplay-record",
            *(subject.tool for subject in converter_subjects.SUBJECTS),
        ),
        explains=(3, 4),
    ),
]
