"""The converters and the recorder as subjects of tests/fuzz_tools, and what a trace has to be."""
import os
import re

from lib import case_files, harness
from lib.tool_fuzzing import Round, Subject
from plain.interpreter import trace as reading
from plain.interpreter.refusals import Refused

LINES = 60  # of a recording that a round begins with
HERE_DOCUMENT = re.compile(rb"<<\s*'(\w+)'[^\n]*\n(.*?)\n\1\n", re.DOTALL)
NOTHING_CONVERTED = 3


def trace_fault(trace):
    """Says how the plain interpreter refuses a trace, or nothing."""
    try:
        reading.read(trace)
    except Refused as why:
        return why.message.decode().strip()
    return ""


def converter_fault(result, trial):
    """Says what is wrong with the trace that a converter wrote, or with its status."""
    if result.status in (0, 1) and "-o" not in trial.words and not asks_for_help(trial):
        why = trace_fault(result.stdout)
        if why:
            return why
    if result.status == 1 and b" skipped" not in result.stderr:
        return "status 1, and no line was skipped"
    if result.status == 0 and b" skipped" in result.stderr:
        return "status 0, and a line was skipped"
    if result.status == NOTHING_CONVERTED:
        if b": nothing was converted: " not in result.stderr:
            return f"status 3 with {result.stderr!r}"
        return "status 3, and something was written" if result.stdout else ""
    return ""


def asks_for_help(trial):
    return any(word.startswith(("-h", "--h", "--v", "-o", "--s")) for word in trial.words)


def some_lines(text):
    """A text's stretches of as many lines as a round begins with."""
    lines = text.splitlines(keepends=True)
    return [
        b"".join(lines[first : first + LINES])
        for first in range(0, min(len(lines), 10 * LINES), LINES)
    ]


def recordings(*names):
    """Recordings of tests/tool_cases: of files, and of the documents within a script."""
    found = []
    for name in names:
        folder = f"{harness.TOP}/tests/tool_cases/{name}"
        for file in ("recording", "with_processes", "plain"):
            if os.path.exists(f"{folder}/{file}"):
                found += some_lines(case_files.read(f"{folder}/{file}"))
        script = case_files.read(f"{folder}/run")
        found += [document[2] + b"\n" for document in HERE_DOCUMENT.finditer(script)]
    return found


def rounds_of(texts):
    return [Round([], {"": text}) for text in texts]


OUTPUTS = [["--from-zero"], ["-o", "run.csv"], ["-o", "run.csv", "--split", "3"], ["--split", "2"]]
STRACE = [
    case_files.conversion_of(name).bundle for name in case_files.folders(case_files.CONVERSIONS)
]
SUBJECTS = [
    Subject(
        "dreplay-from-strace",
        rounds_of(
            [text for text in STRACE if text]
            + recordings(
                "from_strace_terminal",
                "from_strace_losses",
                "from_strace_raw_clones",
                "from_strace_relative_times_add_up",
            )
        ),
        OUTPUTS
        + [
            ["--paths"],
            ["--ppid"],
            ["--rows", "3"],
            ["--since", "0.5"],
            ["--only", "r*,w?it*"],
            ["-n", 'x,"y'],
            ["-j", "3"],
        ],
        {0, 1, 2, 3},
        converter_fault,
    ),
    Subject(
        "dreplay-from-perf",
        rounds_of(
            recordings(
                "from_perf_recording", "from_perf_forms", "from_perf_events", "from_perf_records"
            )
        ),
        OUTPUTS + [["--machine", "aarch64"]],
        {0, 1, 2, 3},
        converter_fault,
    ),
    Subject(
        "dreplay-from-ftrace",
        rounds_of(recordings("from_ftrace_recording", "from_ftrace_forms", "from_ftrace_tracers")),
        OUTPUTS + [["--machine", "x86_64"]],
        {0, 1, 2, 3},
        converter_fault,
    ),
    Subject(
        "dreplay-from-ctf",
        rounds_of(recordings("from_ctf_forms")),
        OUTPUTS + [["--machine", "x86_64"]],
        {0, 1, 2, 3},
        converter_fault,
    ),
    Subject(
        "dreplay-from-chrome",
        rounds_of(recordings("from_chrome_events")),
        OUTPUTS,
        {0, 1, 2, 3},
        converter_fault,
    ),
    Subject(
        "dreplay-record",
        [
            Round(words, {"recording": recording})
            for recording in STRACE
            for words in (
                ["true"],
                ["-o", "t.csv", "-e", "read,%file", "true"],
                ["--rows", "2", "--", "true"],
                ["--paths", "--ppid", "--split", "2", "-o", "t", "true"],
                ["-p", "99999999"],
            )
        ],
        OUTPUTS[:2] + [["--symbolic"], ["--keep", "kept"]],
        {0, 1, 2, 125, 127},
    ),
]
