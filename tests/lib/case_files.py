"""Reads cases, examples and conversions, and writes a case. tests/README.md says what they are."""
import collections
import dataclasses
import functools
import itertools
import os
import re
import shlex
import subprocess

from lib import blocks, harness
from plain import interpreter

CASES = f"{harness.TOP}/tests/cases"
EXAMPLES = f"{harness.TOP}/examples"
CONVERSIONS = f"{harness.TOP}/tests/conversions"
# The columns of a trace: the line before the rows of a case.
COLUMNS = "number cpu thread pid execname time provider module function name".split()
HEADER = (",".join(COLUMNS + [f"arg{place}" for place in range(10)]) + "\n").encode()


def read(path, absent=b""):
    """The bytes of a file, or those that are given for a file that isn't there."""
    if not os.path.exists(path):
        return absent
    with open(path, "rb") as file:
        return file.read()


def run_printer(script, folder):
    """What a script of sh prints. It has the line of columns as $HEADER."""
    environment = os.environ | {"HEADER": HEADER.decode()[:-1]}
    made = subprocess.run(
        ["sh", "-euc", script], cwd=folder, stdout=subprocess.PIPE, env=environment
    )
    if made.returncode:
        raise blocks.BadCase(f"a script that prints a part ended with status {made.returncode}")
    return made.stdout


def input_of(parts):
    """The bytes for standard input: the bundle, or script, dividing line and trace, or the trace
    alone."""
    trace = HEADER + parts["rows"] if "rows" in parts else parts.get("trace")
    if "script" not in parts:
        return parts.get("bundle", trace or b"")
    if trace is None:
        raise blocks.BadCase("it has a script, and neither trace nor rows")
    return parts["script"] + b"---\n" + trace


def case_of(name, parts):
    """Makes a case of its parts; a part NAME.sh is a script of sh that prints the part NAME."""
    prints = {
        blocks.stem(part): run_printer(text, CASES)
        for part, text in parts.items()
        if part.endswith(".sh")
    }
    parts = {**parts, **prints}
    if not {"bundle", "script", "trace", "rows", "words", "plans", "run"} & {*parts}:
        raise blocks.BadCase("the program is given nothing")
    expected = harness.Result(
        int(parts.get("status", b"0")), parts.get("stdout", b""), parts.get("stderr", b"")
    )
    plans = (
        [shlex.split(line) for line in parts["plans"].decode().splitlines()]
        if "plans" in parts
        else harness.PLANS
    )
    words, shell = parts.get("words", b"").decode().splitlines(), parts.get("run", b"").decode()
    files = {part: parts[part] for part in ("script.d",) if part in parts}
    return harness.Case(name, CASES, input_of(parts), words, plans, shell, expected, files)


@functools.cache
def subjects():
    """The cases by the file of tests/cases: the parts of each by its name."""
    files = sorted(os.listdir(CASES))
    found = {file.removesuffix(".txt"): blocks.read(read(f"{CASES}/{file}")) for file in files}
    for name, times in collections.Counter(itertools.chain(*found.values())).items():
        if times > 1:
            raise blocks.BadCase(f"two cases have the name {name}")
    return found


def block_of(name):
    """The parts of the case of this name, or nothing."""
    return next((cases[name] for cases in subjects().values() if name in cases), None)


def parts_of(bundle, expected):
    """The parts of a case that gets a bundle."""
    parts = {
        "bundle": bundle,
        "stdout": expected.stdout,
        "stderr": expected.stderr,
        "status": b"%d" % expected.status,
    }
    return {
        name: part for name, part in parts.items() if part not in (b"", b"0") or name == "bundle"
    }


def write_case(folder, name, parts):
    """Adds a case to the file found.txt of a folder."""
    os.makedirs(folder, exist_ok=True)
    with open(f"{folder}/found.txt", "ab") as file:
        file.write(b"\n" * (file.tell() > 0) + blocks.write(name, parts))


def examples():
    """The names of all examples: FOLDER/SCRIPT for each examples/FOLDER/SCRIPT.d."""
    files = [
        f"{folder}/{file}"
        for folder in folders(EXAMPLES)
        for file in sorted(os.listdir(f"{EXAMPLES}/{folder}"))
    ]
    return [file[:-2] for file in files if file.endswith(".d")]


def indent(text):
    """A text as a page shows it: each line that isn't empty is four spaces in."""
    return b"".join(
        b"    " + line if line.strip() else line for line in text.splitlines(keepends=True)
    )


def example_of(name):
    """Reads the example FOLDER/SCRIPT. What it has to answer over its folder's trace is in
    SCRIPT.expected. Its page, SCRIPT.md or the folder's README.md, has to show the script and the
    answer."""
    folder, path = os.path.dirname(f"{EXAMPLES}/{name}"), f"{EXAMPLES}/{name}"
    script, answer = read(f"{path}.d"), read(f"{path}.expected")
    bundle = script + b"---\n" + read(f"{folder}/trace.csv")
    if read(f"{folder}/bundle", bundle) != bundle:
        raise blocks.BadCase("bundle is not the script, a line ---, and trace.csv")
    page = read(f"{path}.md") or read(f"{folder}/README.md")
    if not answer or indent(script) not in page or indent(answer) not in page:
        raise blocks.BadCase("its page does not show the script and the answer")
    rows = read(f"{folder}/trace.csv").splitlines()
    for shown in re.findall(rb"^    (.*),\.\.$", read(f"{folder}/README.md"), re.MULTILINE):
        if not any(row.startswith(shown) for row in rows):
            raise blocks.BadCase(f"README.md shows a row that trace.csv has not: {shown!r}")
    return harness.Case(name, folder, bundle, [], harness.PLANS, "", harness.Result(0, answer, b""))


def every_name():
    """The names of all cases and examples."""
    return sorted(itertools.chain(*subjects().values())) + [
        f"examples/{name}" for name in examples()
    ]


def find_named(words):
    """The names that the words of a test script mean: cases, examples, and all cases of a file."""
    return [name for word in words for name in subjects().get(word, [word])] or every_name()


def load(name):
    """Reads the case or the example that a word names."""
    if name.startswith("examples/"):
        return example_of(name.removeprefix("examples/"))
    parts = block_of(name)
    if parts is None:
        raise blocks.BadCase("there is no case of this name")
    return case_of(name, parts)


def load_as_data(names):
    """Reads those of these cases that have no words, as dreplay-data has to answer them by the
    plain interpreter."""
    for case in map(load, names):
        if not case.words and not case.shell:
            answer = interpreter.answer(*interpreter.divide(case.bundle), interpreter.data.render)
            expected = harness.Result(answer.status, answer.stdout, answer.stderr)
            yield dataclasses.replace(case, expected=expected)


def conversion_of(name):
    """Reads tests/conversions/NAME: a recording for the converter, and the trace that it has to
    write."""
    folder = f"{CONVERSIONS}/{name}"
    words = read(f"{folder}/words", b"recording").decode().splitlines()
    expected = harness.Result(
        int(read(f"{folder}/status", b"0")), read(f"{folder}/trace.csv"), read(f"{folder}/stderr")
    )
    return harness.Case(name, folder, read(f"{folder}/recording"), words, [[]], "", expected)


def read_recording():
    """A recording of which dreplay-rows knows all lines, and the trace that it writes."""
    return dataclasses.replace(conversion_of("recorded_by_dreplay_record"), words=[])


def folders(path):
    return sorted(name for name in os.listdir(path) if os.path.isdir(f"{path}/{name}"))
