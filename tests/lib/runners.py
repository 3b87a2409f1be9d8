"""Runs a program of tests/runners over the sources of the crates that it calls, by `rt try`,
without proof."""
import os
import re
import shutil
import subprocess
import tempfile

from lib import harness

# `rt try`, without a check that it has run beside.
TRY_ALONE = f"{os.path.dirname(__file__)}/try_alone"


def lines_of(names):
    """The lines of crates.txt for the crates of these names and those that they depend on."""
    with open(f"{harness.TOP}/crates.txt", encoding="utf-8") as file:
        lines = {re.match(r"\w*", line)[0]: line for line in file}
    found, left = {}, names.split()
    while left:
        name = left.pop()
        if name in lines and name not in found:
            found[name] = lines[name]
            left += lines[name].partition(":")[2].split()
    return found


def make_crates(room, runner, names, c_code):
    """Puts the runner's crate, with its C code, and the sources of those that it depends on into a
    folder."""
    lines = lines_of(names)
    for name in lines:
        shutil.copytree(f"{harness.TOP}/crates/{name}/src", f"{room}/crates/{name}/src")
    crate, folder = f"{room}/crates/{runner}", f"{harness.TOP}/tests/runners/{runner}"
    os.makedirs(f"{crate}/src")
    for file in os.listdir(folder):
        shutil.copy(f"{folder}/{file}", f"{crate}/src/{file.replace('.rattle', '.rt')}")
    for file in c_code:
        os.makedirs(f"{crate}/c", exist_ok=True)
        shutil.copy(f"{harness.TOP}/tests/shims/{file}", f"{crate}/c/{file}")
    with open(f"{room}/crates.txt", "w", encoding="utf-8") as file:
        file.writelines([*lines.values(), f"{runner}: {' '.join(names.split())}\n"])


def run(runner, names, inputs, words=(), c_code=()):
    """Runs a runner, which depends on the crates of these names, once for each input of the
    dictionary `inputs`, with more words for `rt try`. Returns for each input what it wrote and how
    it ended, and why it can't be run, or nothing."""
    with tempfile.TemporaryDirectory(prefix="runner-") as room:
        make_crates(room, runner, names, c_code)
        source = f"{room}/crates/{runner}/src"
        files = [f"{source}/{file}" for file in os.listdir(source)]
        layout = subprocess.run(["rattle", "fmt", "--check", *files], capture_output=True)
        if layout.returncode:
            return {}, f"tests/runners/{runner} is not laid out as rattle fmt lays it out"
        os.mkdir(f"{room}/cases")
        for name, text in inputs.items():
            with open(f"{room}/cases/{name}", "w", encoding="ascii") as file:
                file.write(text)
        ran = subprocess.run(
            [TRY_ALONE, "--steps", "1", *words, "--cases", f"{room}/cases"],
            cwd=f"{room}/crates/{runner}",
            env={**os.environ, "RT_ALLOW_C": runner} if c_code else None,
            capture_output=True,
            text=True,
        )
    outputs = dict(re.findall(r"(?m)^== (.*)\n((?:(?!== ).*\n)*)", ran.stdout))
    ends = dict(re.findall(r"(?m)^case=(\S+) (run=.*)$", ran.stderr))
    return {
        name: (outputs.get(name, ""), ends.get(name, "no run")) for name in inputs
    }, "" if ends else ran.stderr
