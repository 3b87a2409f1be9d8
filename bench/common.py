"""The questions of the benchmarks: the traces that they are of, who answers them, and what each
answer says."""
import argparse
import os
import shutil
import subprocess
import sys

HERE = os.path.dirname(os.path.abspath(__file__))
PROGRAM = f"{HERE}/../crates/dreplay/out/dreplay"
QUESTIONS = ["reading", "counts", "latency", "heavy", "dense"]
# Who counts by floating point, and rounds sums past 2^53.
ROUNDING = ["mawk", "gawk"]
# How many C files are built, by four compilers at once, and the rows that each file comes to.
BUILD = r"""
set -e
cd "$(mktemp -d)"
for n in $(seq "$1"); do
    printf '#include <stdio.h>\nint f%d(const char *s) { return puts(s); }\n' "$n" > "f$n.c"
done
printf 'int main(void) { return 0; }\n' > main.c
printf 'O = $(patsubst %%.c,%%.o,$(wildcard *.c))\nall: $O\n\t$(CC) -o all $O\n' > Makefile
make -s -j4
"""
ROWS_OF_A_FILE = 3_000


def make_parser(doc):
    """Makes a parser of a benchmark's command line, with its doc as help."""
    return argparse.ArgumentParser(
        description=doc,
        usage=argparse.SUPPRESS,
        formatter_class=argparse.RawDescriptionHelpFormatter,
    )


def stop_without(tools, program):
    """Ends the benchmark if a tool of the system or the program isn't there."""
    lacking = [tool for tool in tools if not shutil.which(tool)]
    if lacking:
        name = os.path.basename(sys.argv[0])
        sys.exit(f"{name} needs what isn't here: apt-get install {' '.join(lacking)}")
    if not os.access(program, os.X_OK):
        sys.exit(f"{os.path.relpath(program)} isn't built: make build")


def write_trace(path, rows, *words):
    """Writes a trace with this number of rows."""
    with open(path, "wb") as file:
        subprocess.run([f"{HERE}/generate", *words, str(rows)], stdout=file, check=True)


def write_recorded(path, rows):
    """Writes the trace of a build of about this many rows, and returns how many there are."""
    build = ["sh", "-c", BUILD, "sh", str(max(1, rows // ROWS_OF_A_FILE))]
    words = [f"{HERE}/../tools/dreplay-record", "-o", path, "--", *build]
    subprocess.run(words, check=True, capture_output=True)
    with open(path, "rb") as file:
        return sum(1 for _ in file) - 1


def write_bundle(question, trace, path):
    """Writes the bundle that asks a question of a trace."""
    source = f"{HERE}/questions/{question}.d"
    with open(path, "wb") as file, open(source, "rb") as script, open(trace, "rb") as rows:
        file.write(script.read() + b"---\n")
        shutil.copyfileobj(rows, file)


def build_by_hand(room):
    """Builds the program that is written by hand, and returns its path; none without rustc."""
    if not shutil.which("rustc"):
        return None
    source = f"{HERE}/by_hand/by_hand.rs"
    words = ["rustc", "-O", "--edition", "2021", "-o", f"{room}/by_hand", source]
    subprocess.run(words, check=True)
    return f"{room}/by_hand"


def list_others(question, written):
    """Lists who else answers a question, with the words that run each; mawk comes first."""
    awk = ["-F,", "-f", f"{HERE}/questions/{question}.awk"]
    found = {"mawk": ["mawk", *awk]}
    if shutil.which("gawk"):
        found["gawk"] = ["gawk", "-b", *awk]
    if written:
        found["by hand"] = [written, question]
    return found


def read_facts(output):
    """Reads what an answer of dreplay says, as mawk writes it, a line each: a text; keys and a
    value; keys, a bucket's label and its count, if it isn't 0."""
    facts, keys = [], []
    for line in output.splitlines():
        label, bar, rest = line.partition(b" |")
        words = line.split()
        if bar:
            count = rest.split()[-1]
            facts += [b" ".join([*keys, *label.split(), count])] if count != b"0" else []
        elif len(words) == 1:
            keys = words
        elif words and b"Distribution" not in words:
            facts.append(b" ".join(words))
    return sorted(facts)
