"""How often each clause of a script was reached by a firing, and how often its predicate was true.

dreplay-data counts it itself: by the script with a count put in front of each clause and into it.
A count changes no variable, so all else runs as it did.
"""
import os
import subprocess
import tempfile

from . import answers, jobs
from .ends import Failure, shorten
from .labels import align
from .script import Script
from .tokens import decode

REACHED, TRUE = "dreplay_reached_", "dreplay_true_"
MAX_SHOWN = 60  # letters of a clause's descriptions


def add_counts(data):
    """The script with its counts, and its clauses."""
    script = Script(decode(data))
    opens = [token.start for token in script.tokens if token.text == "{"]
    pieces, done = [], 0
    for index, clause in enumerate(script.clauses):
        first, last = clause.descriptions[0], clause.descriptions[-1]
        body = next(start for start in opens if start > last.start)
        probes = ", ".join(token.text for token in clause.descriptions)
        pieces += [
            script.text[done : first.start],
            f"{probes} {{ @{REACHED}{index} = count(); }}\n",
            script.text[first.start : body + 1],
            f" @{TRUE}{index} = count(); ",
        ]
        done = body + 1
    return "".join([*pieces, script.text[done:]]), script.clauses


def lines(data, trace, program):
    """A table: each clause with its line, how many firings reached it, and of how many its
    predicate was true.
    """
    text, clauses = add_counts(data)
    counts = counts_of(text, trace, program)
    columns = [["line"], ["firings"], ["true"], ["clause"]]
    for index, clause in enumerate(clauses):
        probes = ", ".join(token.text for token in clause.descriptions)
        row = [
            str(clause.descriptions[0].line),
            f"{counts.get(f'@{REACHED}{index}', 0):,}",
            f"{counts.get(f'@{TRUE}{index}', 0):,}" if clause.predicate else "",
            probes if len(probes) <= MAX_SHOWN else probes[:MAX_SHOWN] + "..",
        ]
        for column, cell in zip(columns, row):
            column.append(cell)
    shown = [align(column, index < 3) for index, column in enumerate(columns)]
    return ["  ".join(row).rstrip() for row in zip(*shown)]


def counts_of(text, trace, program):
    """The counts by their names."""
    with tempfile.NamedTemporaryFile(prefix="dreplay-explain-") as script:
        script.write(text.encode("utf-8", "surrogateescape"))
        script.flush()
        out = tempfile.TemporaryFile()
        os.lseek(trace.fileno(), 0, os.SEEK_SET)  # its first bytes were looked at
        words = [program, "-s", script.name]
        ran = subprocess.run(words, stdin=trace, stdout=out, stderr=subprocess.PIPE)
    line = ran.stderr.decode("utf-8", "replace").split("\n")[0]
    if line:
        is_of_trace = line.startswith(jobs.REFUSED)
        why = "" if is_of_trace else "with its counts the script is refused: "
        raise Failure(shorten(why + line), ran.returncode)
    out.seek(0)
    found = next(answers.read(out, "the counts"), None)
    tables = found.tables.values() if found else []
    return {table.title: sum(table.held.values()) for table in tables if is_count(table)}


def is_count(table):
    return table.title[1:].startswith((REACHED, TRUE))
