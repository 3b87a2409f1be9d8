"""A plain, slow interpreter of dreplay's language, written from the pages of docs/ and not from the
program.

`answer` takes what the program takes, and gives what it has to give: the bytes, the line of a
refusal, the exit status; with the rendering of `data`, those of dreplay-data. tests/differential
compares them over random scripts and traces.
"""
import re
import sys
from dataclasses import dataclass

from . import checker, data, grammar, lexer, meaning, output, trace
from .refusals import Refused

DIVIDING_LINE = re.compile(rb"^---\r?(?:\n|\Z)", re.MULTILINE)
# The longest chain of a statement's 1,024 tokens goes through a few calls each.
sys.setrecursionlimit(20_000)


@dataclass
class Answer:
    """What a run leaves: its exit status, and what it writes on standard output and standard
    error."""

    status: int
    stdout: bytes
    stderr: bytes


def divide(bundle):
    """A bundle's script and trace: what is before and after its first dividing line."""
    line = DIVIDING_LINE.search(bundle)
    return (bundle[: line.start()], bundle[line.end() :]) if line else (bundle, b"")


def type_script(script):
    """The well-typed script that bytes are, or the first refusal."""
    return checker.check(grammar.parse(lexer.lex(script)))


def replay(script, rows, render):
    """What a script shows over the bytes of a trace, and its exit status."""
    found = type_script(script)
    shown = meaning.run(found, trace.read(rows))
    return render(found, shown), shown.status


def answer(script, rows, render=output.render):
    """The answer of a script over the bytes of a trace, or the first refusal."""
    try:
        shown, status = replay(script, rows, render)
    except Refused as refused:
        return Answer(refused.status, b"", refused.message)
    return Answer(status, shown, b"")
