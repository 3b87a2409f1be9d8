"""The lines that explain a refusal: its place in the script or the trace, its cause, what to do,
and guesses.
"""
import csv
import io
import itertools
from dataclasses import dataclass

from . import ends, guesses, labels, places, probes, refusals
from .script import Script
from .tokens import MAX_BYTES, decode, tokens
from .trace import COLUMNS

NEIGHBOURS = 2  # lines shown before and after the one that is refused
MAX_SHOWN = 200  # bytes shown of a line or field


@dataclass
class Inputs:
    """The script and the trace, in bytes; none for what isn't given."""

    script: bytes
    trace: bytes
    is_bundle: bool = False
    missing: str = None  # the script's file, if it doesn't exist


def escape(letter):
    return letter if letter == "\t" else labels.printable(letter)


def shorten(text):
    """A line or field fit for a terminal: its start, without control bytes."""
    return ends.shorten(text, MAX_SHOWN, escape)


def lines(line, refusal, place, given):
    """The lines that explain a line of dreplay."""
    shown, guessed = [], []
    if refusal.kind in ("Lex", "Parse", "Type") and given.script is not None:
        shown = place_in_script(refusal, place, given.script)
        guessed = guesses.of_script(refusal, place, given.script, given.is_bundle)
    elif refusal.kind == "Trace" and given.trace is not None:
        shown, guessed = place_in_trace(refusal, place, given.trace)
    elif refusal is refusals.USAGE:
        guessed = guesses.of_usage(line)
    elif given.missing:
        guessed = [f"{labels.printable(given.missing)} doesn't exist"]
    name = f" ({refusal.name})" if refusal.number else ""
    said = [f"Cause: {refusal.cause}", f"To do: {refusal.remedy}", *map(sentence, guessed)]
    return [labels.printable(line) + name, "", *shown, *said]


def sentence(guess):
    return f"Guess: {guess}" + ("" if guess.endswith("?") else ".")


# -- the script


def place_in_script(refusal, place, data):
    """The refused line with its neighbours, and a mark under the refused token."""
    if "line" not in place:
        return []
    script_lines = data.decode("utf-8", "surrogateescape").split("\n")
    number = place["line"]
    if number > len(script_lines):
        return ["This is another script: it has fewer lines.", ""]
    token = refused_token(refusal, place, data)
    shown = [
        line
        for at in near(script_lines, number)
        for line in with_mark(script_lines, at, number, token)
    ]
    where = (
        [f"Where: line {token.line}, column {token.column}: {shorten(token.text)}"]
        if token
        else []
    )
    return [*shown, "", *where]


def refused_token(refusal, place, data):
    """The refused token, whose place among all it notes; none if that can't be told."""
    if len(data) > MAX_BYTES or guesses.of_encoding(data):
        return None
    all_tokens = tokens(decode(data))
    at = places.refused_token(refusal, place["line"], all_tokens)
    if at is None:
        return None
    place["token"] = at
    return all_tokens[at]


def near(script_lines, number):
    last = min(len(script_lines), number + NEIGHBOURS)
    return [
        at
        for at in range(max(1, number - NEIGHBOURS), last + 1)
        if at < last or script_lines[at - 1] or at == number
    ]


def with_mark(script_lines, at, number, token):
    """A line of a script, and below it a mark at the refused token."""
    text = script_lines[at - 1]
    yield f"{'>' if at == number else ' '} {at:4} | {shorten(text)}"
    if not token or at != token.line:
        return
    before = "".join(map(escape, text[: token.column - 1]))
    if len(before.encode("utf-8")) < MAX_SHOWN:
        blank = "".join(c if c == "\t" else " " * labels.width(c) for c in before)
        word = shorten(token.text.split("\n")[0])
        yield f"       | {blank}{'^' * max(1, labels.width(word))}"


# -- the trace


def fields_of(trace, row):
    """A row and the one before it, each with the line it begins on, and whether it is the last;
    none if there is no such row.
    """
    start = max(0, row - 2)
    rows = list(itertools.islice(guesses.records(trace), start, row + 1))
    wanted = row - 1 - start
    if len(rows) <= wanted:
        return None, None, True
    return rows[wanted], rows[0] if wanted else None, len(rows) == wanted + 1


def place_in_trace(refusal, place, trace):
    """The refused row and what a person would see in it: lines, and guesses."""
    if "row" not in place:
        return [], guesses.of_header(trace) if refusal.number == 1 else []
    found, before, is_last = fields_of(trace, place["row"])
    if found is None:
        return [], ["this is another trace: it has fewer rows"]
    shown = [f"> {row_and_line(place['row'], found)}"]
    guessed = guess_of_row(refusal, place, found[1], before, is_last, shown)
    return [*shown, ""], guessed


def row_and_line(row, found):
    line, fields = found
    return f"row {row}, line {line} | {shorten(','.join(fields))}"


def guess_of_row(refusal, place, fields, before, is_last, shown):
    if refusal.name == "Columns":
        shown.append(f"  It has {len(fields)} field{'s' * (len(fields) != 1)}.")
        return guesses.of_columns_of_row(fields, is_last)
    if refusal.name == "Order" and before:
        shown.insert(0, f"  {row_and_line(place['row'] - 1, before)}")
        return order_guess(before[1][0], fields[0])
    column = place.get("column", 0)
    if not 1 <= column <= min(len(COLUMNS), len(fields)):
        return []
    name, value = COLUMNS[column - 1], fields[column - 1]
    shown.append(f"  Column {column} is {name}: '{shorten(value)}'")
    if refusal.name == "Number" and name not in guesses.RANGES:
        return ["this is another trace: that column is of texts"]
    if refusal.name == "Number":
        return [guesses.of_number(name, value)]
    data = value.encode("latin-1")
    if b"\0" in data:
        return ["it has a zero byte"]
    return (
        [f"it has {len(data)} bytes"]
        if len(data) > 255
        else ["it isn't in UTF-8; Latin-1, perhaps"]
    )


def order_guess(before, after):
    if before == after:
        return ["two rows have one number"]
    if after == "1":
        return ["numbering begins again: two traces were joined"]
    return ["the rows aren't in the order of their numbers"]


# -- an answer


def find_unmatched(given):
    """For each description of the script that matches no row a line."""
    if len(given.script) > MAX_BYTES:
        return []
    try:
        return list(
            probes.Looked(
                Script(decode(given.script)), probes.probes_of(io.BytesIO(given.trace))
            ).lines()
        )
    except csv.Error:
        return []
