"""A refusal as one line that editors and other programs take: FILE:LINE:COLUMN: error: .."""
from . import explanations, guesses, labels

MAX_SAID = 300


def line_of(line, refusal, place, given, names):
    """The line of a refusal, given the names of script and trace."""
    name = f"{refusal.kind} {refusal.number} ({refusal.name})" if refusal.number else refusal.name
    script, trace = names
    if refusal.kind in ("Lex", "Parse", "Type") and given.script is not None:
        where, said = of_script(refusal, place, given, script)
    elif refusal.kind == "Trace" and given.trace is not None:
        where, said = of_trace(refusal, place, given, trace)
    else:
        where, said = (trace if refusal.kind == "Trace" else script) or "dreplay", []
    said = said or [refusal.cause.rstrip(".")]
    return labels.printable(labels.cut(f"{where}: error: {name}: {'; '.join(said)}", MAX_SAID))


def of_script(refusal, place, given, name):
    """Where in the script it is, and what is said of it: the token and the first guess."""
    if "line" not in place:
        return name, []
    token = explanations.refused_token(refusal, place, given.script)
    guessed = guesses.of_script(refusal, place, given.script, given.is_bundle)[:1]
    if token is None:
        return f"{name}:{place['line']}:1", guessed
    return f"{name}:{token.line}:{token.column}", [token.text, *(guessed or [refusal.cause])]


def of_trace(refusal, place, given, name):
    """Where in the trace it is, by the line of the row, and what may have led to it."""
    if "row" not in place:
        return f"{name}:1:1", guesses.of_header(given.trace)[:1]
    found, before, is_last = explanations.fields_of(given.trace, place["row"])
    if found is None:
        return name, ["this is another trace: it has fewer rows"]
    guessed = explanations.guess_of_row(refusal, place, found[1], before, is_last, [])
    return f"{name}:{found[0]}:1", guessed[:1]
