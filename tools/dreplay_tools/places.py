"""Which token of a script dreplay refuses: it is asked again about the script with one token on
each line.
"""
import re
import subprocess
import tempfile

from .programs import program
from .tokens import NUMBER, value

SECONDS = 10
ESCAPES = re.compile(r'\\[^abtnvfr"\'?\\]')


def refused_token(refusal, line, tokens):
    """The place of the token that is refused on a line; none if that can't be told."""
    if refusal.kind == "Lex":
        return next(
            (at for at, token in enumerate(tokens) if token.line >= line and is_faulty(token)), None
        )
    at = asked_again(f"dreplay: script refused: {refusal.kind} {refusal.number}", tokens)
    return at if at is not None and tokens[at].line == line else None


def is_faulty(token):
    """Whether a token is none of D."""
    if token.kind == "number":
        return not NUMBER.fullmatch(token.text) or value(token.text) is None
    if token.kind == "text":
        return "\0" in token.text or ESCAPES.search(re.sub(r"\\\\", "", token.text)) is not None
    return token.kind in ("bad", "unclosed")


def asked_again(refused, tokens):
    """The place of the token that dreplay refuses when each is on its own line."""
    found_program = program()
    if found_program is None or not tokens:
        return None
    with tempfile.NamedTemporaryFile(prefix="dreplay-explain-") as file:
        shown = "\n".join(token.text for token in tokens) + "\n"
        file.write(shown.encode("utf-8", "surrogateescape"))
        file.flush()
        try:
            ran = subprocess.run(
                [found_program, "-s", file.name],
                stdin=subprocess.DEVNULL,
                capture_output=True,
                timeout=SECONDS,
            )
        except (OSError, subprocess.TimeoutExpired):
            return None
    found = re.fullmatch(
        re.escape(refused) + r" line (\d{1,6})\n", ran.stderr.decode("utf-8", "replace")
    )
    return int(found[1]) - 1 if found and int(found[1]) <= len(tokens) else None
