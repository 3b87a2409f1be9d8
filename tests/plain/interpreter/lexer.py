"""From a script's bytes to its tokens (docs/LANGUAGE.md, "Tokens")."""
import re
from typing import NamedTuple

from .refusals import Refused

MAX_BYTES = 65_536
MAX_NUMBER = 2**64 - 1
TOO_LONG, BAD_BYTE, UNCLOSED, CONSTANT, ESCAPE, OPTION_LINE = range(1, 7)

BLANKS = re.compile(rb"[ \t\r\n\v\f]*")
DESCRIPTION_RUN = re.compile(rb"[A-Za-z0-9_.\-+:*?]+")
WORD = re.compile(rb"[A-Za-z_][A-Za-z0-9_]*")
DIGITS = re.compile(rb"[0-9][A-Za-z0-9_]*")
NUMBER = re.compile(
    rb"(?:0[xX]([0-9a-fA-F]+)|(0[0-7]*)|([1-9][0-9]*))(u|l|ul|ll|ull)?", re.IGNORECASE
)
OPTION = re.compile(rb"#pragma[ \t]+D[ \t]+option[ \t]+quiet[ \t\r]*")
MARKS = sorted(
    "<<= >>= -> ++ -- << >> <= >= == != && || ^^ += -= *= /= %= &= |= ^= "
    "+ - * / % & | ^ ~ < > ! ? : = ( ) [ ] { } , ;".split(),
    key=len,
    reverse=True,
)
HEAD_MARKS = b",/{};"
ESCAPES = dict(zip(b"abtnvfr\"'?\\", b"\a\b\t\n\v\f\r\"'?\\"))


class Token(NamedTuple):
    """A token: its kind, what it says, and the line on which it begins.

    A run, an aggregation's name and a text are bytes, a number is its value and suffix, a word and
    a mark are strings.
    """

    kind: str
    says: object
    line: int


def lex(script):
    """The tokens of a script, or its first fault."""
    if len(script) > MAX_BYTES:
        raise Refused("Lex", TOO_LONG)
    return Lexer(script).tokens()


class Lexer:
    """Reads a script from the left. `place` is where in the script it is: head, declaration,
    predicate or body."""

    def __init__(self, script):
        self.script, self.at, self.line, self.place = script, 0, 1, "head"

    def tokens(self):
        if self.script.startswith(b"#!"):
            self.go_to(self.end_of_line())
        found = []
        while self.skip():
            token = self.head_token() if self.place == "head" else self.expression_token()
            self.place = self.place_after(token)
            found.append(token)
        return found

    def refuse(self, number):
        raise Refused("Lex", number, line=self.line)

    def go_to(self, stop):
        self.line += self.script.count(b"\n", self.at, stop)
        self.at = stop

    def end_of_line(self):
        stop = self.script.find(b"\n", self.at)
        return len(self.script) if stop < 0 else stop

    def skip(self):
        """Goes over all that isn't a token. Tells whether a token is left."""
        while True:
            self.go_to(BLANKS.match(self.script, self.at).end())
            if self.script.startswith(b"/*", self.at):
                self.go_to(self.end_of_comment())
            elif self.place == "head" and self.is_option_line():
                if not OPTION.fullmatch(self.script, self.at, self.end_of_line()):
                    self.refuse(OPTION_LINE)
                self.go_to(self.end_of_line())
            else:
                return self.at < len(self.script)

    def end_of_comment(self):
        stop = self.script.find(b"*/", self.at + 2)
        if stop < 0:
            self.refuse(UNCLOSED)
        return stop + 2

    def is_option_line(self):
        """Whether a `#` is here with nothing but spaces and tabs before it on its line."""
        start = self.script.rfind(b"\n", 0, self.at) + 1
        return self.script.startswith(b"#", self.at) and not self.script[start : self.at].strip(
            b" \t"
        )

    def token(self, kind, says, stop):
        made = Token(kind, says, self.line)
        self.go_to(stop)
        return made

    def head_token(self):
        run = DESCRIPTION_RUN.match(self.script, self.at)
        if run:
            is_word = run[0] in (b"self", b"this")
            return (
                self.token("word", run[0].decode(), run.end())
                if is_word
                else self.token("run", run[0], run.end())
            )
        if self.script[self.at] not in HEAD_MARKS:
            self.refuse(BAD_BYTE)
        return self.token("mark", chr(self.script[self.at]), self.at + 1)

    def expression_token(self):
        first = self.script[self.at : self.at + 1]
        word = WORD.match(self.script, self.at)
        if word:
            return self.token("word", word[0].decode(), word.end())
        if first == b"@":
            name = WORD.match(self.script, self.at + 1)
            return self.token(
                "aggregation", name[0] if name else b"_", name.end() if name else self.at + 1
            )
        if first.isdigit():
            return self.number()
        if first == b'"':
            return self.text()
        return self.mark()

    def number(self):
        digits = DIGITS.match(self.script, self.at)
        spelt = NUMBER.fullmatch(digits[0])
        if not spelt:
            self.refuse(CONSTANT)
        hexadecimal, octal, decimal, suffix = spelt.groups()
        value = (
            int(hexadecimal, 16)
            if hexadecimal
            else int(octal, 8)
            if octal
            else decimal_value(decimal)
        )
        if value > MAX_NUMBER:
            self.refuse(CONSTANT)
        return self.token("number", (value, (suffix or b"").lower().decode()), digits.end())

    def text(self):
        says, at = bytearray(), self.at + 1
        while self.script[at : at + 1] != b'"':
            byte = self.script[at : at + 1]
            if byte in (b"", b"\n"):
                self.refuse(UNCLOSED)
            if byte == b"\0":
                self.refuse(BAD_BYTE)
            if byte == b"\\":
                at += 1
                says.append(self.escape(at))
            else:
                says += byte
            at += 1
        return self.token("text", bytes(says), at + 1)

    def escape(self, at):
        """The byte that a backslash and the byte after it stand for."""
        if at == len(self.script):
            self.refuse(UNCLOSED)
        if self.script[at] not in ESCAPES:
            self.refuse(ESCAPE)
        return ESCAPES[self.script[at]]

    def mark(self):
        spelling = next(
            (mark for mark in MARKS if self.script.startswith(mark.encode(), self.at)), None
        )
        if not spelling:
            self.refuse(BAD_BYTE)
        made = self.token("mark", spelling, self.at + len(spelling))
        if self.place == "predicate" and spelling == "/" and self.is_before_a_body():
            return made._replace(kind="closing slash")
        return made

    def is_before_a_body(self):
        """Whether the next token is an opening brace. A comment without an end isn't a token, and
        is refused later."""
        at = BLANKS.match(self.script, self.at).end()
        while self.script.startswith(b"/*", at):
            stop = self.script.find(b"*/", at + 2)
            at = BLANKS.match(self.script, stop + 2).end() if stop >= 0 else len(self.script)
        return self.script.startswith(b"{", at)

    def place_after(self, token):
        if token.kind == "word" and self.place == "head":
            return "declaration"
        if token.kind != "mark":
            return self.place
        if token.says == "/" and self.place == "head":
            return "predicate"
        if token.says == ";" and self.place == "declaration":
            return "head"
        return {"{": "body", "}": "head"}.get(token.says, self.place)


def decimal_value(digits):
    """The value of decimal digits. Over twenty of them it is too large whatever they are, and isn't
    computed."""
    return int(digits) if len(digits) <= 20 else MAX_NUMBER + 1
