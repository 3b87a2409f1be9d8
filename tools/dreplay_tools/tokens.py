"""The tokens of a script in D, as docs/GRAMMAR.md has them. The one place in the tools where D is
read from its bytes.

A refused script has tokens too: what begins no token is one of the kind `bad`, and what has no end
one of `unclosed`. Each byte is looked at a bounded number of times, so the time is linear.
"""
import re
from dataclasses import dataclass

MAX_BYTES = 65_536
MAX_IN_A_ROW = 1024  # tokens of a statement
HEAD, DECLARATION, PREDICATE, BODY = "head", "declaration", "predicate", "body"

MARKS = (
    "<<= >>= -> ++ -- << >> <= >= == != && || ^^ += -= *= /= %= &= |= ^= + - * / % & | ^ ~ < > ! ?"
    " : = ( ) [ ] { } , ;"
).split()
MARK = "|".join(re.escape(mark) for mark in sorted(MARKS, key=len, reverse=True))
INSIDE = r'(?:[^"\\\n]|\\[^\n])*'  # of a text constant
EXPRESSION = re.compile(
    r"(?P<word>[A-Za-z_]\w*)|(?P<aggregation>@(?:[A-Za-z_]\w*)?)|(?P<number>\d\w*)|"
    rf'(?P<text>"{INSIDE}")|(?P<unclosed>"{INSIDE}\\?)|(?P<mark>{MARK})',
    re.ASCII,
)
IN_HEAD = re.compile(r"(?P<run>[\w.\-+:*?]+)|(?P<mark>[,/{};])", re.ASCII)
BLANKS = re.compile(r"[ \t\r\n\v\f]+")
OPTION_LINE = re.compile(r"[ \t]*#[^\n]*")
NUMBER = re.compile(
    r"(0[xX][0-9a-fA-F]+|0[0-7]*|[1-9]\d*)(?:[uU](?:[lL][lL]?)?|[lL][lL]?)?", re.ASCII
)
ASSIGNING = {"=", "+=", "-=", "*=", "/=", "%=", "&=", "|=", "^=", "<<=", ">>="}


@dataclass(frozen=True)
class Token:
    """A token: its kind, its bytes as written, where they are, and the place of the grammar that
    it is in.
    """

    kind: str  # run, word, aggregation, number, text, mark, bad or unclosed
    text: str
    start: int
    line: int
    column: int
    place: str
    closes: bool = False  # the slash that ends a predicate

    @property
    def end(self):
        return self.start + len(self.text)


class Reader:
    """A script on its way to its tokens."""

    def __init__(self, script):
        self.script, self.at, self.place = script, 0, HEAD
        self.line, self.line_start = 1, 0
        self.tokens, self.options = [], []

    def all(self):
        if self.script.startswith("#!"):
            self.skip(self.line_end(0))
        while self.skip_blanks() < len(self.script):
            self.take()
        return self.tokens

    def line_end(self, at):
        end = self.script.find("\n", at)
        return len(self.script) if end < 0 else end

    def skip(self, end):
        """Goes on to a place further down, and counts the lines up to there."""
        feeds = self.script.count("\n", self.at, end)
        if feeds:
            self.line += feeds
            self.line_start = self.script.rfind("\n", self.at, end) + 1
        self.at = end

    def skip_blanks(self):
        """Goes over blanks, comments and, in the head, option lines."""
        while True:
            end = after_blanks(self.script, self.at)
            if end is None:  # a comment that isn't closed
                begun = self.at
                while self.script[begun : begun + 2] != "/*":
                    begun = after_comment_or_blank(self.script, begun)
                self.skip(begun)
                self.add("unclosed", self.script[begun:])
                return self.at
            self.skip(end)
            option = self.option_line()
            if option is None:
                return self.at
            self.options.append((self.line, option))
            self.skip(self.at + len(option))

    def option_line(self):
        if self.place == HEAD and self.script.startswith("#", self.at):
            before = self.script[self.line_start : self.at]
            if not before.strip(" \t"):
                return self.script[self.at : self.line_end(self.at)]
        return None

    def take(self):
        found = (IN_HEAD if self.place == HEAD else EXPRESSION).match(self.script, self.at)
        if not found:
            self.add("bad", self.script[self.at])
            return
        kind, shown = found.lastgroup, found[0]
        if kind == "run" and shown in ("self", "this"):
            self.add("word", shown)
            self.place = DECLARATION
            return
        closes = self.place == PREDICATE and shown == "/" and self.is_closing()
        self.add(kind, shown, closes)
        if kind == "mark":
            self.move(shown)

    def is_closing(self):
        end = after_blanks(self.script, self.at + 1)
        return end is not None and self.script.startswith("{", end)

    def move(self, mark):
        """The place after a mark."""
        if mark == "{":
            self.place = BODY
        elif mark == "}" or (mark == ";" and self.place == DECLARATION):
            self.place = HEAD
        elif mark == "/" and self.place == HEAD:
            self.place = PREDICATE

    def add(self, kind, shown, closes=False):
        column = self.at - self.line_start + 1
        self.tokens.append(Token(kind, shown, self.at, self.line, column, self.place, closes))
        self.skip(self.at + len(shown))


def after_comment_or_blank(script, at):
    """The place after the blanks or the comment that begin at a place; the place itself if neither
    does.
    """
    blanks = BLANKS.match(script, at)
    if blanks:
        return blanks.end()
    if not script.startswith("/*", at):
        return at
    end = script.find("*/", at + 2)
    return at if end < 0 else end + 2


def after_blanks(script, at):
    """The place after all blanks and comments from a place on; none if one of the comments isn't
    closed.
    """
    while (end := after_comment_or_blank(script, at)) != at:
        at = end
    return None if script.startswith("/*", at) else at


def tokens(script):
    """The tokens of a script that is given as text (bytes that aren't UTF-8 as surrogates)."""
    return Reader(script).all()


def decode(data):
    """A script's bytes as text, from which they can be had back."""
    return data.decode("utf-8", "surrogateescape")


def value(shown):
    """The number that a token of the kind `number` is, or none if it isn't a number of D."""
    found = NUMBER.fullmatch(shown)
    if not found:
        return None
    digits = found[1]
    if digits[:2] in ("0x", "0X"):
        number = int(digits[2:], 16)
    else:
        if len(digits.lstrip("0")) > 30:
            return None
        number = int(digits, 8) if digits[0] == "0" else int(digits)
    return number if number < 2**64 else None


def join(some):
    """The text of tokens that follow one another, with one space for blanks and comments."""
    parts, before = [], None
    for token in some:
        if before is not None and before.end != token.start:
            parts.append(" ")
        parts.append(token.text)
        before = token
    return "".join(parts)
