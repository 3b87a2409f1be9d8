"""Patterns of names as D has them: `*` is any letters, `?` one."""
import re


def matches(pattern, text):
    """Whether a pattern is of a text: `*` is any bytes, `?` one, and nothing any text. Also how
    many letters it took to compare.
    """
    if pattern in ("", "*"):
        return True, 0
    if "?" in pattern:
        return matches_by_letters(pattern, text)
    first, *pieces = pattern.split("*")
    if not pieces:
        return pattern == text, 0
    last = pieces.pop()
    at, end, letters = len(first), len(text) - len(last), 0
    if at > end or not text.startswith(first) or not text.endswith(last):
        return False, 0
    for piece in filter(None, pieces):
        letters += (len(text) + 3) // 4  # they are compared faster than one by one
        at = text.find(piece, at, end)
        if at < 0:
            return False, letters
        at += len(piece)
    return True, letters


def matches_by_letters(pattern, text):
    """The same, of any pattern."""
    pattern = re.sub(r"\*+", "*", pattern)
    if len(pattern) - pattern.count("*") > len(text):
        return False, 0
    at = place = letters = 0
    star = back = -1
    while at < len(text):
        letters += 1
        if place < len(pattern) and pattern[place] == "*":
            star, back, place = place, at, place + 1
        elif place < len(pattern) and pattern[place] in ("?", text[at]):
            at, place = at + 1, place + 1
        elif star >= 0:
            back += 1
            at, place = back, star + 1
        else:
            return False, letters
    return not pattern[place:].strip("*"), letters


class Names:
    """The names that one of several patterns is of. Each is compared once, or once in a while.
    A pattern without a star, or with one at its end, is looked up among all of its kind.
    """

    def __init__(self, patterns):
        self.whole, self.starts, self.others, self.known = set(), set(), [], {}
        for pattern in patterns:
            if not {"*", "?"} & set(pattern):
                self.whole.add(pattern)
            elif pattern.endswith("*") and not {"*", "?"} & set(pattern[:-1]):
                self.starts.add(pattern[:-1])
            else:
                self.others.append(pattern)
        self.lengths = {len(start) for start in self.starts}

    def has(self, name):
        if name in self.whole:
            return True
        if name not in self.known:
            if len(self.known) > 100_000:
                self.known.clear()
            self.known[name] = self.is_matched(name)
        return self.known[name]

    def is_matched(self, name):
        return any(name[:length] in self.starts for length in self.lengths) or any(
            matches(pattern, name)[0] for pattern in self.others
        )
