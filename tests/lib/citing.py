"""Which definitions the clauses of sources rest on: those of public functions, of types, of traits
and of laws, and what other crates cite; and those that only private functions of their crate cite.

It goes by the text: a function is private if it is no `pub fn` and no method of a trait.
"""
import re
from collections import defaultdict

from lib.definitions import WORD, find_taken
from lib.names import TOP, read, sources

HEAD = re.compile(r"^( *)(pub(?:\([^)]*\))? )?(?:const )?fn \w+", re.MULTILINE)
OWNER = re.compile(r"^(?:impl|(?:pub )?trait)\b[^{]*", re.MULTILINE)
# Lines that are no clauses: comments, attributes, and names taken.
PASSED = re.compile(r"^\s*(?://.*|#!?\[.*\]|(?:ghost )?(?:pub )?use .*;)$", re.MULTILINE)


def is_private(text, head):
    """Whether no caller outside of the crate sees the function with this head."""
    if head[2] or not head[1]:
        return head[2] != "pub "
    owner = OWNER.findall(text, 0, head.start())[-1:]
    return not owner or not (" for " in owner[0] or owner[0].startswith("pub trait"))


def halves(text):
    """What a source has outside of its private functions, and these."""
    text = PASSED.sub("", text)
    public, private, at = "", "", 0
    for head in HEAD.finditer(text):
        if head.start() >= at and is_private(text, head):
            end = re.compile(rf"^{head[1]}(\}}|\{{\}})$", re.MULTILINE).search(text, head.end())
            public += text[at : head.start()]
            at = end.end() if end else len(text)
            private += text[head.start() : at]
    return public + text[at:], private


def find_cited(definitions, source, text):
    """The definitions that a part of a source names, by what the source takes."""
    takes = find_taken("\n".join(re.findall(r"(?m)^\s*ghost (use .*);$", source)))
    for of, name, sign in WORD.findall(text):
        word = name or f"◌{sign}◌"
        places = [(".".join(takes[of]), word)] if of in takes else []
        for place in [*places, takes.get(of), takes.get(word)]:
            found = place and definitions.find(*place)
            if found:
                yield found


class Citing:
    """What the clauses that callers see rest on, and what other crates cite; what the clauses of
    private functions alone do; and what no clause does, so that only proofs can use it."""

    def __init__(self, definitions):
        public, private = [], defaultdict(list)
        for path in sources():
            source = read(f"{TOP}/{path}")
            outside, inside = [find_cited(definitions, source, half) for half in halves(source)]
            public += outside
            private[path.split("/")[1]] += inside
        inside = {id(it) for found in private.values() for it in definitions.reach(found)}
        for crate, found in private.items():
            public += [it for it in definitions.reach(found) if it.crate != crate]
        outside = {id(it) for it in definitions.reach(public)}
        every = list({id(it): it for it in definitions.of.values()}.values())
        self.public = [it for it in every if id(it) in outside]
        self.private = [it for it in every if id(it) in inside - outside]
        self.unused = [it for it in every if id(it) not in inside | outside]
