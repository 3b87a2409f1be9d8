"""Copies of functions, each with an edit, which stand behind their functions under other names.

A copy has the proof of its function, and nothing calls it. So one run of the prover tries several
edits of one function, and edits of functions that call one another.
"""
import os
import re
from dataclasses import dataclass, replace

from lib import bodies, places


def has_copies(change, paths):
    """Returns whether copies may stand for all functions that an edit changes: no function of a
    trait or of a cycle of calls, and none but those that have these paths. It may change only
    their own proofs, too."""
    if not change.is_apart or any(it.trait or it.cycle for it in change.functions):
        return False
    if not change.functions.keys() <= paths.keys():
        return False
    folders = tuple(f"{at}/" for it in change.functions for at in folders_of(paths[it]))
    return all(it.startswith(folders) for it in change.proofs)


def folders_of(path):
    """Returns the folders with the proofs of a function and of its closures. Those of a method's
    closures are beside its type."""
    *above, name = path.split("::")
    places = [[*above, name], [*above, "fn", name], [*above[:-1], "fn", *above[-1:], name]]
    return ["/".join(["proofs", *it]) for it in places]


@dataclass
class Copy:
    """A copy of a function with a text, and the texts of those files of its proof that differ."""

    function: object
    name: str
    text: str
    proofs: dict

    def as_function(self):
        return replace(self.function, name=self.name)

    def renamed(self, path):
        """Returns the copy's path, if this is of its function, or that of the same closure."""
        name = self.function.name
        closure, count = re.subn(rf"(\bfn::(?:\w+::)?){name}(?=::)", rf"\g<1>{self.name}", path, 1)
        return closure if count else path.removesuffix(name) + self.name

    def text_renamed(self):
        head = rf"(?m)^((?! *//).*\bfn ){self.function.name}\b"
        return re.sub(head, rf"\g<1>{self.name}", self.text, count=1)


def copies_of(changes):
    """Returns the copies that stand for each of these changes: each copy of a function has another
    number."""
    counts = {}
    for change in changes:
        made = []
        for function, text in change.functions.items():
            counts[function] = counts.get(function, 0) + 1
            name = f"{function.name}_copy_{counts[function]}"
            made.append(Copy(function, name, text, change.proofs))
        yield made


def with_copies(text, path, copies):
    """Returns a source file's text with these copies behind their functions."""
    made, end = [], 0
    for function, it in bodies.functions_in(text, path):
        behind = [f"\n\n{one.text_renamed()}" for one in copies if one.function == function]
        made += [text[end : it.end()], *behind]
        end = it.end()
    return "".join([*made, text[end:]])


def proofs_of(copy, path, crate):
    """Gives the files of a copy's proof: the path and the text of each. Its function has this path
    in the crate."""
    for old in folders_of(path):
        new = old.removesuffix(copy.function.name) + copy.name
        for at, _, names in os.walk(f"{crate.folder}/{old}"):
            for name in names:
                file = os.path.relpath(f"{at}/{name}", crate.folder)
                text = copy.proofs.get(file) or places.read(f"{at}/{name}")
                cited, cited_in_copy = (f".{it.replace('/', '.')}." for it in (old, new))
                yield new + file.removeprefix(old), text.replace(cited, cited_in_copy)
