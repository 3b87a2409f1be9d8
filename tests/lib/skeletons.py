"""Skeletons of a crate: copies in which some functions are as they are, and of the others only the
contracts are left. Their bodies are stubs, and their proofs rest on a hole.

What calls a function rests on its contract alone. So over a skeleton the prover says of a function
what it says over the whole crate, and proves no function that this one calls. There is one hole, in
a file of lemmas: the prover prints the goal of each, which takes it a second for a contract.
"""
import contextlib
import copy
import os
import re
import shutil
from dataclasses import dataclass

from lib import bodies, copies

STUB = "unreachable!()"
# The heads of functions whose bodies the compiler has to see.
IN_FULL = re.compile(r"\bconst fn\b|->\s*impl\b")
PROOF = """\
use Rattle.{crate}.proofs.Assumed.{{assumed}}
use Rattle.{crate}.proofs.{at}.Statement.{{statement}}

pub {name}_spec : {{M : Type 1}} → statement M
{name}_spec = assumed
"""
ASSUMED = """\
pub assumed : {A : Type 2} → A
assumed = ?
"""


@dataclass
class Ground:
    """What edits are tried over: a crate or its skeleton, the crate itself, the paths of its
    functions, and of those that copies may stand for; and the flags that it is checked with."""

    crate: object
    whole: object
    paths: list
    may_have_copies: dict
    flags: list

    def has_copies(self, change):
        return copies.has_copies(change, self.may_have_copies)

    def paths_of(self, functions):
        return [it for it in self.paths if any(function.is_at(it) for function in functions)]

    def plant(self, parts, texts, changes, folder):
        """Makes a crate in a folder, with these texts in place of its own, and copies for those of
        the changes that have them. Returns it, and for each change what stands for its functions,
        each with its paths."""
        made = copy_of(self.crate, parts, folder)
        for path, text in texts.items():
            write(f"{folder}/{path}", text)
        apart = {it: change for it, change in changes.items() if self.has_copies(change)}
        stand = dict(zip(apart, copies.copies_of(apart.values())))
        every = [it for found in stand.values() for it in found]
        for path, text in [*sources(folder)] if every else []:
            write(f"{folder}/{path}", copies.with_copies(text, path, every))
        for it in every:
            for path, text in copies.proofs_of(it, self.may_have_copies[it.function], self.whole):
                write(f"{folder}/{path}", text)
        return made, {it: self.find(change, stand.get(it)) for it, change in changes.items()}

    def find(self, change, stand):
        """Returns what stands for a change's functions, each with its paths."""
        if not stand:
            return {it: self.paths_of([it]) for it in change.functions}
        return {it.as_function(): [*map(it.renamed, self.paths_of([it.function]))] for it in stand}


    def unedited(self, changes):
        """Returns what stands for the functions of these changes, and changes nothing: copies of
        them, or they themselves."""
        apart = {it for change in changes if self.has_copies(change) for it in change.functions}
        in_place = {it for one in changes if not self.has_copies(one) for it in one.functions}
        texts = {}
        for path, text in sources(self.whole.folder):
            texts.update(bodies.texts_of(text, path))
        own = {it: texts[it] for it in apart}
        return [
            bodies.Change(own, {}, is_of_bodies=True, is_apart=True),
            bodies.Change(dict.fromkeys(in_place, ""), {}, is_of_bodies=True, is_apart=False),
        ]


def copy_of(crate, parts, folder):
    """Copies a crate to a folder, and returns the copy."""
    for part in parts:
        if os.path.isdir(f"{crate.folder}/{part}"):
            shutil.copytree(f"{crate.folder}/{part}", f"{folder}/{part}")
    made = copy.copy(crate)
    made.folder = folder
    return made


def skeleton_of(crate, parts, paths, changes, folder):
    """Makes a skeleton of a crate in a new folder, for trying these changes. What they change in
    place is as it is, and so are its cycles of calls. The prover has named the crate's functions by
    these paths."""
    made = copy_of(crate, parts, folder)
    every = paths_of_all(folder, paths)
    in_place = [it for it in changes if not copies.has_copies(it, every)]
    kept = {function for change in in_place for function in change.functions}
    cycles = {it.cycle for it in kept if it.cycle}
    stubs = {
        function: path
        for function, path in every.items()
        if function not in kept and function.cycle not in cycles
    }
    for path, text in sources(folder):
        write(f"{folder}/{path}", bodies.with_stubs(text, path, STUB, stubs))
    remove_proofs(f"{folder}/proofs", {it.cycle for it in stubs})
    write_assumed(f"{folder}/proofs")
    for path in stubs.values():
        assume(crate.name, folder, path)
    return Ground(made, crate, paths, every, ["--allow-holes"])


def sources(folder):
    """Gives the path and the text of each source file."""
    for at, _, names in os.walk(f"{folder}/src"):
        for name in names:
            with open(f"{at}/{name}", encoding="utf-8") as file:
                yield os.path.relpath(f"{at}/{name}", folder), file.read()


def paths_of_all(folder, paths):
    """Returns the path of each function that may be a stub: one with a body, and with a path that
    no other function has. What is derived has no body in the sources, and a closure goes with its
    function."""
    paths = [it for it in paths if "::fn::" not in f"::{it}" and "+" not in it]
    whose = {}
    for path, text in sources(folder):
        for function, it in bodies.functions_in(text, path):
            found = [at for at in paths if function.is_at(at)]
            if len(found) == 1 and it["body"] and not IN_FULL.search(it["head"]):
                whose.setdefault(found[0], []).append(function)
    return {each[0]: at for at, each in whose.items() if len(each) == 1}


def write_assumed(proofs):
    """Writes the file of lemmas that has the hole, and declares it."""
    write(f"{proofs}/Assumed.antt", ASSUMED)
    with open(f"{proofs}/Lib.antt", "a", encoding="utf-8") as file:
        file.write("mod Assumed\n")


def assume(crate, folder, path):
    """Replaces a function's proof, and those of its closures, by what rests on the hole."""
    *above, name = path.split("::")
    whole, *closures = (f"{folder}/{it}" for it in copies.folders_of(path))
    remove_files(whole)
    for closure in closures:
        shutil.rmtree(closure, ignore_errors=True)
    names = {"crate": crate, "at": ".".join([*above, name]), "name": name}
    write(f"{whole}/Proof.antt", PROOF.format(**names))


def remove_proofs(proofs, cycles):
    """Removes the proofs of these cycles of calls."""
    for at, folders, _ in os.walk(proofs):
        for cycle in cycles & {it.removeprefix("+") for it in folders if it.startswith("+")}:
            remove_files(f"{at}/+{cycle}")


def remove_files(folder):
    """Removes the files of a proof, and no lemmas that are beside them."""
    for name in ["Answers.antt", "Invariants.antt", "Proof.antt"]:
        with contextlib.suppress(FileNotFoundError):
            os.remove(f"{folder}/{name}")


def write(path, text):
    os.makedirs(os.path.dirname(path), exist_ok=True)
    with open(path, "w", encoding="utf-8") as file:
        file.write(text)
