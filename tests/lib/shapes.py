"""The shape of a function: what the prover calls its goals and the places that they speak of.

Written proofs cite these names. So an edit after which a function makes other calls, has more ways
to return, or lacks a name that its proofs cite, is refused by the proofs even if it is harmless.
"""
import json
import os
import re
import shutil
import subprocess
import tempfile
from collections import Counter
from dataclasses import dataclass

PROOFS = ["Answers.antt", "Invariants.antt", "Proof.antt"]
# The goals of which a function has one for each way through it. Others are safety at one place.
OF_WAYS = re.compile(r"returns|loop|decreases|invariant_of")
OF_BRANCHES = re.compile("Then|Else|In")


@dataclass
class Shape:
    """What a function calls, in order, its goals of each way, its branches, all names of goals and
    places, and by the name of each place those of the places from which it can be named."""

    calls: list
    ways: list
    branches: list
    names: set
    below: dict


def read_proofs(crate, function):
    """Returns the text of the proofs that are written for a function, its closures and its cycle
    of calls."""
    top, found = f"{crate.folder}/proofs", []
    for at, _, files in os.walk(top):
        parts = os.path.relpath(at, top).split("/")
        is_its = function.is_at("::".join(parts).replace("+", ""))
        is_of_cycle = function.cycle and f"+{function.cycle}" in parts
        if is_its or is_of_cycle:
            found += [f"{at}/{name}" for name in PROOFS if name in files]
    texts = []
    for path in sorted(found):
        with open(path, encoding="utf-8") as file:
            texts.append(file.read())
    return "\n".join(texts)


def path_of(module, crate):
    """Returns the path of the function that a module of the prover's is for, below the crate."""
    found = re.fullmatch(rf"Rattle-{crate}-proofs\.(.*)\.Lts(?:-(.*))?", module)
    if not found:
        return ""
    above, in_cycle = found[1].split("."), found[2]
    if in_cycle:
        above = [it for it in above if not it.startswith("+")] + in_cycle.split("-")
    return "::".join(above).replace("+", "") if in_cycle else "::".join(above)


def shape_of(entry):
    goals = [it[1] for it in entry["needs"]]
    places = entry["places"]
    calls = [it[3] for it in places if it[3]]
    below = names_below(places)
    ways = [it for it in goals if OF_WAYS.match(it)]
    branches = [it for it in entry["places_by_name"] if OF_BRANCHES.match(it)]
    return Shape(calls, ways, branches, {*goals, *below}, below)


def names_below(places):
    """Returns the names of places, each with those of the places from which it can be named: what
    a branch does can't be named behind it."""
    above, below = {}, {}
    for at, before, names, *_ in places:
        name = re.sub(r"-1$", "", names[1])
        above[at] = above.get(before, set()) | {name} - {""}
        for it in above[at]:
            below.setdefault(it, set()).add(name)
    return below


def shapes_of(rt, crate, texts):
    """Returns the shapes of a crate's functions and closures by their paths, with these texts in
    place of the crate's own, or None if the prover can't read them. Nothing is proved."""
    with tempfile.TemporaryDirectory(prefix="shapes-") as room:
        for part in rt.rtlib.PARTS:
            if os.path.isdir(f"{crate.folder}/{part}"):
                shutil.copytree(f"{crate.folder}/{part}", f"{room}/{part}")
        for path, text in texts.items():
            with open(f"{room}/{path}", "w", encoding="utf-8") as file:
                file.write(text)
        flags = ["--generated", f"{room}/made", "--old-names"]
        words = [rt.rtlib.RATTLE, "check", *crate.words(flags, as_source=True)]
        how = {"cwd": room, "stdin": subprocess.DEVNULL, "stdout": subprocess.DEVNULL}
        subprocess.run([*rt.rtlib.guarded(), *words], stderr=subprocess.DEVNULL, **how)
        if not os.path.exists(f"{room}/made/names.json"):
            return None
        with open(f"{room}/made/names.json", encoding="utf-8") as file:
            entries = json.load(file)
    paths = {it: path_of(it, crate.name) for it in entries if "needs" in entries[it]}
    return {path: shape_of(entries[it]) for it, path in paths.items() if path}


def is_hidden(name, was, now):
    """Returns whether a place can't be named any more from one from which it could be."""
    return bool((was.below[name] & {*now.below}) - now.below.get(name, set()))


def is_cited(name, text):
    """Returns whether proofs cite a name of a goal or a place, where `c.args.x` isn't the place
    x. Goals of a cycle of calls have the function's name before their own."""
    return re.search(rf"(?:(?<!\bargs)\.|[{{ ,-]){re.escape(name)}(?![\w-])", text)


def tell_new_shape(function, old, new, text):
    """Returns what tells that a function has another shape, and that its proofs, of this text, rest
    on the one that it had."""
    here = [{at: it for at, it in both.items() if function.is_at(at)} for both in (old, new)]
    if here[0].keys() != here[1].keys():
        return "closures"
    for at, was in here[0].items():
        now = here[1][at]
        if was.calls != now.calls:
            less, more = Counter(was.calls) - Counter(now.calls), Counter(now.calls)
            gone = " ".join(sorted(it.split("::")[-1] for it in less))
            come = " ".join(sorted(it.split("::")[-1] for it in more - Counter(was.calls)))
            return f"calls, without [{gone}] and with [{come}]"
        if len(was.ways) != len(now.ways):
            return f"{len(now.ways)} ways in place of {len(was.ways)}"
        if "-via-" in text and was.branches != now.branches:
            return "other branches, and proofs tell apart from which one they come"
        gone = sorted(it for it in was.names - now.names if is_cited(it, text))
        if gone:
            return f"names that proofs cite: {' '.join(gone)}"
        hidden = sorted(it for it in was.below if is_hidden(it, was, now) and is_cited(it, text))
        if hidden:
            return f"names in a branch that proofs cite behind it: {' '.join(hidden)}"
    return ""
