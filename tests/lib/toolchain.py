"""The door to the toolchain: what building and testing take from inside its command `rt`.

`rt --help` names none of this, so another toolchain may lack any of it, or have it mean something
else. No other file loads rt's code. With another toolchain than those of SEEN: try `make`, then
tests/check_edits, which runs nearly all that is taken here, and then write its name into SEEN.
"""
import os
import runpy
import shutil
import subprocess
import sys
import types

# The toolchains in which all of this was seen, as `rt version` names them.
SEEN = ["rattle-kit-13b", "rattle-kit-13f"]
# What rt has: checks of a crate; edits, as `rt must-fail` reads, applies, tries and judges them;
# and the memory that a proof needs and the machine has.
OF_RT = "checked edited edits_of must_fail read_edit unread free need processors".split()
# What a newer rt has: what it keeps of proofs between runs, and how it judges an edit. For an older
# one `without_keeping` stands in.
OF_KEEPING = "Kept linked listing stamp_of AT_LIMIT REFUSED".split()
USED = "rattle-last-used"
# What the prover adds to the name of a folder of kept work for that of its suggestions.
OFFERS = ["-offers", "-with-holes-offers"]
# What rt's library has: a crate's files, the crates below a folder and their locks, layouts, the
# program that proves, rt's commands, and the folders of a crate. A crate of it has `below`,
# `build_rlib`, `count`, `folder`, `is_built`, `is_program`, `name`, `run` and `words`. The program
# that proves names a crate's goals without a proof, by the flags that `rt names` gives it
# (lib/shapes.py).
OF_LIBRARY = "PARTS RATTLE STALE crates_below files_of fmt guarded lock main text_of".split()


class KeepsNothing:
    """Stands for rt's `Kept` if rt keeps nothing between runs."""

    at = None

    def __init__(self, crates, is_anew=False):
        pass

    def has_room(self):
        return False

    def of_edit(self, edit, stands_on):
        return edit

    def tried(self, name):
        return None

    def is_untouched(self, crate):
        return False


def linked(folder, to):
    """Makes a folder of hard links to the files of another one. The prover replaces files, and
    never writes into one."""
    shutil.copytree(folder, to, copy_function=os.link)


def listing(folder):
    """What tells whether a folder's files are those that they were. A mark of when the prover used
    its work last is none of them."""
    found = [f"{at}/{name}" for at, _, names in os.walk(folder) for name in names if name != USED]
    return {it: (os.stat(it).st_ino, os.stat(it).st_mtime_ns) for it in found}


def keep_no_offers(kept):
    """Has the prover find no room for suggestions in this folder of kept work: where it would make
    a folder for them stands a file."""
    for name in os.listdir(kept):
        if not name.endswith("-offers"):
            for place in [f"{kept}/{name}{it}" for it in OFFERS]:
                shutil.rmtree(place, ignore_errors=True)
                open(place, "a", encoding="utf-8").close()


def without_keeping(rt):
    """Gives an rt that keeps nothing the names of one that keeps proofs between runs."""
    tried = rt.must_fail

    def must_fail(*words):
        is_refused, text = tried(*words)
        return "refused" if is_refused else "not refused", text

    stands_in = {"Kept": KeepsNothing, "linked": linked, "listing": listing}
    stands_in |= {"stamp_of": lambda crate, texts: "", "must_fail": must_fail}
    stands_in |= {"REFUSED": "refused", "AT_LIMIT": "refused"}
    return types.SimpleNamespace(**{**vars(rt), **stands_in})


def version():
    """The toolchain's name."""
    said = subprocess.run(["rt", "version"], capture_output=True, text=True).stdout
    return (said.split() or ["one without a name"])[0]


def stop(why):
    sys.exit(f"{os.path.relpath(sys.argv[0])}: {why}")


def load():
    """Loads rt's own code. Ends the program with a sentence if it lacks something."""
    path = shutil.which("rt")
    if not path:
        stop("the Rattle toolchain's command rt is not on PATH")
    rt = types.SimpleNamespace(**runpy.run_path(path))
    library = getattr(rt, "rtlib", None)
    absent = [name for name in OF_RT if not hasattr(rt, name)]
    absent += [name for name in OF_LIBRARY if not hasattr(library, name)]
    keeping = [name for name in OF_KEEPING if hasattr(rt, name)]
    absent += [name for name in OF_KEEPING if keeping and name not in keeping]
    if absent:
        seen = " or ".join(SEEN)
        stop(
            f"the toolchain on PATH, {version()}, lacks what is taken from {seen}:"
            f" {', '.join(absent)}. Use one of these, or mend tests/lib/toolchain.py"
        )
    return rt if keeping else without_keeping(rt)
