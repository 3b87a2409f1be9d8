"""The edits that earlier runs of tests/edits on this machine found refused."""
import contextlib
import hashlib
import os


def control_of(crate, edit):
    """Returns the path of an edit's control, below the top of the crate's repository."""
    top = os.path.dirname(os.path.dirname(crate.folder))
    return f"{top}/tests/controls/{crate.name}/{os.path.basename(edit)}"


def is_control(path):
    return os.path.basename(os.path.dirname(path)) != "must-fail"


def text_of(path):
    """Returns a file's text, or '' if it isn't there."""
    with contextlib.suppress(FileNotFoundError), open(path, encoding="utf-8") as file:
        return file.read()
    return ""


class Refusals:
    """If rt keeps what it proved, it also keeps which edits were refused, each by the sum of all
    that this depends on: the edit, its crate and those below it, the kit, and the scripts that try
    it. What was tried over the libraries of rt ci is kept apart from what was tried over others.
    """

    def __init__(self, rt, crates, is_beside, is_anew):
        self.rt = rt
        self.kept = rt.Kept(list({it.name: it for it in crates}.values()), is_anew)
        self.scripts = hashlib.sha256(repr(is_beside).encode())
        here = os.path.dirname(__file__)
        scripts = "../edits bodies.py copies.py jobs.py places.py"
        scripts += " skeletons.py toolchain.py without_advice"
        for script in scripts.split():
            with open(f"{here}/{script}", "rb") as file:
                self.scripts.update(file.read())

    def names(self, crate, edits):
        """Returns the names under which it is kept that these edits of a crate were refused."""
        stands_on = self.scripts.hexdigest(), self.rt.stamp_of(crate, {})
        return {
            it: self.kept.of_edit(it, (*stands_on, text_of(control_of(crate, it)))) for it in edits
        }

    def holds(self, name):
        found = self.kept.tried(name)
        return bool(found) and found[0] == self.rt.REFUSED

    def keep(self, crate, names):
        """Keeps that these were refused, unless a file that this depends on changed meanwhile."""
        if all(self.kept.is_untouched(it) for it in [*crate.below(), crate]):
            for name in names:
                self.kept.keep_tried(name, self.rt.REFUSED, "refused, as it must be")
