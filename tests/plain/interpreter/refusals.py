"""Why a script or a trace is refused: the part that found it, the fault's number, and its
place."""

STATUSES = {"Lex": 3, "Parse": 3, "Type": 3, "Trace": 4}


class Refused(Exception):
    """The first fault. `where` is what its line gives after the number: a line, or a row and
    perhaps a column."""

    def __init__(self, part, number, **where):
        super().__init__(part, number, where)
        self.part, self.number, self.where = part, number, where

    @property
    def status(self):
        return STATUSES[self.part]

    @property
    def message(self):
        what = "trace" if self.part == "Trace" else "script"
        places = "".join(f" {name} {number}" for name, number in self.where.items())
        return f"dreplay: {what} refused: {self.part} {self.number}{places}\n".encode()
