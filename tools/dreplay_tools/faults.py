"""The lines of an answer that tell a division by zero: which row and which clause they are of."""
import re

from .guesses import records
from .script import Script
from .tokens import MAX_BYTES, decode

FAULT = re.compile(rb"error: firing (\d{1,20}) clause (\d{1,20}): divide-by-zero\r?\n?")
CAUSE = (
    "a division by zero ended this run of the clause, which shows nothing more; the script went on"
)
REMEDY = "test before: `/ arg0 / { .. 1 / arg0 .. }`, or `arg0 ? 1 / arg0 : 0`"


class Faults:
    """How many faults an answer tells, and the first of them."""

    def __init__(self):
        self.count, self.first, self.refused = 0, None, False

    def take(self, line):
        found = FAULT.fullmatch(line)
        if found:
            self.count += 1
            self.first = self.first or (int(found[1]), int(found[2]))

    def lines(self, given):
        """What is said of the faults of an answer."""
        if self.count:
            place = " and ".join(places(*self.first, given))
            yield f"firing {self.first[0]} clause {self.first[1]}: {CAUSE}" + (
                f" ({place})" if place else ""
            )
            if self.count > 1:
                yield f"{self.count - 1:,} more such lines"


def places(firing, clause, given):
    """Where a fault arose: the clause's line, and the row of the firing."""
    if given.script is not None and len(given.script) <= MAX_BYTES:
        clauses = Script(decode(given.script)).clauses
        if 1 <= clause <= len(clauses) and clauses[clause - 1].descriptions:
            yield f"line {clauses[clause - 1].descriptions[0].line} of the script"
    if given.trace is not None:
        for row, (line, fields) in enumerate(records(given.trace), 1):
            if fields[0] == str(firing):
                yield f"row {row}, line {line} of the trace"
                return


def explain(line, given):
    """The lines that explain a line which tells a fault; none for another line."""
    found = FAULT.fullmatch(line.encode("utf-8", "replace"))
    if not found:
        return None
    where = [f"Where: {place}" for place in places(int(found[1]), int(found[2]), given)]
    return [line, "", *where, f"Cause: {CAUSE}.", f"To do: {REMEDY}."]
