"""Several answers to one script as one."""
from . import held
from .answers import OTHER_ANSWER, Table
from .ends import Failure


class Sum:
    """The sum of answers: counts, sums, averages and histograms are added up, of min and max the
    least and the greatest are kept.
    """

    def __init__(self):
        self.tables = {}  # by their places in the script

    def add(self, answer, name):
        for place, table in answer.tables.items():
            together = self.tables.setdefault(place, Table(place, table.aggregation, table.buckets))
            if together.kind != table.kind:
                why = f"its {table.title} isn't that of the answers before, so of another script"
                raise Failure(f"{name}: {why}", OTHER_ANSWER)
            merge(table, together.held)

    def in_order(self):
        """The aggregations in the order of the script."""
        return [self.tables[place] for place in sorted(self.tables)]


def merge(table, entries):
    """Adds the entries of a table to those that are there."""
    function = table.aggregation.function
    for key, value in table.held.items():
        entries[key] = held.add(function, entries[key], value) if key in entries else value
