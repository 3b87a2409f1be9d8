"""The formula of docs/RELIABILITY.md: the most bytes that a run holds; and how much a form of input
has of each of its terms."""
import csv
import re
import sys
from collections import Counter

import forms

csv.field_size_limit(sys.maxsize)

# The bytes of each term, as the page has them.
EACH = {
    "run": 3_500_000,
    "worker": 400_000,
    "group": 800,
    "byte read by several workers": 14,
    "byte of their pieces": 20,
    "byte of the script": 190,
    "byte of the longest row": 4,
    "comma of the longest row": 25,
    "byte of the answer": 1.1,
    "byte of entries made by threads": 1,
    "text": 135,
    "byte of a text": 2,
    "row": 76,
    "argument": 8,
    "owner": 210,
    "byte of an execname": 2,
    "probe": 230,
    "byte of a probe's names": 2,
    "thread": 235,
    "list of clauses": 110,
    "clause in a list": 16.4,
    "aggregation in a group": 34,
    "aggregation with entries in a group": 1_900,
    "entry": 330,
    "further part of an entry's key": 34,
    "text of an entry's key": 32,
    "byte of an entry's key": 1.1,
    "entry of a histogram": 300,
    "bucket": 40,
    "thread with tables": 230,
    "variable": 380,
    "further variable": 510,
    "clause-local variable": 240,
    "thread's array": 800,
    "element": 150,
    "further part of an element's key": 34,
    "kept text": 32,
    "byte of a kept text": 1.1,
    "numbered text": 100,
    "byte of a numbered text": 1.1,
}
# What groups make. These terms count twice if a script exits.
MADE_BY_GROUPS = [
    "text",
    "byte of a text",
    "aggregation in a group",
    "aggregation with entries in a group",
    "entry",
    "further part of an entry's key",
    "text of an entry's key",
    "byte of an entry's key",
    "entry of a histogram",
    "bucket",
    "thread with tables",
    "variable",
    "further variable",
    "clause-local variable",
    "thread's array",
    "element",
    "further part of an element's key",
    "kept text",
    "byte of a kept text",
    "numbered text",
    "byte of a numbered text",
]
# The bytes of a trace that several workers read at a time, unless a row is longer.
READ_TOGETHER = 1 << 22
# The digits of a cpu, a thread and a pid, if a plain row is read without csv.
MAX_DIGITS = 30
# The fewest entries of an aggregation that threads write, and the most that they write at a time.
MIN_BY_THREADS, MAX_BY_THREADS = 2_048, 32_768


def bound(counts):
    """Returns the most bytes of a run with these counts of the terms."""
    return sum(EACH[term] * count for term, count in counts.items())


def largest_terms(counts, most=4):
    """Returns the terms that come to most bytes, each with its megabytes."""
    terms = sorted(counts, key=lambda term: -EACH[term] * counts[term])
    return ", ".join(f"{term} {EACH[term] * counts[term] / 2**20:.0f}" for term in terms[:most])


def count_longest_row(counts, trace):
    """Counts the bytes and the commas of the longest row: one whose quote stays open has all that
    follows."""
    lines = re.split("[\r\n]", trace)
    longest = max(lines, key=lambda line: len(line) * 4 + line.count(",") * 25)
    counts["byte of the longest row"] = len(longest)
    counts["comma of the longest row"] = longest.count(",")


def kept_as(cpu, thread, pid, execname):
    """Returns what an owner is told from others by: csv reads one whose numbers are too long."""
    if len(cpu + thread + pid) > MAX_DIGITS:
        return int(cpu), int(thread), int(pid), execname
    return cpu, thread, pid, execname


def count_owners(counts, spellings):
    """Counts owners, each in every spelling of its numbers."""
    owners = {kept_as(*it) for it in spellings}
    counts["owner"] = len(owners)
    counts["byte of an execname"] = sum(len(execname) for *_, execname in owners)
    counts["thread"] = len({int(thread) for _, thread, _, _ in owners})


def count_trace(trace):
    """Counts the terms that a trace comes to, up to its first row of another number of fields."""
    counts, spellings, probes = Counter(), set(), set()
    count_longest_row(counts, trace)
    if not trace.startswith(forms.HEADER):
        return counts
    for row in csv.reader(trace.splitlines(keepends=True)[1:]):
        if len(row) != len(forms.COLUMNS) + 10:
            break
        spellings.add(tuple(row[1:5]))
        probes.add(tuple(row[6:10]))
        counts["row"] += 1
        # Empty arguments that end a row aren't kept.
        counts["argument"] += len(",".join(row[10:]).rstrip(",").split(","))
    counts["probe"] = len(probes)
    counts["byte of a probe's names"] = sum(len("".join(probe)) for probe in probes)
    count_owners(counts, spellings)
    return counts


def counts_of(form, size):
    """How much of each term a form has at a size, without those of its answer."""
    words, trace = form.plan.split(), form.trace(size)
    counts = count_trace(trace)
    counts += Counter({"run": 1, "worker": int(words[1]), "group": int(words[3])})
    counts["byte of the script"] = len(form.script(size))
    if counts["worker"] > 1:
        most = max(READ_TOGETHER, counts["byte of the longest row"])
        counts["byte read by several workers"] = min(len(trace), most)
        counts["byte of their pieces"] = min(len(trace), READ_TOGETHER)
    counts.update(form.more(size))
    return counts
