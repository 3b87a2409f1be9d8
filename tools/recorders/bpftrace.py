"""Makes a trace of the rows that trace.bt lets bpftrace print: in the order of their times,
numbered, and with the names of the calls for their numbers.

    python3 bpftrace.py rows.csv > run.csv

A second word is the machine that the rows are of, as 'uname -m' shows it; without it this one.
"""
import csv
import os
import re
import sys

sys.dont_write_bytecode = True
sys.path.insert(0, os.path.dirname(os.path.dirname(os.path.realpath(__file__))))
from dreplay_tools.system_calls import names_of

TIME, CALL = 5, 8  # columns
# The name of a program is between quotes as it is, so it may hold quotes, commas and line feeds.
ROW = re.compile(
    r'(?m)^(0),(\d+),(\d+),(\d+),"(.{0,64}?)",(\d+),(syscall),(),(\d+),(entry|return)'
    + r",(-?\d*)" * 10
    + r"\n",
    re.DOTALL | re.ASCII,
)


def main():
    with open(sys.argv[1], newline="", encoding="utf-8", errors="surrogateescape") as file:
        header, text = file.readline(), file.read()
    names = names_of((sys.argv[2:] or [os.uname().machine])[0])
    sys.stdout.reconfigure(encoding="utf-8", errors="surrogateescape")
    trace = csv.writer(sys.stdout, lineterminator="\n")
    sys.stdout.write(header)
    rows = [list(found.groups()) for found in ROW.finditer(text)]
    rows.sort(key=lambda row: int(row[TIME]))
    for number, row in enumerate(rows, 1):
        row[0], row[CALL] = number, names.get(int(row[CALL]), row[CALL])
        trace.writerow(row)


main()
