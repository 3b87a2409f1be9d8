"""Options that several converters have."""
import argparse
import re

MAX_PARTS, MAX_JOBS = 1000, 64


def seconds(shown):
    """A number of seconds, in nanoseconds."""
    found = re.fullmatch(r"(\d{1,10})(?:\.(\d{1,9}))?", shown, re.ASCII)
    if not found:
        raise argparse.ArgumentTypeError(
            f"{quote(shown)} isn't a number of seconds, such as 2 or 0.25"
        )
    return int(found[1]) * 10**9 + int((found[2] or "0").ljust(9, "0"))


def rows(shown):
    if not re.fullmatch(r"[1-9]\d{0,17}", shown, re.ASCII):
        raise argparse.ArgumentTypeError(f"{quote(shown)} isn't a number of rows from 1 up")
    return int(shown)


def parts(shown):
    if not re.fullmatch(r"[1-9]\d{0,3}", shown, re.ASCII) or int(shown) > MAX_PARTS:
        raise argparse.ArgumentTypeError(
            f"{quote(shown)} isn't a number of parts from 1 to {MAX_PARTS}"
        )
    return int(shown)


def jobs(shown):
    if not re.fullmatch(r"[1-9]\d?", shown, re.ASCII) or int(shown) > MAX_JOBS:
        raise argparse.ArgumentTypeError(
            f"{quote(shown)} isn't a number of processes from 1 to {MAX_JOBS}"
        )
    return int(shown)


def process(shown):
    if not re.fullmatch(r"[1-9]\d{0,9}", shown, re.ASCII):
        raise argparse.ArgumentTypeError(f"{quote(shown)} isn't a number of a process")
    return int(shown)


def calls(shown):
    """Names of calls, separated by commas."""
    if not shown.replace(",", "").strip():
        raise argparse.ArgumentTypeError("it has no name of a call, such as read or open*")
    return shown


def machine(shown):
    """A machine whose numbers of system calls are known, or none."""
    from .system_calls import MACHINES  # which most tools don't need

    if shown not in (*MACHINES, "none"):
        known = ", ".join(MACHINES)
        raise argparse.ArgumentTypeError(
            f"{quote(shown)} is none of {known}, as 'uname -m' shows them, or none"
        )
    return shown


def quote(shown):
    return repr(shown if len(shown) <= 40 else shown[:40] + "..")


def add_outputs(parser):
    """The options of where the trace goes, and of its times."""
    where = "where the trace goes, once it is complete (standard output)"
    parser.add_option("-o FILE", where, dest="out")
    cut = "cut it by thread into N parts: run.1.csv, run.2.csv .."
    parser.add_option("--split N", cut, type=parts)
    add_from_zero(parser)


def add_from_zero(parser):
    since = "times since the first line of the recording, and not since 1970"
    parser.add_option("--from-zero", since)


def add_machine(parser):
    parser.add_option(
        "--machine NAME",
        "the machine whose numbers of system calls raw_syscalls has, as 'uname -m' shows it "
        "(this one); none leaves numbers",
        type=machine,
    )
