"""Runs a program with a small library of C preloaded into it, which refuses what the environment
tells it to, or makes reads short."""
import contextlib
import os
import subprocess
import tempfile

from lib import harness

MAX_CALLS = 1_000_000


@contextlib.contextmanager
def build(source):
    """Builds tests/shims/SOURCE with gcc in a temporary folder, for as long as it is used."""
    with tempfile.TemporaryDirectory(prefix="dreplay-") as room:
        shim = f"{room}/shim.so"
        source = f"{harness.TOP}/tests/shims/{source}"
        command = ["gcc", "-O2", "-Wall", "-shared", "-fPIC", "-o", shim, source]
        subprocess.run(command, check=True)
        yield shim


def drawn_most(rng):
    """Draws the most bytes that a read gives."""
    return rng.choice((1, 2, 3, 7, rng.randrange(8, 1000)))


def with_short_reads(shim, most):
    """The environment in which a read of standard input gives this many bytes at most, by a library
    that was built of streams.c."""
    return {**os.environ, "LD_PRELOAD": shim, "READ": f"{most} 0 0"}


def run(case, program, plan, shim, refusals):
    """Runs a case under a plan with a library that refuses what these variables of the environment
    say. Returns what it left, and whether anything was refused."""
    reads, writes = os.pipe()
    environment = {**os.environ, "LD_PRELOAD": shim, "REFUSED": str(writes), **refusals}
    try:
        result = case.run(program, plan, env=environment, pass_fds=[writes])
    finally:
        os.close(writes)
        with os.fdopen(reads, "rb") as refused:
            was_refused = refused.read() != b""
    return result, was_refused


def sweep(tally, label, nth_run, wants, expected):
    """Refuses the first call, then the second, and so on, until a run has none left to refuse:
    `nth_run` runs the case with its nth call refused, and `wants` says what it may leave then."""
    for nth in range(1, MAX_CALLS):
        try:
            result, was_refused = nth_run(nth)
        except subprocess.TimeoutExpired:
            tally.count(
                f"{label}, number {nth}", f"it had not ended after {harness.SECONDS} seconds"
            )
            return
        if not was_refused:
            break
        allowed = wants(nth)
        tally.count(
            f"{label}, number {nth}",
            result not in allowed and harness.differences(result, allowed[-1]),
        )
    print(f"{label}: {nth - 1}, each refused in turn")
    tally.count(f"{label}, none refused", harness.differences(result, expected))
    tally.count(label, "" if nth > 1 else "none was seen, so none was refused")
