"""Whether the crates, and the programs in Rattle outside of them, are as `rt fmt` leaves them."""
import glob
import os
import shutil
import subprocess
import tempfile

from lib import harness, toolchain

# Folders of programs, of which crates are made only when they are run.
PROGRAMS = ("bench/programs", "tests/runners/*")


def check():
    """Gives the name of each crate and of each folder of programs, and what `rt fmt --check` says
    of it, which is nothing if it is laid out."""
    rtlib = toolchain.load().rtlib
    folder = f"{harness.TOP}/crates"
    for crate in sorted(os.listdir(folder)):
        if os.path.isdir(f"{folder}/{crate}"):
            yield crate, look(rtlib, f"{folder}/{crate}")
    for pattern in PROGRAMS:
        for folder in sorted(glob.glob(f"{harness.TOP}/{pattern}")):
            with tempfile.TemporaryDirectory() as room:
                make_crate(folder, room)
                yield os.path.relpath(folder, harness.TOP), look(rtlib, room)


def look(rtlib, folder):
    """What `rt fmt --check` says of a crate in this folder."""
    with tempfile.TemporaryFile("w+", errors="replace") as said:
        wrong = rtlib.fmt(folder, "--check", said, diff=subprocess.DEVNULL)
        said.seek(0)
        return said.read() if wrong else ""


def make_crate(folder, room):
    """Copies a folder's programs to where `rt fmt` looks for the sources of a crate."""
    os.mkdir(f"{room}/src")
    for path in glob.glob(f"{folder}/*.rattle"):
        name = os.path.basename(path)
        shutil.copy(path, f"{room}/src/{name.replace('.rattle', '.rt')}")
