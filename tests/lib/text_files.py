"""What .editorconfig says of the texts of the repository, and what `black` says of its Python."""
import os
import re
import shutil
import subprocess

from lib import harness

# What programs were given and answered, byte for byte.
DATA = re.compile(r"(?:examples|tests/(?:cases|conversions|tool_cases|wrong))/")
CODE = re.compile(r".*\.(?:py|c)")
WIDEST = 100
LAID_OUT_BY = 24  # the year of the first black whose layout this is


def paths():
    """The texts under version control."""
    words = ["git", "ls-files", "--cached", "--others", "--exclude-standard"]
    listed = subprocess.run(words, cwd=harness.TOP, capture_output=True, text=True).stdout
    return [path for path in listed.splitlines() if not DATA.match(path) and is_text(path)]


def is_text(path):
    return os.path.isfile(f"{harness.TOP}/{path}") and not path.endswith((".png", ".edit"))


def is_python(path, text):
    return path.endswith(".py") or text.startswith("#!/usr/bin/env python3")


def wrong_in(path, text):
    """What is wrong with a text, by .editorconfig: the first line of it, or nothing."""
    is_code = CODE.fullmatch(path) or is_python(path, text)
    for number, line in enumerate(text.split("\n"), 1):
        if line != line.rstrip() and not path.endswith(".md"):
            return f"line {number} ends in blanks"
        if is_code and len(line) > WIDEST:
            return f"line {number} has {len(line)} columns"
        if line.startswith("\t") and os.path.basename(path) != "Makefile":
            return f"line {number} begins with a tab"
    return "" if text.endswith("\n") else "its last line doesn't end"


def check():
    """Gives each text's path, and what is wrong with it."""
    for path in paths():
        with open(f"{harness.TOP}/{path}", encoding="utf-8", newline="") as file:
            yield path, wrong_in(path, file.read())


def checked_by_black():
    """What black would change, and whether one that lays out so is here."""
    if black_year() < LAID_OUT_BY:
        return "", False
    with_python = [it for it in paths() if is_python(it, first_line(it))]
    ran = subprocess.run(["black", "--check", "-q", *with_python], cwd=harness.TOP)
    return "black would change files" if ran.returncode else "", True


def black_year():
    """The year of the installed black's release, without its century; 0 if none is installed."""
    if not shutil.which("black"):
        return 0
    said = subprocess.run(["black", "--version"], capture_output=True, text=True).stdout
    return int(re.search(r" (\d+)[.]", said)[1])


def first_line(path):
    with open(f"{harness.TOP}/{path}", encoding="utf-8") as file:
        return file.readline()
