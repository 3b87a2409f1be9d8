"""A tool's command line: a mistake in it is one line."""
import argparse
import re
import sys

from .ends import FAILED, shorten
from .version import VERSION

MAX_SAID = 300


class CommandLine(argparse.ArgumentParser):
    """A parser of a command line, with --version and a help that is the tool's doc."""

    def __init__(self, name, doc, epilog):
        super().__init__(
            prog=name,
            description=doc,
            epilog=epilog,
            formatter_class=argparse.RawDescriptionHelpFormatter,
        )
        self.add_argument(
            "--version", action="version", version=f"{name} {VERSION}", help="write the version"
        )

    def add_option(self, usage, explanation, **how):
        """Adds an option by how the help shows it, such as `-j, --jobs N`. One that takes nothing
        is a flag.
        """
        *others, last = usage.split(", ")
        name, _, metavar = last.partition(" ")
        if metavar:
            how["metavar"] = metavar
        elif "choices" not in how:
            how["action"] = "store_true"
        self.add_argument(*others, name, help=explanation, **how)

    def _print_message(self, message, file=None):
        # argparse takes no notice of a help that can't be written.
        if message and file is sys.stdout and file is not None:
            file.write(message)
            file.flush()
        else:
            super()._print_message(message, file)

    def error(self, message):
        # Releases of Python differ in whether they quote the choices of an option.
        plain = re.sub(r"\(choose from .*\)", lambda found: found[0].replace("'", ""), message)
        said = shorten(plain, MAX_SAID)
        self.exit(FAILED, f"{self.prog}: {said} ({self.prog} --help)\n")


def after_title(doc):
    """A doc without its first paragraph; nothing if Python drops docs (-OO)."""
    return (doc or "").partition("\n\n")[2]


def number(shown):
    """A number from 1 to 999999999."""
    if not shown.isascii() or not shown.isdigit() or not 0 < len(shown.lstrip("0")) < 10:
        raise argparse.ArgumentTypeError(
            f"{shorten(shown, 20)!r} isn't a number from 1 to 999999999"
        )
    return int(shown)
