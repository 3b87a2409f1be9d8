"""Where the programs are."""
import os
import shutil
import sys


def program(name="dreplay"):
    """The program of a name: the one beside this tool, else that of PATH; none if there is none.
    """
    beside = os.path.join(os.path.dirname(os.path.realpath(sys.argv[0])), name)
    return beside if os.access(beside, os.X_OK) else shutil.which(name)
