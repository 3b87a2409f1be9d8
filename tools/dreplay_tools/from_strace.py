"""From a recording of strace to a trace in a file."""
import collections
import os

from . import inputs, rows_program, strace
from .output import Output
from .strace import Shape
from .strangers import NOTHING_CONVERTED, refuse_strangers

SOME_SKIPPED = 1
LINES_TO_LOOK_AT = 1000  # the first lines, in which the shape of all is looked for


OPTIONS = {
    "name": "unknown",
    "only": None,
    "since": None,
    "rows": None,
    "threads": None,
    "out": None,
    "split": None,
    "from_zero": False,
    "paths": False,
    "ppid": False,
    "whole": False,  # a line that is cut off ends it
    "jobs": None,  # processes that read it; as many as there are processors for a large one
    "python": False,  # without the program dreplay-rows
}
# The options of dreplay-from-strace. The module dataclasses would take longer to load.
Options = collections.namedtuple("Options", OPTIONS, defaults=OPTIONS.values())


def shape_of(recording):
    """The shape of a recording's lines, by the first that has one."""
    start, shape = recording.tell(), None
    for _, line in zip(range(LINES_TO_LOOK_AT), recording):
        shape = Shape.of(line.decode("utf-8", "surrogateescape").rstrip("\r\n"))
        if shape:
            break
    shape = shape or Shape(strace.THREAD, strace.CLOCK)
    recording.seek(start)
    if shape.on_terminal:
        shape.on_terminal.look(line.decode("utf-8", "surrogateescape") for line in recording)
        recording.seek(start)
    return shape


def report(conversion, output, tool):
    """Says what a reader of the trace should know, and gives the exit status."""
    skipped = conversion.skipped
    if skipped > conversion.most_named:
        tool.say(f"{skipped} lines skipped in all")
    if not conversion.understood:
        alone = conversion.in_summary and not skipped
        why = (
            "it is a summary alone (strace -c)"
            if alone
            else "no line is one of strace -f -ttt -T -o FILE"
        )
        tool.say(f"nothing was converted: {why}")
        return NOTHING_CONVERTED
    if not conversion.rows.number and not conversion.wanted.all:
        tool.say("no row is left: --only or --since leave out all")
    if conversion.left_out:
        rows, left_out = conversion.rows.number, conversion.left_out
        tool.say(
            f"{rows:,} rows are written; {left_out:,} more lines of the recording are left out"
        )
    strangers = conversion.processes.strangers
    if strangers > 1:
        tool.say(
            f"{strangers} threads have no call that began them, so each counts as a process of its "
            "own: record with dreplay-record"
        )
    for warning in (*conversion.losses.warnings(), *output.warnings()):
        tool.say(warning)
    return SOME_SKIPPED if skipped else 0


def of_folder(path):
    """The recording that the files of a folder make."""
    from .folders import merge  # which is seldom needed

    return merge(path)


def convert(path, options, tool):
    """Converts the recording PATH, and returns the exit status."""
    recording = of_folder(path) if os.path.isdir(path) else inputs.open_input(path)
    refuse_strangers(recording, "strace")
    shape, output = shape_of(recording), Output(options.out, options.split)
    try:
        if rows_program.converts(recording, options, shape, output):
            output.keep()
            return 0
        return convert_here(recording, options, shape, output, tool)
    finally:
        output.abandon()


def convert_here(recording, options, shape, output, tool):
    """Converts a recording without dreplay-rows, and returns the exit status."""
    from .conversion import Conversion  # which takes longer to load than that to start

    conversion = Conversion(options, recording, shape, output, tool)
    conversion.run()
    if conversion.understood:
        output.keep()
    return report(conversion, output, tool)
