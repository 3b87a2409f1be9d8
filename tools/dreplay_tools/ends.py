"""How a tool ends: every end is an exit status and at most a line on standard error, and never a
traceback.
"""
import contextlib
import io
import os
import signal
import sys
import warnings

MAX_SAID, MAX_OF_A_NAME = 1000, 800  # bytes of a message, and of a file's name in it
FAILED = 2  # a file or standard stream fails, memory runs out, or the command line is wrong
INTERRUPTED = 128 + signal.SIGINT


class Signalled(BaseException):
    """The end of a tool by a signal: what is unfinished is removed first."""


class Failure(Exception):
    """The end of a tool, with the line that it writes and its exit status."""

    def __init__(self, why, status=FAILED):
        super().__init__(why)
        self.status = status


def say_count(count, one, several):
    """A number with the word for one, or for several, of what is counted."""
    return f"{count:,} {one if count == 1 else several}"


def reason(error):
    """An error of the system in words, with the file that it is about."""
    words = error.strerror or str(error) or type(error).__name__
    return f"{shorten(str(error.filename), MAX_OF_A_NAME)}: {words}" if error.filename else words


def standard_input():
    """Standard input in bytes. Python takes a read that would block for the end, so it is made to
    wait.
    """
    if sys.stdin is None:
        raise Failure("standard input is closed")
    with contextlib.suppress(io.UnsupportedOperation):  # it has no descriptor, as in a test
        os.set_blocking(sys.stdin.fileno(), True)
    if sys.stdin.isatty():
        tool = Tool(os.path.basename(sys.argv[0]))
        tool.say("it reads what is typed here, until Ctrl-D; --help says what it takes")
    return sys.stdin.buffer


def escape(letter):
    """A letter that no terminal takes for a command."""
    return letter if letter.isprintable() else letter.encode("unicode_escape").decode()


def shorten(text, most=60, shown=escape):
    """A text fit for a message: what is shown of it has `most` bytes at most, and no control
    characters.
    """
    kept, left = [], most
    for letter in map(shown, text):
        left -= len(letter.encode("utf-8"))
        if left < 0:
            return "".join(kept) + ".."
        kept.append(letter)
    return "".join(kept)


class Tool:
    """A tool's name, and what it writes to standard error."""

    def __init__(self, name):
        self.name, self.progress_shown = name, False

    def say(self, what):
        """Writes a line to standard error. If that is closed, nobody wants to read it."""
        try:
            self.erase_progress()
            print(shorten(f"{self.name}: {what}", MAX_SAID), file=sys.stderr, flush=True)
        except (OSError, ValueError, AttributeError):
            pass

    def progress(self, what):
        """Shows how far the work is, in one line that is written over, where standard error is a
        terminal.
        """
        if sys.stderr.isatty():
            self.progress_shown = True
            print(f"\r\x1b[K{self.name}: {what}", end="", file=sys.stderr, flush=True)

    def erase_progress(self):
        if self.progress_shown:
            self.progress_shown = False
            print("\r\x1b[K", end="", file=sys.stderr, flush=True)

    def run(self, main):
        """Runs main, which returns the exit status, and ends the process."""
        status = FAILED
        warnings.simplefilter("ignore")  # of Python, which may be asked to show them
        try:
            if sys.stderr is None:  # it is closed, and print would take standard output
                sys.stderr = open(os.devnull, "w")
            status = self.status_of(main)
            self.erase_progress()
            sys.stderr.flush()  # of argparse; before Python 3.9 lines waited there
        except KeyboardInterrupt:
            status = INTERRUPTED
        except Signalled as end:
            signal.signal(end.args[0], signal.SIG_DFL)
            os.kill(os.getpid(), end.args[0])
        except (OSError, ValueError, AttributeError):
            pass
        # Nothing of Python's own end may write: it would try the failed stream again.
        os._exit(status)

    def status_of(self, main):
        try:
            signal.signal(signal.SIGPIPE, signal.SIG_DFL)
            signal.signal(signal.SIGINT, signal.default_int_handler)
            for number in (signal.SIGTERM, signal.SIGHUP):
                if signal.getsignal(number) == signal.SIG_DFL:  # nohup has one ignored
                    signal.signal(number, end_by_signal)
            if sys.stdout is None:
                raise Failure("standard output is closed")
            sys.stdout.reconfigure(encoding="utf-8", errors="surrogateescape")
            status = main() or 0
            sys.stdout.flush()
            return status
        except SystemExit as end:  # argparse has said why
            return flush(end.code)
        except KeyboardInterrupt:
            self.say("interrupted")
            return INTERRUPTED
        except MemoryError:
            self.say("out of memory")
            return FAILED
        except Failure as end:
            self.say(end)
            return end.status
        except UnicodeError as why:
            self.say(f"{why}")
            return FAILED
        except OSError as why:
            self.say(reason(why))
            return FAILED
        except Exception as why:  # whatever nobody thought of
            self.say(f"a fault of this tool, please report it: {type(why).__name__}: {why}")
            return FAILED


def end_by_signal(number, _):
    raise Signalled(number)


def flush(status):
    """The status of an end by argparse, whose help may not have gone out."""
    try:
        sys.stdout.flush()
    except OSError:
        return FAILED
    return status if isinstance(status, int) else FAILED if status else 0
