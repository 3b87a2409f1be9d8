"""Forms of recordings of strace, each of any size, for dreplay-rows."""
from dataclasses import dataclass
from typing import Callable


@dataclass
class Form:
    """The size that tests/growth begins with, and a recording of a size."""

    small: int
    recording: Callable[[int], str]


def each(count, line):
    """So many lines, with their numbers from 1 on."""
    return "".join(f"{line.format(place)}\n" for place in range(1, count + 1))


BORN = "1 1.0 clone(child_stack=NULL, flags=CLONE_THREAD) = {0} <0.1>"
BEGUN, RESUMED = "{0} 2.0 read(0x3, <unfinished ...>", "{0} 3.0 <... read resumed> 0x1) = 0x5 <0.1>"
FORMS = {
    "calls": Form(5_000, lambda size: each(size, "1 {0}.0 read(0x3, 0x7ffd, 0x{0}) = 0x5 <0.1>")),
    "errors": Form(5_000, lambda size: each(size, "1 {0}.0 read(0x3) = -1 EIO (Failed) <0.1>")),
    "threads": Form(2_500, lambda size: each(size, BORN) + each(size, "{0} 2.0 sync() = 0 <0.1>")),
    "calls in one another": Form(
        2_500, lambda size: each(size, BORN) + each(size, BEGUN) + each(size, RESUMED)
    ),
    "calls that begin alone": Form(5_000, lambda size: each(size, BORN) + each(size, BEGUN)),
    "programs": Form(
        5_000, lambda size: each(size, '1 {0}.0 execve("/bin/{0}", [...]) = 0 <0.1>')
    ),
    "long path": Form(500_000, lambda size: f'1 1.0 execve("{"/" * size}a", []) = 0 <0.1>\n'),
    "long arguments": Form(500_000, lambda size: f"1 1.0 execve({'a, ' * size}1) = -1 <0.1>\n"),
    "spaces": Form(500_000, lambda size: f"1 {' ' * size}1.0 sync({' ' * size}) = 0 <0.1>\n"),
    "line that isn't known": Form(500_000, lambda size: "x" * size),
    "empty lines": Form(500_000, lambda size: "1 1.0 sync() = 0 <0.1>" + "\n" * size),
}
