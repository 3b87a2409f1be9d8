"""Probe descriptions of bpftrace, and of providers of DTrace, with what a trace has in their place.
"""
import re

CALL = re.compile(r"sys_(enter|exit)(?:_([\w*?]+))?")
ENDS = {"enter": "entry", "exit": "return"}
KERNEL = {
    **dict.fromkeys(("kprobe", "kfunc", "fentry"), "entry"),
    **dict.fromkeys(("kretprobe", "kretfunc", "fexit"), "return"),
}
OF_PROGRAMS = {"uprobe": "entry", "uretprobe": "return"}
OF_DTRACE = {
    "io:start": "block::block_rq_issue:tracepoint",
    "io:done": "block::block_rq_complete:tracepoint",
    "proc:exec": "syscall::execve:entry",
    "proc:exec-success": "syscall::execve:return / arg0 == 0 /",
    "proc:exec-failure": "syscall::execve:return / arg0 == -1 /",
    "proc:create": "syscall::clone*:return / arg0 > 0 /",
    "proc:exit": "syscall::exit_group:entry",
    "proc:signal-send": "syscall::kill:entry",
    "sched:wakeup": "sched::sched_wakeup*:tracepoint",
    "sched:sleep": "sched:::off-cpu",
}
MAX_LETTERS = 100  # of a description that is translated
OF_A_PROCESS = re.compile(r"pid(?:\d+|\$\w+)((?::[^:]*){3})")


def translate(text):
    """The description that a trace has for one of another tool; none if that isn't known."""
    if len(text) > MAX_LETTERS:
        return None
    kind, _, rest = text.partition(":")
    fields = rest.split(":")
    if kind in ("tracepoint", "t") and len(fields) == 2:
        return of_tracepoint(*fields)
    if kind in KERNEL and fields[-1]:
        return f"fbt::{fields[-1]}:{KERNEL[kind]}"
    if kind in OF_PROGRAMS and len(fields) == 2:
        program = fields[0].rsplit("/", 1)[-1].split(".")[0]
        return f"pid:{program}:{fields[1]}:{OF_PROGRAMS[kind]}"
    if found := OF_A_PROCESS.fullmatch(text):
        return f"pid{found[1]}"
    return OF_DTRACE.get(f"{kind}:{fields[-1]}") if set(fields[:-1]) <= {""} else None


def of_tracepoint(group, event):
    """The description of a tracepoint of the kernel; those of system calls are `syscall`."""
    call = CALL.fullmatch(event)
    if call and group in ("syscalls", "raw_syscalls"):
        function = "" if call[2] in (None, "*") else call[2]
        return f"syscall::{function}:{ENDS[call[1]]}"
    return f"{group}::{event}:tracepoint"


def advice(text):
    """What to write for a description of another tool; none if it is none."""
    found = translate(text)
    return f"`{text}` is written `{found}`" if found else None
