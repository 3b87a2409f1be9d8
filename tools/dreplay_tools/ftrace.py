"""Lines of the kernel's tracer: of its file trace, and of 'trace-cmd report'."""
import os
import re
import shutil
import subprocess
import tempfile

from .ends import Failure, shorten
from .fields import BadEvent
from .tracepoints import Event, Lost, Probe, give_back, probe_of
from .trace import to_signed

NOTHING_CONVERTED = 3
TRACE_DAT = b"\x17\x08\x44tracing", b"tracing"
WORDS_OF_A_NAME = 64
WORD = re.compile(r"\S+")
CPU = re.compile(r"\[(\d{1,10})\]", re.ASCII)
TIME = re.compile(r"(\d{1,11})\.(\d{1,9}):", re.ASCII)
FLAGS = re.compile(r"[^\s\d]\S{3,6}")
EVENT = re.compile(r"([\w.-]{1,250}):(?= |$)", re.ASCII)
ENTERED = re.compile(r"sys_(\w{1,80})\(", re.ASCII)
RETURNED = re.compile(r"sys_(\w{1,80}) -> (0x[0-9a-f]{1,16})$", re.ASCII)
NAME = r"[A-Za-z_.][\w.]{0,250}"
CALLED = re.compile(
    rf"({NAME})(?:\+0x[0-9a-fx/]{{1,40}})? <--? ?({NAME})(?:\+0x[0-9a-fx/]{{1,40}})?$", re.ASCII
)
# Of the tracer function_graph, with its options funcgraph-abstime and funcgraph-proc.
GRAPH = re.compile(
    r"\s*(\d{1,11})\.(\d{1,9}) \|\s+(\d{1,10})\)\s+(\S.{0,80}?)-(\d{1,10})\s+\|", re.ASCII
)
GRAPH_WITHOUT = re.compile(r"\s*(?:\d{1,11}\.\d{1,9} \|\s+)?\d{1,10}\) ", re.ASCII)
SWITCHED = re.compile(r"\s*(?:\d{1,11}\.\d{1,9} \|\s+)?\d{1,10}\)\s+\S.{0,80}? =>\s", re.ASCII)
TOOK = re.compile(r"(?:[$@*#!+]\s*)?(\d{1,12})\.(\d{1,6}) us", re.ASCII)
LEAF = re.compile(rf"({NAME})(?: \[\w{{1,60}}\])?\(\);?(?: /\*.*\*/)?$", re.ASCII)
OPENS = re.compile(rf"({NAME})(?: \[\w{{1,60}}\])?\(\) \{{(?: /\*.*\*/)?$", re.ASCII)
CLOSES = re.compile(rf"\}}(?: /\* ({NAME})(?: .*)?\*/)?$", re.ASCII)
# What a reader of the kernel's buffer has missed, as the kernel and as trace-cmd say it; and how
# many events are left in it, of how many.
LOST = re.compile(
    r"CPU:\d{1,5} \[(?:LOST (?:(\d{1,18}) )?EVENTS|(?:(\d{1,18}) )?EVENTS DROPPED)\]", re.ASCII
)
WRITTEN = re.compile(r"# entries-in-buffer/entries-written: (\d{1,18})/(\d{1,18})", re.ASCII)
# The groups of tracepoints, by what their names begin with; a longer beginning comes first.
GROUPS = {
    "sched_": "sched",
    "block_": "block",
    "irq_handler_": "irq",
    "softirq_": "irq",
    "tasklet_": "irq",
    "netif_": "net",
    "net_dev_": "net",
    "napi_gro_": "net",
    "napi_": "napi",
    "kfree_skb": "skb",
    "consume_skb": "skb",
    "skb_": "skb",
    "kmalloc": "kmem",
    "kfree": "kmem",
    "kmem_": "kmem",
    "rss_stat": "kmem",
    "mm_page_": "kmem",
    "mm_vmscan_": "vmscan",
    "mm_shrink_slab_": "vmscan",
    "mm_compaction_": "compaction",
    "mm_filemap_": "filemap",
    "mm_migrate_": "migrate",
    "page_fault_": "exceptions",
    "writeback_": "writeback",
    "balance_dirty_pages": "writeback",
    "ext4_": "ext4",
    "jbd2_": "jbd2",
    "xfs_": "xfs",
    "btrfs_": "btrfs",
    "nvme_": "nvme",
    "scsi_": "scsi",
    "tcp_": "tcp",
    "sock_": "sock",
    "timer_": "timer",
    "hrtimer_": "timer",
    "itimer_": "timer",
    "tick_": "timer",
    "signal_": "signal",
    "task_": "task",
    "workqueue_": "workqueue",
    "rcu_": "rcu",
    "kvm_mmu_": "kvmmmu",
    "kvm_tdp_mmu_": "kvmmmu",
    "kvm_": "kvm",
    "io_uring_": "io_uring",
    "iomap_": "iomap",
    "cgroup_": "cgroup",
    "percpu_": "percpu",
    "neigh_": "neigh",
    "qdisc_": "qdisc",
    "xdp_": "xdp",
    "cpuhp_": "cpuhp",
    "rpm_": "rpm",
    "page_pool_": "page_pool",
    "local_timer_": "irq_vectors",
    "call_function_": "irq_vectors",
    "reschedule_": "irq_vectors",
    "irq_work_": "irq_vectors",
    "cpu_idle": "power",
    "cpu_frequency": "power",
}
ASIDE = re.compile(
    r"\s*$|#|cpus=|CPU:?\s*\d|\s*=> |\s*=>$|version = |\s*-{3}[- ]*$|CPU \d{1,5} is empty"
)


def as_text(file):
    """A recording as text: what 'trace-cmd report' prints of a trace.dat, all else as it is."""
    begins = file.peek(16)[:16] if hasattr(file, "peek") else b""
    if not begins.startswith(TRACE_DAT):
        return file
    if not shutil.which("trace-cmd"):
        raise Failure("trace-cmd is not installed; where it is, try 'trace-cmd report -i FILE'")
    number = os.dup(file.fileno())
    os.lseek(number, 0, os.SEEK_SET)
    out, said = tempfile.TemporaryFile(), tempfile.TemporaryFile()
    words = ["trace-cmd", "report", "-i", f"/proc/self/fd/{number}"]
    how = {"stdin": subprocess.DEVNULL, "stdout": out, "stderr": said, "pass_fds": [number]}
    status = subprocess.call(words, **how)
    os.close(number)
    if status:
        said.seek(0)
        why = (said.read(4096).decode("utf-8", "replace").splitlines() or ["no reason"])[-1]
        raise Failure(
            f"nothing was converted: trace-cmd report can't read it: {shorten(why, 300)}",
            NOTHING_CONVERTED,
        )
    out.seek(0)
    return out


class Lines:
    """Lines in their order: those of function_graph close what others have opened."""

    def __init__(self, names):
        self.names, self.open = names, {}

    def events(self, line):
        """The events of a line: none for one that is none and may be there, and two for a function
        without others.
        """
        found = beginning(line)
        if found:
            return self.of_line(*found)
        graph = GRAPH.match(line)
        if graph:
            seconds, fraction, cpu, name, thread = graph.groups()
            time = nanoseconds(seconds, fraction)
            return self.of_graph((name, int(thread), None, int(cpu)), time, line[graph.end() :])
        if lost := LOST.fullmatch(line):
            number = lost[1] or lost[2]
            return [Lost(int(number) if number else None)]
        if written := WRITTEN.match(line):
            return [Lost(max(0, int(written[2]) - int(written[1])))]
        if ASIDE.match(line) or SWITCHED.match(line):
            return []
        if GRAPH_WITHOUT.match(line):
            raise BadEvent(
                "function_graph shows no time or no thread: "
                "set its options funcgraph-abstime and funcgraph-proc"
            )
        raise BadEvent("it isn't an event of a tracepoint or a probe")

    def of_line(self, where, time, shown):
        """The events of a line that has where and when it was in front."""
        event = EVENT.match(shown)
        rest = shown[event.end() :] if event else ""
        if event and event[1] in ("funcgraph_entry", "funcgraph_exit"):
            return self.of_graph(where, time, rest)
        if event and event[1] == "function":
            return [Event(*where, time, function_of(rest.strip()))]
        return [Event(*where, time, probe_of_text(shown, event, rest, self.names))]

    def of_graph(self, where, time, shown):
        """The events of a line of function_graph, of which the function begins after a bar."""
        before, _, function = shown.rpartition("|")
        function, took = function.strip(), TOOK.fullmatch(before.strip())
        if leaf := LEAF.match(function):
            duration = nanoseconds_of(took)
            return [self.entry(where, time, leaf[1]), self.exit(where, time + duration, leaf[1])]
        if opens := OPENS.match(function):
            self.open.setdefault(where[1], []).append(opens[1])
            return [self.entry(where, time, opens[1])]
        if closes := CLOSES.match(function):
            opened = self.open.get(where[1])
            name = opened.pop() if opened else None
            name = closes[1] or name
            return [self.exit(where, time, name)] if name else []
        if function.startswith("/*"):
            return []  # an event among the functions is a comment there
        raise BadEvent("it isn't a function")

    @staticmethod
    def entry(where, time, function):
        return Event(*where, time, Probe("fbt", function, "entry"))

    @staticmethod
    def exit(where, time, function):
        return Event(*where, time, Probe("fbt", function, "return"))


def nanoseconds(seconds, fraction):
    return int(seconds) * 10**9 + int(fraction.ljust(9, "0"))


def nanoseconds_of(took):
    """A duration in microseconds as nanoseconds."""
    return int(took[1]) * 1000 + int(took[2].ljust(3, "0")[:3]) if took else 0


def function_of(shown):
    """What the tracer 'function' shows: a function, and its caller."""
    found = CALLED.match(shown)
    if not found:
        raise BadEvent("it isn't a function with its caller")
    return Probe("fbt", found[1], "entry")


def probe_of_text(shown, event, rest, names):
    """The probe of an event's text."""
    if found := RETURNED.match(shown):
        return Probe("syscall", found[1], "return", give_back(to_signed(int(found[2], 16))))
    if (found := ENTERED.match(shown)) and shown.endswith(")"):
        return probe_of("", f"sys_enter_{found[1]}", shown[found.end() : -1], names)
    if event:
        system = "raw_syscalls" if event[1] in ("sys_enter", "sys_exit") else group_of(event[1])
        return probe_of(system, event[1], rest.strip(), names)
    if CALLED.match(shown):
        return function_of(shown)
    raise BadEvent("it isn't an event of a tracepoint or a probe")


def group_of(event):
    """The group of a tracepoint of the kernel, which ftrace doesn't write; empty for one that isn't
    known by the beginning of its name.
    """
    return next((group for begins, group in GROUPS.items() if event.startswith(begins)), "")


def beginning(line):
    """Where a line's event was, when, and the rest of the line; none if it doesn't begin so.

    The line begins with a command and its thread, perhaps its process, the processor, perhaps
    flags, and the time.
    """
    words = []
    for word in WORD.finditer(line):
        words.append(word)
        if len(words) > WORDS_OF_A_NAME + 5:
            break
    for index in range(1, len(words) - 1):
        cpu = CPU.fullmatch(words[index][0])
        if not cpu:
            continue
        after = index + 1
        after += (
            TIME.fullmatch(words[after][0]) is None and FLAGS.fullmatch(words[after][0]) is not None
        )
        time = TIME.fullmatch(words[after][0]) if after < len(words) else None
        who = thread_of(line[words[0].start() : words[index - 1].end()]) if time else None
        if who:
            name, thread, process = who
            rest = line[words[after].end() :].strip()
            return (name, thread, process, int(cpu[1])), nanoseconds(*time.groups()), rest
    return None


def thread_of(shown):
    """The name, the thread and the process in front of a processor: 'bash-32', or 'bash-32 ( 31)'.
    """
    process = None
    if shown.endswith(")"):
        shown, _, inside = shown[:-1].rpartition("(")
        inside, shown = inside.strip(), shown.rstrip()
        if inside.isdigit() and inside.isascii() and len(inside) <= 10:
            process = int(inside)
        elif inside.strip("-"):
            return None
    name, _, thread = shown.rpartition("-")
    if not name or not (thread.isdigit() and thread.isascii() and len(thread) <= 10):
        return None
    return name, int(thread), process
