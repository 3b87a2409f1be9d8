"""Which process a thread belongs to, and which program it runs."""
from .ends import Failure, shorten
from .strace import BIRTHS
from .trace import MAX_NUMBER, field, text

MAX_OF_A_LINE = 1 << 16  # bytes


class Processes:
    """The process of each thread and the program of each process. What a call changes shows from
    its return on.
    """

    def __init__(self, unnamed):
        self.process_of, self.names, self.unnamed = {}, {}, unnamed
        self.heads, self.known, self.strangers, self.parents = {}, set(), 0, {}

    def read(self, path):
        """Takes threads that ran before the recording: lines of thread, process and name."""
        with open(path, "rb") as file:
            for number, line in enumerate(iter(lambda: file.readline(MAX_OF_A_LINE), b""), 1):
                words = line.rstrip(b"\n").split(b" ", 2)
                if len(words) < 3 or not is_number(words[0]) or not is_number(words[1]):
                    raise Failure(f"{shorten(path)}: line {number} has no thread, process and name")
                thread, process = words[0].decode(), words[1].decode()
                self.process_of[thread] = process
                self.names[process] = text(words[2])
                self.known.add(thread)

    def head(self, thread):
        """The columns from cpu to execname of a thread's rows."""
        head = self.heads.get(thread)
        if head is None:
            if thread not in self.known:
                self.known.add(thread)
                self.strangers += 1
            process = self.process_of.get(thread, thread)
            name = field(self.names.get(process, self.unnamed))
            head = self.heads[thread] = f",0,{thread},{process},{name},"
        return head

    def enter(self, thread, call):
        """Takes what a call's entry shows: a first program, a new process or thread."""
        process = self.process_of.get(thread, thread)
        begun = call.program()
        if begun and process not in self.names:
            self.rename(process, begun)
        if call.name in BIRTHS and 0 < (call.born or 0) <= MAX_NUMBER:
            self.birth(call, str(call.born), process)

    def leave(self, thread, call):
        begun = call.program()
        if begun:
            self.rename(self.process_of.get(thread, thread), begun)

    def rename(self, process, name):
        self.names[process] = name
        self.heads.clear()

    def birth(self, call, born, process):
        """A new thread is of the same process; a new process runs the same program at first."""
        self.known.add(born)
        if call.makes("CLONE_THREAD", 0x10000):
            self.process_of[born] = process
        else:
            self.process_of.pop(born, None)
            self.names[born] = self.names.get(process, self.unnamed)
            sibling = call.makes("CLONE_PARENT", 0x8000)
            self.parents[born] = self.parents.get(process, "0") if sibling else process
        self.heads.pop(born, None)

    def parent(self, thread):
        """The process that made a thread's process; 0 if the recording doesn't tell."""
        return self.parents.get(self.process_of.get(thread, thread), "0")


def is_number(shown):
    """Whether a word is the number of a thread or a process."""
    return shown.isdigit() and len(shown) <= 10 and 0 < int(shown) <= MAX_NUMBER
