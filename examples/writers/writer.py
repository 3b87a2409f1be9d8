"""Writes a trace of this program, which dreplay reads: python3 writer.py run.csv"""
import os
import sys
import threading
import time

ARGS = 10
HEADER = "number,cpu,thread,pid,execname,time,provider,module,function,name,"
HEADER += ",".join(f"arg{place}" for place in range(ARGS))


class Trace:
    """A trace that is written: rows of all threads, in the order of their numbers."""

    def __init__(self, path, execname):
        self.file = open(path, "w", encoding="utf-8", newline="\n")  # no carriage returns
        self.lock, self.number = threading.Lock(), 0
        self.process = f"{os.getpid()},{quote(execname)}"
        self.file.write(HEADER + "\n")

    def fire(self, module, function, name, *args):
        """Writes a firing of app:module:function:name. Arguments are whole numbers of 64 bits."""
        thread, values = threading.get_native_id(), ",".join(map(str, args))
        empty = "," * (ARGS - max(len(args), 1))
        with self.lock:  # numbers rise in the file, and times with them
            self.number += 1
            where = f"{self.number},0,{thread},{self.process},{time.time_ns()}"
            self.file.write(f"{where},app,{module},{function},{name},{values}{empty}\n")


def quote(text):
    return '"' + text.replace('"', '""') + '"' if any(mark in text for mark in ',"\n\r') else text


def work(trace, calls):
    for call in range(calls):
        trace.fire("orders", "submit", "entry", call % 512)
        trace.fire("orders", "submit", "return", 0 if call % 100 else -1)


def main():
    calls = int(sys.argv[2]) if len(sys.argv) > 2 else 1000
    trace = Trace(sys.argv[1], "shop")
    threads = [threading.Thread(target=work, args=(trace, calls)) for _ in range(4)]
    for thread in threads:
        thread.start()
    for thread in threads:
        thread.join()
    trace.file.close()


if __name__ == "__main__":
    main()
