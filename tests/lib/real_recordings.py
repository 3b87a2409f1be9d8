"""Recordings of strace that are made here: of programs with threads, of short processes, of signals
and of calls that other lines break off.
"""
import os
import random
import shutil
import subprocess
import tempfile

from lib import harness

RECORDER = f"{harness.TOP}/tools/dreplay-record"
SECONDS = 600
THREADS = """
import threading, time
def work(n):
    for _ in range(n): time.sleep(0.0005); open('/dev/null').close()
threads = [threading.Thread(target=work, args=(n,)) for n in range({0})]
for it in threads: it.start()
for it in threads: it.join()
"""
SIGNALS = """
import os, signal, time
signal.signal(signal.SIGALRM, lambda *_: None)
signal.setitimer(signal.ITIMER_REAL, 0.003, 0.003)
for _ in range({0}): time.sleep(0.002)
child = os.fork()
if not child: time.sleep(5)
os.kill(child, {1}); os.wait()
"""
# Words of sh, in which two small numbers are drawn.
COMMANDS = [
    "for n in $(seq {0}); do /bin/true $n; done",
    "seq {0}000 | sort -r | head -n 3 | wc -l",
    "for n in $(seq {0}); do (sleep 0.0{1}; echo $n) & done; wait",
    "sleep 0.05 & kill -TERM $!; wait $!; exit {0}",
    "cat /no/such/file; ls /usr/lib > /dev/null; /no/such/program; false",
    "timeout 0.0{1} sleep 1; kill -KILL $$",
    "(exec sh -c 'exec /bin/echo {0}'); cd /; find /etc -maxdepth 1 | xargs -n {0} echo >&2",
    "mkfifo $T/pipe; (cat $T/pipe > /dev/null &); echo {0} > $T/pipe; wait",
]


def is_there():
    """Whether strace is there and may record."""
    if not shutil.which("strace"):
        return False
    return subprocess.run(["strace", "-o", os.devnull, "true"], capture_output=True).returncode == 0


def words(draw):
    """The words of a command."""
    small, digit = draw.randrange(2, 12), draw.randrange(1, 5)
    kind = draw.randrange(len(COMMANDS) + 2)
    if kind < len(COMMANDS):
        return ["sh", "-c", COMMANDS[kind].format(small, digit)]
    script = (THREADS, SIGNALS)[kind - len(COMMANDS)].format(small, draw.choice((9, 10, 15)))
    return ["python3", "-S", "-c", script]


def recordings(seed, count):
    """So many recordings, of commands that a seed fixes."""
    draw = random.Random(f"{seed} commands")
    for _ in range(count):
        with tempfile.TemporaryDirectory(prefix="dreplay-") as folder:
            kept = f"{folder}/recording"
            command = [RECORDER, "--keep", kept, "-o", f"{folder}/trace.csv", "--", *words(draw)]
            how = {"env": os.environ | {"T": folder}, "stdin": subprocess.DEVNULL}
            subprocess.run(command, capture_output=True, timeout=SECONDS, **how)
            with open(kept, "rb") as file:
                yield file.read()
