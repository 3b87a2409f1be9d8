"""For perf's own Python interpreter: prints each event of a recording as a line of JSON, with its
fields as numbers.

    perf script -i run.data -s perf.py | dreplay-from-perf > run.csv

dreplay-from-perf run.data does the same by itself.
"""
import json
import struct
import sys

ARGUMENTS = slice(16, 64)  # of the bytes of raw_syscalls:sys_enter
NUMBERS = range(2**31)  # of threads; perf tells the -1 of one that has ended as 2^32 - 1
events = 0


def show(record):
    global events
    events += 1
    sys.stdout.write(json.dumps(record) + "\n")


def plain(value):
    """A field's value as a number or a text; other values have no place in a trace."""
    return value if isinstance(value, (int, str)) else None


def trace_unhandled(event_name, context, fields, sample):
    name, where = sample["ev_name"], sample["sample"]
    record = {
        "event": name,
        "comm": sample["comm"],
        "pid": where["pid"],
        "tid": where["tid"],
        "cpu": fields["common_cpu"],
        "time": where["time"],
        "fields": {
            key: plain(value) for key, value in fields.items() if not key.startswith("common_")
        },
    }
    if where["tid"] not in NUMBERS:  # the thread has ended
        record.update(tid=fields["common_pid"], comm=fields.get("prev_comm", fields["common_comm"]))
    raw = sample["raw_buf"]
    if name == "raw_syscalls:sys_enter" and len(raw) >= ARGUMENTS.stop:
        record["args"] = struct.unpack("=6q", raw[ARGUMENTS])
    show(record)


def process_event(sample):
    show({"counter": sample["ev_name"]})


def trace_end():
    sys.stdout.write(json.dumps({"end": events}) + "\n")
    sys.stdout.flush()
