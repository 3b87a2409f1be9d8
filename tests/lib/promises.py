"""What tests each promise of docs/RELIABILITY.md: programs of tests/, cases, files of cases, and
tests of the crates. tests/documents compares the promises, and looks for the tests."""
TESTS = {
    "a script or a trace is refused": "lexer.txt syntax.txt type_faults.txt trace.txt tests/fuzz",
    "memory is refused, at any allocation": "tests/refuse_allocations",
    "a limit of memory (`ulimit -v`) is too low": "tests/fuzz",
    "memory is refused to one call inside": "tests/single_calls",
    "the stack is small (`ulimit -s`)": "deepest_script_on_a_stack_of_four_mebibytes",
    "the system starts no further thread": "threads_without_room_for_their_stacks",
    "a read fails, or is interrupted": "tests/refuse_calls",
    "a write fails, is interrupted, or takes nothing": "tests/refuse_calls write_failed",
    "the flush after the answer fails": "a_beginning_is_written_before_a_failed_write",
    "a write takes less than it was given": "tests/refuse_calls",
    "the reader of a pipe, or a terminal that it writes to, goes away": (
        "reader_of_the_output_goes_away tests/refuse_calls"
    ),
    "its output reaches the limit of a file's size (`ulimit -f`)": (
        "output_beyond_a_limit_of_files output_beyond_a_limit_of_files_by_signal"
    ),
    "a pipe that it reads from goes away": "input_ends_early",
    "a terminal that it reads from goes away": "tests/refuse_calls",
    "it is stopped and continued": "tests/fuzz",
    "a descriptor is non-blocking, and a call would block": (
        "input_that_would_block output_that_would_block"
    ),
    "a descriptor is closed": (
        "input_closed script_apart_and_input_closed output_closed all_descriptors_closed"
    ),
    "the system gives no random bytes": "tests/refuse_calls",
    "standard error can't be written": "errors_closed errors_to_a_full_device tests/refuse_calls",
    "the script divides by zero": "faults.txt",
    "the trace ends in the middle": "trace_cut_after_each_byte",
}
