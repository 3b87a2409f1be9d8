# What the cases of how a tool ends share, and those that wait for one.

try() { "$@"; echo "status $?" >&2; }

# Whether a process still runs. A case that waits for what a process does ends its wait with the process.
lives() { grep -q '^State:[[:space:]]*[^XZ]' "/proc/$1/status" 2> /dev/null; }

# Interrupts a tool that waits for more on standard input. It has begun when it has read more than a pipe holds, a line that
# ends in $LINE.
interrupted() {
    local tool writer
    mkfifo "$T/pipe"
    { printf '%200000s\n' "${LINE-}"; : > "$T/begun"; exec sleep 600; } > "$T/pipe" 2> /dev/null & writer=$!
    "$@" < "$T/pipe" & tool=$!
    # Until it waits for more.
    until [ -e "$T/begun" ] && grep -q '^State:.*S' /proc/$tool/status || ! lives $tool; do sleep 0.1; done
    kill -INT $tool; wait $tool; echo "status $?" >&2
    kill $writer; rm "$T/pipe" "$T/begun"
}

# Runs a tool on a line of a gigabyte, the file $T/line, with memory for less.
without_memory() {
    printf '%8192s' > "$T/line"; truncate -s 1G "$T/line"
    (ulimit -v 400000; try "$@")
    rm "$T/line"
}
