/* In which calls is the time spent, in microseconds? Waiting is left out. */
syscall:::entry
/ probefunc != "wait4" && probefunc != "clock_nanosleep" && probefunc != "futex" /
{
    self->since = timestamp;
}

syscall:::return
/ self->since /
{
    @calls[probefunc] = count();
    @each[probefunc] = avg((timestamp - self->since) / 1000);
    @all[probefunc] = sum((timestamp - self->since) / 1000);
    self->since = 0;
}
