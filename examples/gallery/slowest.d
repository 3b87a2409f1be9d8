/* What is the longest that a program was in one call, in microseconds? */
syscall:::entry
{
    self->since = timestamp;
}

syscall:::return
/ self->since && timestamp - self->since > 1000000 /
{
    @[execname, probefunc] = max((timestamp - self->since) / 1000);
}
