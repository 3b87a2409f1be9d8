/* System calls by program and call, how long they took, and each one that took over a millisecond. */
syscall:::entry {
    self->start[probefunc] = timestamp;
    self->bytes[execname, probefunc] += arg2;
}
syscall:::return / self->start[probefunc] / {
    this->took = timestamp - self->start[probefunc];
    @calls[execname, probefunc] = count();
    @total[probefunc] = sum(this->took);
    @most[execname, probefunc, "bytes"] = max(self->bytes[execname, probefunc]);
    @spread[execname] = lquantize(this->took, 0, 1000000, 50000);
    self->start[probefunc] = 0;
}
syscall:::return / this->took > 1000000 / {
    printf("%s %s took %d\n", execname, probefunc, this->took);
}
