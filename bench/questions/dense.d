/* Every system call counts: how many, how long, how large, by call, by program and by descriptor. */
syscall:::entry {
    self->start[probefunc] = timestamp;
    self->uses[arg0] += 1;
    @calls[execname, probefunc] = count();
    @uses[arg0] = max(self->uses[arg0]);
}
syscall:::entry / arg2 > 4096 / {
    self->bytes[probefunc] += arg2;
    @bytes[execname] = sum(arg2);
    @largest[execname, arg0] = max(self->bytes[probefunc]);
}
syscall:::return / self->start[probefunc] / {
    this->took = timestamp - self->start[probefunc];
    @mean[probefunc] = avg(this->took);
    @spread[execname] = quantize(this->took);
    @steps[probefunc] = lquantize(this->took, 0, 1000000, 50000);
    self->start[probefunc] = 0;
}
