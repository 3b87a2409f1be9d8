/* How long calls take. */
syscall:::entry { self->t = timestamp; }
syscall:::return / self->t /
{
    @n[execname, probefunc] = count();
    @longest[probefunc] = max(timestamp - self->t);
    @spread[probefunc] = quantize(timestamp - self->t);
    @lin = lquantize(arg0, 0, 4096, 512);
    self->t = 0;
}
