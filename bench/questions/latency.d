/* How long each function took, from a thread's latest entry to its next return. */
:::entry { self->t = timestamp; }
:::return / self->t / {
    @total[probefunc] = sum(timestamp - self->t);
    @spread[probefunc] = quantize(timestamp - self->t);
    self->t = 0;
}
