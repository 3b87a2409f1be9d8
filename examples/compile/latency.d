syscall:::entry
{
    self->t = timestamp;
}

syscall::openat:return, syscall::write:return / self->t /
{
    @took[probefunc] = quantize((timestamp - self->t) / 1000);
    self->t = 0;
}
