/* How long, in nanoseconds, do openat and newfstatat take? */
syscall::openat:entry, syscall::newfstatat:entry
{
    self->since = timestamp;
}

syscall::openat:return, syscall::newfstatat:return
/ self->since /
{
    @[probefunc] = quantize(timestamp - self->since);
    self->since = 0;
}
