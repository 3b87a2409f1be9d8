/* How many microseconds are between what a program has read and its next write? */
syscall::read:return
/ arg0 > 0 /
{
    self->read = timestamp;
}

syscall::write:entry
/ self->read /
{
    @[execname] = quantize((timestamp - self->read) / 1000);
    self->read = 0;
}
