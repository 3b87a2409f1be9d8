/* How often does a program fail to open a file before it succeeds? */
syscall::openat:return
/ arg0 == -1 /
{
    self->failed++;
}

syscall::openat:return
/ arg0 >= 0 && self->failed /
{
    @[execname, self->failed] = count();
    self->failed = 0;
}
