/* How many bytes does each program read from which descriptor? */
syscall::read:entry
{
    self->descriptor = arg0;
}

syscall::read:return
/ arg0 > 0 /
{
    @[execname, self->descriptor] = sum(arg0);
}
