/* Which programs open files and close them without reading? */
syscall::openat:return
/ arg0 >= 0 /
{
    self->state[arg0] = 1;
    @opened[execname] = count();
}

syscall::read:entry
/ self->state[arg0] /
{
    self->state[arg0] = 2;
}

syscall::close:entry
/ self->state[arg0] == 1 /
{
    @unread[execname] = count();
}

syscall::close:entry
{
    self->state[arg0] = 0;
}
