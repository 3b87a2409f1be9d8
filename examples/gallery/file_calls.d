/* Which programs look at files without opening them, and which open them? */
syscall::*stat*:entry, syscall::access:entry
{
    @looked[execname] = count();
}

syscall::open*:entry
{
    @opened[execname] = count();
}
