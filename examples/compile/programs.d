/* Which programs make processes, and by which call. */
syscall::*fork:entry, syscall::clone?:entry
{
    @made[execname, probefunc] = count();
}

/* Which programs begin another one, and which have been begun. */
syscall::exec*:
{
    @begun[probename, execname] = count();
}
