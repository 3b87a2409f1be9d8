/* Who makes processes and threads, and by which call? */
syscall::*fork:entry, syscall::clone*:entry
{
    @[execname, probefunc] = count();
}
