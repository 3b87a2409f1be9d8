/* Who removes and renames files? */
syscall::unlink*:entry, syscall::rename*:entry
{
    @[execname, probefunc] = count();
}
