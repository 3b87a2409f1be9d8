/* Which programs are begun? */
syscall::execve:return
{
    @[execname] = count();
}
