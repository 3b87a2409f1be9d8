/* Which programs make how many system calls? */
syscall:::entry
{
    @[execname] = count();
}
