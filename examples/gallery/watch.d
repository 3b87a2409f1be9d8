/* Watch until a program writes 4,096 bytes or more at once, and count what happens until then. */
syscall::write:entry
/ arg2 >= 4096 /
{
    printf("%s, process %d, writes %d bytes\n", execname, pid, arg2);
    exit(0);
}

syscall:::entry
{
    @[probefunc] = count();
}
