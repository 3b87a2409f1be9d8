/* Which calls fail, and whose are they? */
syscall:::return
/ arg0 == -1 /
{
    @[probefunc, execname] = count();
}
