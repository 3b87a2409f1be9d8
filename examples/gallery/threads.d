/* What do threads do that aren't the first of their process? */
syscall:::entry
/ tid != pid /
{
    @[execname, tid, probefunc] = count();
}
