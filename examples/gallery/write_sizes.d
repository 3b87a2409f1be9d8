/* How large are the writes of each program, in steps of 1,024 bytes? */
syscall::write:entry
/ execname == "ls" || execname == "head" || execname == "cat" /
{
    @[execname] = lquantize(arg2, 0, 8192, 1024);
}
