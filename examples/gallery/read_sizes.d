/* How much does a read give? */
syscall::read:return
/ arg0 >= 0 /
{
    @ = quantize(arg0);
}
