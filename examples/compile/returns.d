syscall:::entry
{
    @all = count();
    @entered[probefunc] = count();
}

syscall:::return
{
    @all = count();
    @returned[probefunc] = count();
}
