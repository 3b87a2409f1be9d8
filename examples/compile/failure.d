BEGIN
{
    self->from = timestamp;
}

syscall:::entry
{
    @calls = count();
}

syscall::execve:return / arg0 < 0 /
{
    printf("%s: %s returned %d at %d\n", execname, probefunc, arg0, timestamp);
    exit(0);
}

END
{
    printf("the whole trace took %d us\n", (timestamp - self->from) / 1000);
}
