/* What is begun when? */
BEGIN
{
    printf("%9s %6s %s\n", "us", "pid", "program");
}

syscall::execve:return
/ arg0 == 0 /
{
    printf("%9d %6d %s\n", (timestamp - 1795395141538087752) / 1000, pid, execname);
    @programs = count();
}

END
{
    printf("programs begun:");
}
