syscall::read:entry
{
    @reads[execname] = count();
}

syscall::write:entry
{
    @writes[execname] = count();
}
