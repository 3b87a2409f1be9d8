syscall::openat:return / arg0 >= 0 /
{
    self->opened[arg0] = timestamp;
}

syscall::close:entry / self->opened[arg0] /
{
    this->kept = (timestamp - self->opened[arg0]) / 1000;
    @longest[execname] = max(this->kept);
    self->opened[arg0] = 0;
}

syscall::close:entry / this->kept >= 10000 /
{
    printf("%-8s descriptor %2d was open for %6d us\n", execname, arg0, this->kept);
}
