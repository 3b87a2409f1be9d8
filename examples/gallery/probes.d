/* Which probes does the trace have, and how often did each fire? */
syscall:::
{
    @[probeprov, probefunc, probename] = count();
}
