/* From when to when does each process live? Milliseconds from the trace's first row on. */
:::
{
    this->ms = (timestamp - 1795395141538087752) / 1000000;
    @first[pid, execname] = min(this->ms);
    @last[pid, execname] = max(this->ms);
}
