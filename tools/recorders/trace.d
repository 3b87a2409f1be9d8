#!/usr/sbin/dtrace -s
/* For DTrace itself: prints the system calls of a command, and of all that it starts, as rows of a
 * trace for dreplay. Copy it and change it.
 *
 *     dtrace -x bufsize=8m -s trace.d -c 'COMMAND' -o rows.csv
 *
 * Rows of two processors may be out of order, and none is numbered. This orders and numbers them:
 *
 *     (head -n 1 rows.csv; grep '^0,' rows.csv | sort -s -t , -k 6,6n |
 *         awk -F , -v OFS=, '{ $1 = NR; print }') > run.csv
 */
#pragma D option quiet

dtrace:::BEGIN
{
    printf("number,cpu,thread,pid,execname,time,provider,module,function,name,");
    printf("arg0,arg1,arg2,arg3,arg4,arg5,arg6,arg7,arg8,arg9\n");
}

syscall:::entry
/ progenyof($target) /
{
    printf("0,%d,%d,%d,\"%s\",%d,", cpu, tid, pid, execname, timestamp);
    printf("%s,%s,%s,%s,", probeprov, probemod, probefunc, probename);
    printf("%d,%d,%d,", (int64_t)arg0, (int64_t)arg1, (int64_t)arg2);
    printf("%d,%d,%d,,,,\n", (int64_t)arg3, (int64_t)arg4, (int64_t)arg5);
}

syscall:::return
/ progenyof($target) /
{
    printf("0,%d,%d,%d,\"%s\",%d,", cpu, tid, pid, execname, timestamp);
    printf("%s,%s,%s,%s,", probeprov, probemod, probefunc, probename);
    printf("%d,%d,,,,,,,,\n", (int64_t)arg0, (int64_t)arg1);
}
