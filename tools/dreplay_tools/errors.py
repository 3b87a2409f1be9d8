"""The numbers of the kernel's errors by their names, as strace shows them."""
import errno

# Those that Python doesn't know. The first are of calls that a signal interrupted, which perf
# records likewise.
OTHERS = {
    "ERESTARTSYS": 512,
    "ERESTARTNOINTR": 513,
    "ERESTARTNOHAND": 514,
    "ENOIOCTLCMD": 515,
    "ERESTART_RESTARTBLOCK": 516,
    "EPROBE_DEFER": 517,
    "EOPENSTALE": 518,
    "ENOPARAM": 519,
    "EBADHANDLE": 521,
    "ENOTSYNC": 522,
    "EBADCOOKIE": 523,
    "ENOTSUPP": 524,
    "ETOOSMALL": 525,
    "ESERVERFAULT": 526,
    "EBADTYPE": 527,
    "EJUKEBOX": 528,
    "EIOCBQUEUED": 529,
    "ERECALLCONFLICT": 530,
    "EHWPOISON": 133,
}
# What a failed call returned, which is the error's number with a minus.
RETURNED = {name: -number for number, name in errno.errorcode.items()}
RETURNED.update((name, -number) for name, number in OTHERS.items())
