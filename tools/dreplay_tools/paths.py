"""The first path of a system call, as strace shows it."""
from .strace import ESCAPE, unescape

# The place of the first path among the arguments of the calls that take one.
AT = {
    0: "access acct chdir chmod chown chown32 chroot creat execve getxattr lchown lchown32 "
    "lgetxattr link listxattr llistxattr lremovexattr lsetxattr lstat lstat64 mkdir mknod mount "
    "open pivot_root readlink removexattr rename rmdir setxattr stat stat64 statfs statfs64 "
    "swapoff swapon symlink symlinkat truncate truncate64 umount umount2 unlink uselib utime "
    "utimes",
    1: "execveat faccessat faccessat2 fchmodat fchmodat2 fchownat fspick fstatat64 futimesat "
    "getxattrat inotify_add_watch linkat listxattrat mkdirat mknodat mount_setattr move_mount "
    "name_to_handle_at newfstatat open_tree openat openat2 quotactl readlinkat removexattrat "
    "renameat renameat2 setxattrat statx unlinkat utimensat utimensat_time64",
    4: "fanotify_mark",
}
PATHS = {name: place for place, names in AT.items() for name in names.split()}


def path_of(name, args):
    """The path that a call takes, or that of its first descriptor (strace -y), or no bytes."""
    place = PATHS.get(name)
    if place is not None and place < len(args):
        path = constant(args[place])
        if path:
            return path
    return next((path for path in map(of_descriptor, args) if path), b"")


def constant(shown):
    """The bytes of a text constant, which strace may have cut short."""
    shown = shown[:-3] if shown.endswith('"...') else shown
    if len(shown) < 2 or shown[0] != '"' or shown[-1] != '"':
        return b""
    return plain(shown[1:-1])


def of_descriptor(shown):
    """The path of a descriptor, as in 3</etc/passwd>."""
    number, mark, name = shown.partition("<")
    if not mark or not name.startswith("/") or not name.endswith(">"):
        return b""
    return plain(name[:-1]) if number.isdigit() and number.isascii() else b""


def plain(shown):
    return ESCAPE.sub(unescape, shown.encode("utf-8", "surrogateescape"))
